// Times nxa_test on words that have one foreign letter beside the same words without it, in one run, from bytes to the answer. Build: see
// README.md in this folder. Needs no yardstick: nothing but the archive is timed.
#include <cstdio>
#include <cstdlib>
#include <string>
#include <vector>
#include "plain_machine.hpp"
#include "machines.hpp"
#include "timing.hpp"
extern "C" {
#include "nxa.h"
}

// Where the foreign letter stands.
enum Place { NOWHERE, END, MIDDLE, FRONT, PLACES };

struct Input { Bytes record, word; };

static nxa_reply test(const Input& in) {
    return nxa_test(in.record.data(), in.record.size(), in.word.data(), in.word.size());
}

struct Family {
    std::string name;
    std::vector<Input> in[PLACES];
    Timer timer[PLACES] = {};

    double ratio(int place) const { return timer[place].best / timer[NOWHERE].best; }

    // A slice of each.
    double turn() {
        double spent = 0;
        for (int place = 0; place < PLACES; place++)
            spent += timer[place].slice(in[place].size(), [&](size_t i) { sink = test(in[place][i]).value; });
        return spent;
    }
};
static std::vector<Family> families;

static Bytes random_word(size_t length, int a) {
    Bytes word(length);
    for (u8& letter : word) letter = (u8)(random64() % a);
    return word;
}

// The same word, as long as before, with the first byte that is no letter at this place.
static Bytes with_foreign(Bytes word, int a, int place) {
    if (place != NOWHERE) word[place == END ? word.size() - 1 : place == MIDDLE ? word.size() / 2 : 0] = (u8)a;
    return word;
}

// Whether some state is left after the whole word. In a random machine of few states there soon is none, and then nothing to do for a letter.
static bool lasts(const Machine& m, const Bytes& word) {
    u64 row = m.I;
    for (u8 letter : word) {
        u64 next = 0;
        for (u64 left = row; left; left &= left - 1) next ^= m.T[letter][__builtin_ctzll(left)];
        row = next;
    }
    return row != 0;
}

template <class M> static void add_input(Family& f, int n, int a, M machine, size_t length) {
    Bytes word = random_word(length, a);
    Machine m = machine(n, a);
    while (!lasts(m, word)) m = machine(n, a);
    for (int place = 0; place < PLACES; place++) f.in[place].push_back({record_of(m), with_foreign(word, a, place)});
}

// A word of the record's own letters is not refused, and one with a foreign letter not accepted.
static void hold(const Family& f) {
    for (int place = 0; place < PLACES; place++)
        for (const Input& in : f.in[place]) {
            nxa_reply reply = test(in);
            if (place == NOWHERE ? reply.number != NXA_GRANTED : reply.value != 0) {
                std::printf("%s: number %lu, value %lu\n", f.name.c_str(), (unsigned long)reply.number, (unsigned long)reply.value);
                std::exit(1);
            }
        }
}

template <class M> static void add_family(const std::string& name, int n, int a, M machine, size_t length, int inputs) {
    Family f = {std::to_string(length) + " letters, " + name + size_of(n, a), {}};
    for (int i = 0; i < inputs; i++) add_input(f, n, a, machine, length);
    hold(f);
    families.push_back(f);
}

static void add_families(size_t length, int inputs) {
    auto random = [](int n, int a) { return dense(n, a); };
    add_family("all words", 1, 2, loops, length, inputs);
    add_family("deterministic", 8, 2, deterministic, length, inputs);
    add_family("random dense", 8, 2, random, length, inputs);
    add_family("random dense", 32, 2, random, length, inputs);
    add_family("random dense", 32, 8, random, length, inputs);
}

static void print_families() {
    std::printf("%-42s %9s %9s %9s %9s   %6s %6s %6s\n", "microseconds for one call", "without", "end", "middle", "front", "end", "middle", "front");
    for (const Family& f : families) {
        std::printf("%-42s", f.name.c_str());
        for (const Timer& t : f.timer) std::printf(" %9.3f", t.best);
        std::printf("   %6.2f %6.2f %6.2f\n", f.ratio(END), f.ratio(MIDDLE), f.ratio(FRONT));
    }
}

int main(int argc, char** argv) {
    double budget = argc > 1 ? std::atof(argv[1]) : 0.25;
    add_families(1000000, 1);  // one word, which no branch predictor knows by heart
    add_families(12, INPUTS);
    time_in_passes(families, PLACES * budget);
    print_families();
}
