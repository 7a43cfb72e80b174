// Times product and star beside the sum of operands of the same sizes, in one run, from record bytes to answer bytes. Build: see README.md in
// this folder. Needs no yardstick: nothing but the archive is timed.
#include <algorithm>
#include <cstdio>
#include <cstdlib>
#include <string>
#include <vector>
#include "plain_machine.hpp"
#include "machines.hpp"
#include "timing.hpp"
extern "C" {
#include "nxa.h"
}

static u8 out[NXA_RECORD_MAX];

// An input of a family: the operands of the sum. The product has the same two, the star the first.
struct Operands { Bytes first, second; };

static nxa_reply product(const Operands& in) {
    return nxa_product(in.first.data(), in.first.size(), in.second.data(), in.second.size(), out, sizeof out);
}
static nxa_reply star(const Operands& in) {
    return nxa_star(in.first.data(), in.first.size(), out, sizeof out);
}
static nxa_reply sum(const Operands& in) {
    return nxa_sum(in.first.data(), in.first.size(), in.second.data(), in.second.size(), out, sizeof out);
}

struct Family {
    std::string name;
    nxa_reply (*operation)(const Operands&);
    std::vector<Operands> in;
    Timer own = {}, beside = {};

    double ratio() const { return own.best / beside.best; }

    // A slice of each.
    double turn() {
        return own.slice(in.size(), [&](size_t i) { sink = operation(in[i]).length; }) + beside.slice(in.size(), [&](size_t i) { sink = sum(in[i]).length; });
    }
};
static std::vector<Family> families;

// Both get past their checks: what may be refused is the dimension alone, which is known when as many rows are found as there are states.
static void add_family(const std::string& name, nxa_reply (*operation)(const Operands&), std::vector<Operands> in) {
    for (const Operands& each : in)
        for (size_t number : {operation(each).number, sum(each).number})
            if (number != NXA_GRANTED && number != NXA_DIMENSION) {
                std::printf("%s: refused (%lu)\n", name.c_str(), (unsigned long)number);
                std::exit(1);
            }
    families.push_back({name, operation, std::move(in)});
}

// No state is final that a path begins in, but for an even number.
static Machine without_empty_word(Machine m) {
    u64 common = m.I & m.F;
    if (__builtin_parityll(common)) m.F ^= common & -common;
    return m;
}

static void time_product(int n, int a) {
    std::vector<Operands> random, single;
    for (int i = 0; i < INPUTS; i++) {
        random.push_back({record_of(dense(n, a)), record_of(dense(n, a))});
        single.push_back({record_of(deterministic(n, a)), record_of(deterministic(n, a))});
    }
    add_family("product random dense" + size_of(n, a), product, random);
    add_family("product deterministic" + size_of(n, a), product, single);
}

static void time_star(int n, int a) {
    std::vector<Operands> random;
    for (int i = 0; i < INPUTS; i++) random.push_back({record_of(without_empty_word(dense(n, a))), record_of(dense(1, a))});
    add_family("star random dense" + size_of(n, a), star, random);
}

static void print_families() {
    std::printf("%-42s %8s %8s   %6s\n", "microseconds for one call", "own", "sum", "ratio");
    for (const Family& f : families) std::printf("%-42s %8.3f %8.3f   %6.2f\n", f.name.c_str(), f.own.best, f.beside.best, f.ratio());
    const Family& worst = *std::max_element(families.begin(), families.end(), [](const Family& f, const Family& g) { return f.ratio() < g.ratio(); });
    std::printf("worst to the sum: %.2f, %s\n", worst.ratio(), worst.name.c_str());
}

int main(int argc, char** argv) {
    double budget = argc > 1 ? std::atof(argv[1]) : 0.25;
    for (int n : {2, 4, 8, 16, 32})
        for (int a : {1, 2, 4, 8}) time_product(n, a);
    for (int n : {2, 4, 8, 16, 31, 32})
        for (int a : {1, 2, 4, 8}) time_star(n, a);
    time_in_passes(families, 2 * budget);
    print_families();
}
