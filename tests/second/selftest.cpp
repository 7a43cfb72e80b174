// Self-test of the second program: the samples, brute force on small machines, other ways on large ones.
#include <cstdio>
#include <cstdlib>

#include "brute.hpp"
#include "generate.hpp"
#include "language.hpp"
#include "selftest.hpp"

namespace selftest {

namespace {

std::size_t checks = 0;
std::size_t failed = 0;

}  // namespace

void expect(bool holds, const char* what, std::size_t which)
{
    ++checks;
    if (!holds) {
        ++failed;
        std::printf("failed: %s %zu\n", what, which);
    }
}

int finish()
{
    std::printf("second: %zu checks, %zu failed\n", checks, failed);
    return failed == 0 ? 0 : 1;
}

}  // namespace selftest

namespace {

using generate::Chance;
using second::Bits;
using second::Bytes;
using second::Machine;
using second::Reply;
using second::Word;
using second::write_record;
using selftest::bytes_of;
using selftest::expect;
using selftest::reply_of;

// A small machine with every bit left to chance, or of one of the generator's shapes.
Machine small(Chance& chance, std::size_t most, std::size_t letters)
{
    const std::size_t states = chance.between(0, most);
    return chance.one_in(3) ? generate::machine(chance, states, letters)
                            : generate::scattered(chance, states, letters, 1, 2);
}

// Row 14 exactly where the empty word is accepted, else the star.
void brute_star(const Machine& machine, std::size_t number)
{
    const Bytes record = write_record(machine);
    brute::Oracle language = brute::oracle_of(machine);
    if (language({})) {
        expect(selftest::is_refusal(reply_of(second::star, record), 14, 1, 0), "brute star of the empty word", number);
        return;
    }
    brute::Oracle repeated([&](const Word& word) { return brute::cuts_into_words(language, word) % 2 == 1; });
    expect(bytes_of(second::star, record) == brute::minimal_record(repeated, machine.states + 1, machine.letters),
           "brute star", number);
}

void brute_single(Chance& chance, std::size_t number)
{
    const std::size_t letters = chance.between(1, 2);
    const Machine machine = small(chance, 3, letters);
    const Bytes record = write_record(machine);
    brute::Oracle language = brute::oracle_of(machine);
    for (const Word& word : brute::words_shorter_than(6, letters)) {
        expect((second::test(record, word).value == 1) == language(word), "brute test", number);
    }
    for (const Word& word : brute::words_shorter_than(5, letters + 1)) {
        const Reply reply = second::test(record, word);
        expect(reply.number == 0 && (reply.value == 1) == language(word), "brute test with a foreign letter", number);
    }
    const std::size_t rank = brute::table_rank(language, machine.states, letters);
    expect(reply_of(second::minimal, record).value == rank, "brute dimension", number);
    expect(bytes_of(second::minimal, record) == brute::minimal_record(language, machine.states, letters),
           "brute minimal", number);
    brute::Oracle mirrored([&](const Word& word) { return language(Word(word.rbegin(), word.rend())); });
    expect(bytes_of(second::mirror, record) == brute::minimal_record(mirrored, machine.states, letters),
           "brute mirror", number);
    brute::Oracle lacking([&](const Word& word) { return !language(word); });
    expect(bytes_of(second::complement, record) == brute::minimal_record(lacking, machine.states + 1, letters),
           "brute complement", number);
    brute_star(machine, number);
}

// A second record for this machine: its own, or one of 0 bytes where that means the same.
Bytes second_record(Chance& chance, const Machine& machine)
{
    return machine.states == 0 && chance.one_in(2) ? Bytes{} : write_record(machine);
}

void brute_compare(Chance& chance, std::size_t number)
{
    const std::size_t letters = chance.between(1, 2);
    const Machine one = small(chance, 3, letters);
    const Machine two = chance.one_in(3) ? generate::rebased(chance, one) : small(chance, 3, letters);
    brute::Oracle first = brute::oracle_of(one);
    brute::Oracle other = brute::oracle_of(two);
    Word expected;
    const bool differs = brute::first_difference(first, other, one.states + two.states, letters, expected);
    Bytes word(10, 9);
    const Reply reply = second::compare(write_record(one), second_record(chance, two), word);
    word.resize(reply.length);
    const std::size_t side = !differs ? 0 : first(expected) ? 1 : 2;
    expect(reply.number == 0 && reply.value == side && word == expected, "brute compare", number);
}

void brute_pair(Chance& chance, std::size_t number)
{
    const std::size_t letters = chance.between(1, 2);
    const Machine one = small(chance, 2, letters);
    const Machine two = small(chance, 2, letters);
    brute::Oracle first = brute::oracle_of(one);
    brute::Oracle other = brute::oracle_of(two);
    brute::Oracle either([&](const Word& word) { return first(word) != other(word); });
    brute::Oracle both([&](const Word& word) { return first(word) && other(word); });
    brute::Oracle chain([&](const Word& word) { return brute::cuts_into_two(first, other, word) % 2 == 1; });
    const Bytes first_record = write_record(one);
    const Bytes other_record = second_record(chance, two);
    expect(bytes_of(second::sum, first_record, other_record)
               == brute::minimal_record(either, one.states + two.states, letters),
           "brute sum", number);
    expect(bytes_of(second::meet, first_record, other_record)
               == brute::minimal_record(both, one.states * two.states, letters),
           "brute meet", number);
    expect(bytes_of(second::product, first_record, other_record)
               == brute::minimal_record(chain, one.states + two.states, letters),
           "brute product", number);
}

// Rows of states, each cleared of the leading entries of those before it.
class Earlier {
public:
    // Keeps the row and says yes when it is no xor of those kept before.
    bool is_new(Bits row)
    {
        for (const Bits& kept : kept_) {
            std::size_t lead = 0;
            while (kept[lead] == 0) {
                ++lead;
            }
            const unsigned char factor = row[lead];
            for (std::size_t i = 0; i < row.size(); ++i) {
                row[i] ^= factor & kept[i];
            }
        }
        const bool found = row != Bits(row.size(), 0);
        if (found) {
            kept_.push_back(std::move(row));
        }
        return found;
    }

private:
    std::vector<Bits> kept_;
};

struct Visit {
    Word word;
    Bits states;
};

Visit visit_after(const Machine& machine, const Visit& visit, std::size_t letter)
{
    Visit next{visit.word, Bits(machine.states, 0)};
    next.word.push_back(static_cast<std::uint8_t>(letter));
    for (std::size_t i = 0; i < machine.states; ++i) {
        for (std::size_t j = 0; visit.states[i] != 0 && j < machine.states; ++j) {
            next.states[j] ^= machine.rows[letter][i][j];
        }
    }
    return next;
}

bool accepts_at(const Machine& machine, const Visit& visit)
{
    std::size_t common = 0;
    for (std::size_t i = 0; i < machine.states; ++i) {
        common += visit.states[i] * machine.accepting[i];
    }
    return common % 2 == 1;
}

// The first difference once more, by going forward through the direct sum in shortlex order; only
// words whose states are no xor of those of earlier words are gone on from.
bool forward_difference(const Machine& joint, Word& found)
{
    std::vector<Visit> visits;
    Earlier earlier;
    const auto offer = [&](Visit visit) {
        if (earlier.is_new(visit.states)) {
            visits.push_back(std::move(visit));
        }
    };
    offer({{}, joint.initial});
    for (std::size_t next = 0; next < visits.size(); ++next) {
        if (accepts_at(joint, visits[next])) {
            found = visits[next].word;
            return true;
        }
        for (std::size_t letter = 0; letter < joint.letters; ++letter) {
            offer(visit_after(joint, visits[next], letter));
        }
    }
    return false;
}

void large_pair(Chance& chance, std::size_t number)
{
    const generate::Pair pair = generate::any_pair(chance, 32);
    Bytes word(64, 9);
    const Reply reply = second::compare(pair.first, pair.other, word);
    if (reply.number != 0) {
        return;
    }
    word.resize(reply.length);
    const Machine one = second::read_record(pair.first);
    // The services on one record know no blank.
    const Bytes own = pair.other.empty() ? write_record(second::blank_machine(0, one.letters)) : pair.other;
    const Machine two = second::read_record(own);
    Word expected;
    const bool differs = forward_difference(generate::direct_sum(one, two), expected);
    expect((reply.value != 0) == differs && word == expected, "forward difference", number);
    const bool first = second::test(pair.first, word).value == 1;
    const bool other = second::test(own, word).value == 1;
    expect(!differs || (first != other && first == (reply.value == 1)), "who accepts the word", number);
    expect(differs == (bytes_of(second::minimal, pair.first) != bytes_of(second::minimal, own)),
           "same language, same minimal record", number);
    const Machine hidden = generate::rebased(chance, one);
    expect(bytes_of(second::minimal, write_record(hidden)) == bytes_of(second::minimal, pair.first),
           "another basis, the same minimal record", number);
}

std::size_t argument(int count, char** values, int which, std::size_t otherwise)
{
    return which < count ? std::strtoull(values[which], nullptr, 10) : otherwise;
}

}  // namespace

int main(int argc, char** argv)
{
    const std::size_t seed = argument(argc, argv, 1, 1);
    const std::size_t rounds = argument(argc, argv, 2, 4000);
    selftest::all_samples();
    selftest::cut_samples();
    for (std::size_t number = 0; number < rounds; ++number) {
        Chance chance = generate::chance_of(seed, number);
        brute_single(chance, number);
        brute_compare(chance, number);
        brute_pair(chance, number);
        if (number % 8 == 0) {
            large_pair(chance, number);
            selftest::large_cuts(chance, number);
        }
    }
    return selftest::finish();
}
