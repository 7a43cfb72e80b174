// Driver: the comparison of the desk against the second program.
#include "run.hpp"
#include "samples.hpp"

namespace {

using drive::Bytes;
using drive::Chance;
using drive::Run;
using second::Machine;

void one_size(Run& run, const Bytes& first, const Bytes& other, std::size_t size)
{
    run.two("compare", nxa_compare, second::compare, first, other, size);
}

void every_size(Run& run, const Bytes& first, const Bytes& other)
{
    run.two_sizes("compare", nxa_compare, second::compare, first, other);
    run.two_sizes("compare", nxa_compare, second::compare, other, first);
}

// Words of one letter whose length leaves 31 on division by 32.
Machine long_cycle(std::size_t letter, std::size_t letters)
{
    Machine machine = generate::only_power(letter, 31, letters);
    machine.rows[letter][31][0] = 1;
    return machine;
}

// The cycle and the single word agree up to 62 letters: no difference can come later than the 63rd.
void longest_words(Run& run)
{
    for (std::size_t letters : {1, 2, 8}) {
        for (std::size_t letter = 0; letter < letters; ++letter) {
            const Bytes cycle = second::write_record(long_cycle(letter, letters));
            const Bytes single = drive::power(letter, 31, letters);
            every_size(run, cycle, single);
            every_size(run, single, drive::nothing(letters));
            for (std::size_t size = 61; size < 66; ++size) {
                one_size(run, cycle, single, size);
            }
        }
    }
}

// Rows 1 to 8 on either side, and both sides at once.
void refusals(Run& run)
{
    std::vector<Bytes> records = drive::refused_records();
    records.push_back(drive::x12());
    records.push_back(drive::nothing(1));
    for (const Bytes& first : records) {
        for (const Bytes& other : records) {
            for (std::size_t size : {0, 1, 64}) {
                one_size(run, first, other, size);
            }
        }
    }
}

// A second record of 0 bytes, refused first records before the others; a first one is refused whatever the second is.
void blanks(Run& run)
{
    for (const Bytes& record : drive::records_before_a_blank()) {
        run.two_blank("compare", nxa_compare, second::compare, record);
        one_size(run, {}, record, 0);
        one_size(run, {}, record, 64);
    }
}

void fixed_cases(Run& run)
{
    blanks(run);
    for (const Bytes& record : drive::boundary_records()) {
        every_size(run, record, drive::nothing(8));
    }
    refusals(run);
    for (const Bytes& first : drive::sample_records()) {
        for (const Bytes& other : drive::sample_records()) {
            every_size(run, first, other);
        }
    }
    for (const Bytes& first : drive::smallest_records()) {
        for (const Bytes& other : drive::smallest_records()) {
            one_size(run, first, other, 5);
        }
    }
    longest_words(run);
}

// Half of the cases lend an ample buffer only; the others one more, whose size is chosen by what is needed.
void random_case(Run& run, Chance& chance)
{
    const bool sized = chance.one_in(2);
    const generate::Pair pair = generate::any_pair(chance, second::most_states);
    const auto answer = run.two("compare", nxa_compare, second::compare, pair.first, pair.other, 63);
    if (sized) {
        one_size(run, pair.first, pair.other, generate::buffer_size(chance, answer.reply.length));
    }
    if (pair.other.empty()) {
        run.two_blank("compare", nxa_compare, second::compare, pair.first);
    }
}

}  // namespace

int main(int argc, char** argv)
{
    Run run("compare", argc, argv);
    fixed_cases(run);
    run.cases([&](Chance& chance) { random_case(run, chance); });
    return run.finish();
}
