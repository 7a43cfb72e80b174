// Driver: sum, meet, complement and mirror of the desk against the second program, with laws.
#include "run.hpp"
#include "samples.hpp"

namespace {

using drive::Answer;
using drive::Bytes;
using drive::Chance;
using drive::Run;
using drive::agree;
using drive::granted;
using drive::with_size;

Answer sum(Run& run, const Bytes& first, const Bytes& other, std::size_t lent = drive::ample)
{
    return run.two("sum", nxa_sum, second::sum, first, other, lent);
}

Answer meet(Run& run, const Bytes& first, const Bytes& other, std::size_t lent = drive::ample)
{
    return run.two("meet", nxa_meet, second::meet, first, other, lent);
}

Answer complement(Run& run, const Bytes& record, std::size_t lent = drive::ample)
{
    return run.one("complement", nxa_complement, second::complement, record, lent);
}

Answer mirror(Run& run, const Bytes& record, std::size_t lent = drive::ample)
{
    return run.one("mirror", nxa_mirror, second::mirror, record, lent);
}

Answer minimal(Run& run, const Bytes& record)
{
    return run.one("minimal", nxa_minimal, second::minimal, record, drive::ample);
}

void blank(Run& run, const Bytes& first)
{
    run.two_blank("sum", nxa_sum, second::sum, first);
    run.two_blank("meet", nxa_meet, second::meet, first);
}

void laws_of_one(Run& run, const Bytes& record)
{
    const Answer own = minimal(run, record);
    if (!granted(own)) {
        return;
    }
    const std::vector<Bytes> inputs = {record};
    const Bytes nothing = drive::nothing(record[6]);
    const Answer square = meet(run, record, record);
    run.law(granted(square) == (own.reply.value <= 8) && agree(square, own), "A met with A is A", inputs);
    run.law(sum(run, record, record).written() == nothing, "A and A sum to nothing", inputs);
    run.law(sum(run, record, nothing).written() == own.written(), "A and nothing sum to A", inputs);
    run.law(sum(run, record, {}).written() == own.written(), "A and a blank sum to A", inputs);
    run.law(meet(run, record, {}).written() == nothing, "A met with a blank is nothing", inputs);
    const Answer backward = mirror(run, record);
    run.law(backward.reply.length == own.reply.length, "the mirror keeps the dimension", inputs);
    run.law(mirror(run, backward.written()).written() == own.written(), "mirrored twice is A", inputs);
    const Answer lacking = complement(run, record);
    if (!granted(lacking)) {
        run.law(lacking.reply.number == 11 && own.reply.value == 32, "only 33 states are too many", inputs);
        return;
    }
    run.law(complement(run, lacking.written()).written() == own.written(), "complement twice is A", inputs);
    const Bytes everything = complement(run, nothing).written();
    run.law(sum(run, record, lacking.written()).written() == everything, "A and the rest sum to all", inputs);
    run.law(meet(run, everything, record).written() == own.written(), "A met with all is A", inputs);
    const Answer none = meet(run, record, lacking.written());
    run.law(!granted(none) || none.written() == nothing, "A met with the rest is nothing", inputs);
}

void laws_of_two(Run& run, const Bytes& first, const Bytes& other)
{
    const std::vector<Bytes> inputs = {first, other};
    const Answer total = sum(run, first, other);
    const Answer common = meet(run, first, other);
    if (granted(total)) {
        run.law(agree(total, sum(run, other, first)), "a sum in either order", inputs);
        const Answer parts = sum(run, mirror(run, first).written(), mirror(run, other).written());
        run.law(granted(parts) && agree(mirror(run, total.written()), parts), "mirror of a sum", inputs);
        run.law(agree(sum(run, total.written(), other), minimal(run, first)), "B taken off again", inputs);
    }
    if (granted(common)) {
        run.law(agree(common, meet(run, other, first)), "a meet in either order", inputs);
        const Answer parts = meet(run, mirror(run, first).written(), mirror(run, other).written());
        run.law(granted(parts) && agree(mirror(run, common.written()), parts), "mirror of a meet", inputs);
        run.law(agree(meet(run, common.written(), other), common), "met again with B", inputs);
    }
}

void every_size(Run& run, const Bytes& first, const Bytes& other)
{
    run.two_sizes("sum", nxa_sum, second::sum, first, other);
    run.two_sizes("meet", nxa_meet, second::meet, first, other);
    run.one_sizes("complement", nxa_complement, second::complement, first);
    run.one_sizes("mirror", nxa_mirror, second::mirror, first);
}

// The limits: products of 63, 64 and more, dimensions of 32 and more.
void limits(Run& run)
{
    for (std::size_t one = 0; one < 32; ++one) {
        for (std::size_t two = 0; two < 32; ++two) {
            for (std::size_t size : {0, 143, 1039}) {
                meet(run, drive::power(0, one, 1), drive::power(0, two, 1), size);
                sum(run, drive::power(0, one, 2), drive::power(1, two, 2), size);
            }
        }
        every_size(run, drive::power(0, one, 1), drive::power(0, 31, 1));
        laws_of_one(run, drive::power(one % 8, one, 8));
    }
    every_size(run, drive::power(0, 8, 1), drive::power(0, 7, 1));
    every_size(run, drive::power(0, 7, 1), drive::power(0, 7, 1));
    every_size(run, drive::power(0, 20, 2), drive::power(1, 20, 2));
    // Lengths by two numbers that share no divisor: their meet has as many states as the product says, 28, 33, 35 and 56. Row 10 passes all.
    for (std::size_t one : {4, 5, 8}) {
        every_size(run, drive::lengths(one, 1, 0, 1), drive::lengths(7, 2, 0, 1));
        every_size(run, drive::lengths(one, 0, 7, 8), drive::lengths(7, 0, 7, 8));
    }
    every_size(run, drive::lengths(3, 1, 0, 1), drive::lengths(11, 2, 0, 1));
}

// A second record of 0 bytes, refused first records before the others; a first one is refused whatever the second is.
void blanks(Run& run)
{
    for (const Bytes& record : drive::records_before_a_blank()) {
        blank(run, record);
        for (std::size_t size : {std::size_t{0}, drive::ample}) {
            sum(run, {}, record, size);
            meet(run, {}, record, size);
        }
    }
}

// The minimal record too, which the laws ask for: a run is to see every number of each service that it asks.
void refusals(Run& run)
{
    std::vector<Bytes> records = drive::refused_records();
    records.push_back(drive::power(0, 8, 2));
    records.push_back(drive::power(0, 31, 1));
    for (const Bytes& first : records) {
        run.one_sizes("minimal", nxa_minimal, second::minimal, first);
        for (const Bytes& other : records) {
            every_size(run, first, other);
        }
    }
}

void samples(Run& run)
{
    std::vector<Bytes> records = {drive::x12(), drive::even_paths(), drive::seven_cycle(), drive::zeros(),
                                  drive::ones()};
    for (std::size_t number = 0; number <= 5; ++number) {
        records.push_back(drive::catalogue_record(number));
    }
    for (const Bytes& first : records) {
        laws_of_one(run, first);
        for (const Bytes& other : records) {
            every_size(run, first, other);
            if (first[6] == other[6]) {
                laws_of_two(run, first, other);
            }
        }
    }
}

void fixed_cases(Run& run)
{
    blanks(run);
    samples(run);
    limits(run);
    refusals(run);
    for (const Bytes& record : drive::boundary_records()) {
        every_size(run, record, drive::nothing(8));
        every_size(run, record, record);
    }
}

void random_case(Run& run, Chance& chance)
{
    switch (chance.below(10)) {
    case 0:
    case 1:
        with_size(run, chance, complement, generate::any_record(chance));
        break;
    case 2:
    case 3:
        with_size(run, chance, mirror, generate::any_record(chance));
        break;
    case 4:
    case 5: {
        const generate::Pair pair = generate::any_pair(chance, chance.one_in(2) ? 16 : 32);
        with_size(run, chance, sum, pair.first, pair.other);
        if (pair.other.empty()) {
            blank(run, pair.first);
        }
        break;
    }
    case 6: {
        const generate::Pair pair = generate::any_pair(chance, chance.one_in(2) ? 8 : 32);
        with_size(run, chance, meet, pair.first, pair.other);
        break;
    }
    case 7: {
        const generate::Pair pair = generate::meeting_pair(chance);
        with_size(run, chance, meet, pair.first, pair.other);
        break;
    }
    case 8:
        laws_of_one(run, generate::record(chance));
        break;
    default: {
        const generate::Pair pair = generate::meeting_pair(chance);
        laws_of_two(run, pair.first, pair.other);
        break;
    }
    }
}

}  // namespace

int main(int argc, char** argv)
{
    Run run("operations", argc, argv);
    fixed_cases(run);
    run.cases([&](Chance& chance) { random_case(run, chance); });
    return run.finish();
}
