// Driver: product and star of the desk against the second program, with laws.
#include "run.hpp"
#include "samples.hpp"

namespace {

using drive::Answer;
using drive::Bytes;
using drive::Chance;
using drive::Run;
using drive::agree;
using drive::granted;
using drive::with_size;

Answer product(Run& run, const Bytes& first, const Bytes& other, std::size_t lent = drive::ample)
{
    return run.two("product", nxa_product, second::product, first, other, lent);
}

Answer star(Run& run, const Bytes& record, std::size_t lent = drive::ample)
{
    return run.one("star", nxa_star, second::star, record, lent);
}

Answer sum(Run& run, const Bytes& first, const Bytes& other)
{
    return run.two("sum", nxa_sum, second::sum, first, other, drive::ample);
}

Answer mirror(Run& run, const Bytes& record)
{
    return run.one("mirror", nxa_mirror, second::mirror, record, drive::ample);
}

// The same record, or the same dimension refused.
bool alike(const Answer& one, const Answer& two)
{
    return one.reply.number == two.reply.number && one.reply.place == two.reply.place && agree(one, two);
}

// ---- laws; A, B and C are well formed and over the same letters

// S is the star of A: the words of S are the empty one and those of AS, and as well those of SA.
void laws_of_star(Run& run, const Bytes& record, const Bytes& repeated)
{
    const std::vector<Bytes> inputs = {record};
    const Bytes unit = drive::empty_word(record[6]);
    run.law(star(run, repeated).reply.number == 14, "S accepts the empty word, so it has no star", inputs);
    run.law(alike(mirror(run, repeated), star(run, mirror(run, record).written())), "mirror of a star", inputs);
    const Answer after = product(run, record, repeated), before = product(run, repeated, record);
    run.law(alike(after, before), "AS is SA", inputs);
    // Every quotient of AS is an xor of products of quotients of A with S, so AS needs no more states than A.
    run.law(granted(after) && after.written()[5] <= record[5], "AS in the states of A", inputs);
    run.law(sum(run, unit, after.written()).written() == repeated, "S is the empty word and AS", inputs);
    const Answer with_unit = sum(run, unit, record);
    if (granted(with_unit)) {
        run.law(product(run, with_unit.written(), repeated).written() == unit, "S undoes the empty word and A", inputs);
        run.law(product(run, repeated, with_unit.written()).written() == unit, "S undoes it from the left", inputs);
    }
}

void laws_of_one(Run& run, const Bytes& record)
{
    const std::vector<Bytes> inputs = {record};
    const Answer own = run.one("minimal", nxa_minimal, second::minimal, record, drive::ample);
    const Bytes unit = drive::empty_word(record[6]), nothing = drive::nothing(record[6]);
    run.law(product(run, record, unit).written() == own.written(), "A, then the empty word is A", inputs);
    run.law(product(run, unit, record).written() == own.written(), "the empty word, then A is A", inputs);
    run.law(product(run, record, nothing).written() == nothing, "A, then nothing is nothing", inputs);
    run.law(product(run, nothing, record).written() == nothing, "nothing, then A is nothing", inputs);
    run.law(product(run, record, {}).written() == nothing, "A, then a blank is nothing", inputs);
    const Answer repeated = star(run, record);
    run.law((repeated.reply.number == 14) == (run.test(record, {}).reply.value == 1), "14 exactly with the empty word", inputs);
    if (granted(repeated)) {
        laws_of_star(run, record, repeated.written());
    } else if (repeated.reply.number != 14) {
        run.law(repeated.reply.place == 33 && own.reply.value == 32, "only 33 states are too many", inputs);
    }
}

void laws_of_two(Run& run, const Bytes& first, const Bytes& other)
{
    const Answer chain = product(run, first, other);
    const Answer parts = product(run, mirror(run, other).written(), mirror(run, first).written());
    run.law(chain.reply.number == parts.reply.number && chain.reply.place == parts.reply.place, "a product mirrored", {first, other});
    if (granted(chain)) {
        run.law(agree(mirror(run, chain.written()), parts), "mirror of a product", {first, other});
    }
}

void laws_of_three(Run& run, const Bytes& a, const Bytes& b, const Bytes& c)
{
    const std::vector<Bytes> inputs = {a, b, c};
    const Answer ab = product(run, a, b), ac = product(run, a, c), bc = product(run, b, c);
    if (granted(ab) && granted(bc)) {
        run.law(alike(product(run, ab.written(), c), product(run, a, bc.written())), "(AB)C is A(BC)", inputs);
    }
    const Answer after = sum(run, b, c), before = sum(run, a, b);
    if (granted(after) && granted(ab) && granted(ac)) {
        run.law(alike(product(run, a, after.written()), sum(run, ab.written(), ac.written())), "A, then a sum", inputs);
    }
    if (granted(before) && granted(ac) && granted(bc)) {
        run.law(alike(product(run, before.written(), c), sum(run, ac.written(), bc.written())), "a sum, then C", inputs);
    }
}

// ---- fixed cases

void product_sizes(Run& run, const Bytes& first, const Bytes& other)
{
    run.two_sizes("product", nxa_product, second::product, first, other);
}

void star_sizes(Run& run, const Bytes& record)
{
    run.one_sizes("star", nxa_star, second::star, record);
}

// Row 11: the product of only 0^i and only 0^j has i + j + 1 states, that of two cycles of 32 has 64.
void product_limits(Run& run)
{
    for (std::size_t one = 0; one < 32; ++one) {
        for (std::size_t two = 0; two < 32; ++two) {
            for (std::size_t size : {0, 143, 1039}) {
                product(run, drive::power(0, one, 1), drive::power(0, two, 1), size);
            }
            product(run, drive::power(0, one, 2), drive::power(1, two, 2));
        }
        laws_of_one(run, drive::power(0, one, 1));
        product(run, drive::power(7, one, 8), drive::power(0, 31 - one, 8));
    }
    for (std::size_t length = 1; length < 32; length += 15) {
        product_sizes(run, drive::power(7, length, 8), drive::power(7, 31 - length, 8));
        product_sizes(run, drive::power(7, length, 8), drive::power(7, 32 - length, 8));
    }
    product_sizes(run, drive::power(0, 15, 1), drive::power(0, 16, 1));
    product_sizes(run, drive::power(0, 16, 1), drive::power(0, 16, 1));
    product_sizes(run, drive::power(0, 31, 8), drive::power(7, 31, 8));
    product_sizes(run, drive::lengths(32, 31, 0, 1), drive::lengths(32, 1, 0, 1));
}

// Row 14, after rows 1 to 7 and before 11. The lengths that leave 0 on division by n have the empty word; the others have a star of n + 1
// states, and so row 11 with n = 32.
void star_limits(Run& run)
{
    for (const Bytes& record : drive::records_with_empty_word()) {
        star_sizes(run, record);
    }
    for (std::size_t states = 1; states <= 32; ++states) {
        for (std::size_t left = 0; left < states; ++left) {
            star(run, drive::lengths(states, left, 0, 1));
            star(run, drive::lengths(states, left, 0, 1), 0);
        }
        laws_of_one(run, drive::lengths(states, states - 1, 0, 1));
        star_sizes(run, drive::lengths(states, states - 1, 7, 8));
        star_sizes(run, drive::power(7, states - 1, 8));
    }
    laws_of_one(run, drive::lengths(31, 30, 7, 8));
    laws_of_one(run, drive::power(7, 31, 8));
}

// A second record of 0 bytes, refused first records before the others; a first one is refused whatever the second is.
void blanks(Run& run)
{
    for (const Bytes& record : drive::records_before_a_blank()) {
        run.two_blank("product", nxa_product, second::product, record);
        product(run, {}, record, 0);
        product(run, {}, record);
    }
}

// The services too that only the laws ask: a run is to see every number of each service that it asks.
void refusals(Run& run)
{
    std::vector<Bytes> records = drive::refused_records();
    records.push_back(drive::power(0, 8, 2));
    records.push_back(drive::power(0, 31, 1));
    records.push_back(drive::lengths(32, 31, 0, 1));
    records.push_back(drive::lengths(32, 0, 0, 1));
    for (const Bytes& first : records) {
        star_sizes(run, first);
        run.test(first, {});
        run.one_sizes("minimal", nxa_minimal, second::minimal, first);
        run.one_sizes("mirror", nxa_mirror, second::mirror, first);
        for (const Bytes& other : records) {
            product_sizes(run, first, other);
            run.two_sizes("sum", nxa_sum, second::sum, first, other);
        }
    }
}

void samples(Run& run)
{
    std::vector<Bytes> records = {drive::x12(), drive::even_paths(), drive::seven_cycle(), drive::zeros(), drive::ones()};
    for (std::size_t number = 0; number <= 5; ++number) {
        records.push_back(drive::catalogue_record(number));
    }
    for (std::size_t letters : {1, 2, 8}) {
        records.insert(records.end(), {drive::nothing(letters), drive::empty_word(letters), drive::all_words(letters),
                                       drive::nonempty_words(letters), drive::power(letters - 1, 3, letters)});
    }
    for (const Bytes& first : records) {
        laws_of_one(run, first);
        star_sizes(run, first);
        for (const Bytes& other : records) {
            product_sizes(run, first, other);
            if (first[6] == other[6]) {
                laws_of_two(run, first, other);
                laws_of_three(run, first, other, drive::nonempty_words(first[6]));
            }
        }
    }
}

void fixed_cases(Run& run)
{
    blanks(run);
    samples(run);
    product_limits(run);
    star_limits(run);
    refusals(run);
    for (const Bytes& record : drive::boundary_records()) {
        star_sizes(run, record);
        product_sizes(run, record, drive::nothing(8));
        product_sizes(run, record, record);
    }
    for (const Bytes& first : drive::smallest_records()) {
        star(run, first);
        for (const Bytes& other : drive::smallest_records()) {
            product(run, first, other);
        }
    }
}

// ---- random cases

Bytes stranger(Chance& chance, std::size_t most, std::size_t letters)
{
    return second::write_record(generate::machine(chance, chance.between(0, most), letters));
}

// A record that row 14 does not refuse.
Bytes without_empty_word(Chance& chance)
{
    const std::size_t states = generate::state_count(chance);
    const second::Machine machine = generate::machine(chance, states, generate::letter_count(chance));
    return second::write_record(generate::without_empty_word(machine));
}

void random_case(Run& run, Chance& chance)
{
    const std::size_t letters = generate::letter_count(chance);
    switch (chance.below(10)) {
    case 0:
        with_size(run, chance, star, generate::any_record(chance));
        break;
    case 1:
    case 2:
        with_size(run, chance, star, without_empty_word(chance));
        break;
    case 3:
    case 4: {
        const generate::Pair pair = generate::any_pair(chance, chance.one_in(2) ? 17 : 32);
        with_size(run, chance, product, pair.first, pair.other);
        if (pair.other.empty()) {
            run.two_blank("product", nxa_product, second::product, pair.first);
        }
        break;
    }
    case 5: {
        const Bytes first = stranger(chance, chance.one_in(2) ? 17 : 32, letters);
        with_size(run, chance, product, first, stranger(chance, 17, letters));
        break;
    }
    case 6:
        laws_of_one(run, generate::record(chance));
        break;
    case 7:
        laws_of_one(run, without_empty_word(chance));
        break;
    case 8: {
        const Bytes first = stranger(chance, 18, letters);
        laws_of_two(run, first, stranger(chance, 18, letters));
        break;
    }
    default: {
        const Bytes first = stranger(chance, 10, letters), other = stranger(chance, 10, letters);
        laws_of_three(run, first, other, stranger(chance, 14, letters));
        break;
    }
    }
}

}  // namespace

int main(int argc, char** argv)
{
    Run run("chaining", argc, argv);
    fixed_cases(run);
    run.cases([&](Chance& chance) { random_case(run, chance); });
    return run.finish();
}
