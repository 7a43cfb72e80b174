// Self-test of the second program, product and star: the samples, the refusals, and large machines by another way.
#include "halves.hpp"
#include "selftest.hpp"

namespace selftest {

namespace {

using generate::Chance;
using second::Bits;
using second::Kind;
using second::Language;
using second::Machine;

const Bytes x_minimal = fields(2, 2, {1, 3, 2, 3, 1, 1});
const Bytes nonempty = fields(2, 1, {1, 2, 2, 2});   // all nonempty words over one letter

// Words of one letter whose length leaves `left` on division by `states`.
Bytes lengths(std::size_t states, std::size_t left)
{
    Machine machine = generate::only_power(0, states - 1, 1);
    machine.rows[0][states - 1][0] = 1;
    machine.accepting = Bits(states, 0);
    machine.accepting[left] = 1;
    return second::write_record(machine);
}

Bytes all_words(std::uint8_t letters)
{
    return fields(1, letters, std::vector<unsigned>(2 + letters, 1));
}

Bytes no_word(std::uint8_t letters)
{
    return fields(0, letters, {0, 0});
}

void product_samples()
{
    expect(bytes_of(second::product, x_minimal, catalogue(1))[5] == 3, "X and then any word");
    for (std::uint8_t letters = 1; letters <= 8; ++letters) {
        const Bytes word = power(letters - 1, 3, letters), empty_word = power(0, 0, letters), none = no_word(letters);
        expect(bytes_of(second::product, word, empty_word) == word, "the empty word after a word", letters);
        expect(bytes_of(second::product, empty_word, word) == word, "the empty word before a word", letters);
        expect(bytes_of(second::product, word, none) == none, "a word, then no word", letters);
        expect(bytes_of(second::product, none, word) == none, "no word, then a word", letters);
        expect(bytes_of(second::product, none, Bytes{}) == none, "no word, then a blank", letters);
        expect(bytes_of(second::product, word, word) == power(letters - 1, 6, letters), "a word twice", letters);
    }
    // A word of k letters has k + 1 cuts into any two words.
    const Bytes twice = bytes_of(second::product, all_words(1), all_words(1));
    for (std::size_t length = 0; length < 12; ++length) {
        expect((second::test(twice, Word(length, 0)).value == 1) == (length % 2 == 0), "all words, then all words", length);
    }
    expect(bytes_of(second::product, power(0, 15, 1), power(0, 16, 1)) == power(0, 31, 1), "only 0^15, then only 0^16");
}

void product_refusals()
{
    Bytes out(2000, untouched), none, shorter(142, 7);
    expect(is_refusal(second::product(power(0, 16, 1), power(0, 16, 1), out), 11, 0, 33), "only 0^16, then only 0^16");
    expect(is_refusal(second::product(power(0, 31, 1), power(0, 31, 1), out), 11, 0, 63), "only 0^31, then only 0^31");
    expect(is_refusal(second::product(lengths(32, 31), lengths(32, 1), out), 11, 0, 64), "the largest dimension of a product");
    expect(is_refusal(second::product(power(0, 16, 1), power(0, 16, 1), none), 11, 0, 33), "row 11 before 12 of a product");
    expect(is_refusal(second::product(power(0, 31, 1), power(0, 31, 2), none), 8, 2, 6), "row 8 before 11 of a product");
    expect(is_refusal(second::product(power(0, 15, 1), power(0, 16, 1), shorter), 12, 0, 143), "row 12 of a product");
    expect(out == Bytes(2000, untouched) && shorter == Bytes(142, 7), "a refused product writes nothing");
}

void star_samples()
{
    expect(bytes_of(second::star, nonempty) == fields(2, 1, {1, 3, 2, 0}), "all nonempty words over one letter");
    expect(bytes_of(second::star, fields(2, 1, {1, 3, 2, 0})).empty(), "and once more");
    for (std::uint8_t letters = 1; letters <= 8; ++letters) {
        expect(bytes_of(second::star, no_word(letters)) == power(0, 0, letters), "the star of no word", letters);
    }
    expect(bytes_of(second::star, power(0, 31, 1)) == lengths(31, 0), "the star of only 0^31");
    for (std::size_t left = 1; left < 31; ++left) {
        expect(bytes_of(second::star, lengths(31, left))[5] == 32, "a star of dimension 32", left);
    }
}

void star_refusals()
{
    Bytes out(2000, untouched), none, shorter(22, 7);
    for (std::size_t left = 1; left < 32; ++left) {
        expect(is_refusal(second::star(lengths(32, left), out), 11, 0, 33), "a star of dimension 33", left);
        expect(is_refusal(second::star(lengths(32, left), none), 11, 0, 33), "row 11 before 12 of a star", left);
    }
    for (const Bytes& record : {catalogue(1), catalogue(2), catalogue(4), power(0, 0, 8), lengths(32, 0)}) {
        expect(is_refusal(second::star(record, out), 14, 1, 0), "row 14");
        expect(is_refusal(second::star(record, none), 14, 1, 0), "row 14 before 11 and 12");
    }
    expect(is_refusal(second::star({}, out), 1, 1, 0), "the star of 0 bytes");
    expect(is_refusal(second::star(fields(1, 1, {1, 3, 0}), out), 7, 1, 11), "row 7 before 14");
    // Two states are both initial and final: an even number, and the empty word is not accepted.
    expect(bytes_of(second::star, fields(2, 1, {3, 3, 1, 2})) == power(0, 0, 1), "an even number of paths along the empty word");
    expect(is_refusal(second::star(nonempty, shorter), 12, 0, 23), "row 12 of a star");
    expect(out == Bytes(2000, untouched) && shorter == Bytes(22, 7), "a refused star writes nothing");
}

unsigned char odd_in_common(const Bits& row, const Bits& column)
{
    unsigned char odd = 0;
    for (std::size_t i = 0; i < column.size(); ++i) {
        odd ^= row[i] & column[i];
    }
    return odd;
}

// A machine for the product: the two side by side. Wherever a path ends in the first, one more begins in the second.
Machine chained(const Machine& one, const Machine& two)
{
    Machine joint = generate::direct_sum(one, two);
    const auto begin = [&](Bits& row) {
        const unsigned char ends = odd_in_common(row, one.accepting);
        for (std::size_t i = 0; i < two.states; ++i) {
            row[one.states + i] = ends & two.initial[i];
        }
    };
    begin(joint.initial);
    for (std::size_t i = 0; i < one.states; ++i) {
        joint.accepting[i] = 0;
        for (auto& matrix : joint.rows) {
            begin(matrix[i]);
        }
    }
    return joint;
}

// A machine for the star of a language without the empty word: wherever a path ends, one more begins. A further state, the last, is there
// before any letter; it goes on as the initial ones do.
Machine circled(const Machine& machine)
{
    const std::size_t start = machine.states;
    Machine joint = generate::direct_sum(machine, second::blank_machine(1, machine.letters));
    for (auto& matrix : joint.rows) {
        for (std::size_t i = 0; i < start; ++i) {
            for (std::size_t j = 0; j < start; ++j) {
                matrix[start][j] ^= machine.initial[i] & matrix[i][j];
            }
        }
        for (Bits& row : matrix) {
            const unsigned char ends = odd_in_common(row, machine.accepting);
            for (std::size_t j = 0; j < start; ++j) {
                row[j] ^= ends & machine.initial[j];
            }
        }
    }
    joint.initial = Bits(start, 0);
    joint.initial.push_back(1);
    joint.accepting[start] = 1;
    return joint;
}

bool same(const Machine& one, const Machine& two)
{
    return one.initial == two.initial && one.accepting == two.accepting && one.rows == two.rows;
}

Word part(const Word& word, std::size_t from, std::size_t to)
{
    return Word(word.begin() + static_cast<std::ptrdiff_t>(from), word.begin() + static_cast<std::ptrdiff_t>(to));
}

bool odd_cuts_into_two(const Machine& one, const Machine& two, const Word& word)
{
    std::size_t count = 0;
    for (std::size_t cut = 0; cut <= word.size(); ++cut) {
        count += second::accepts(one, part(word, 0, cut)) && second::accepts(two, part(word, cut, word.size())) ? 1 : 0;
    }
    return count % 2 == 1;
}

// The cuts of each beginning, by those of shorter ones. Whole numbers that wrap at 2^64: wrapping keeps their parity.
bool odd_cuts_into_words(const Machine& machine, const Word& word)
{
    std::vector<std::uint64_t> cuts = {1};
    for (std::size_t to = 1; to <= word.size(); ++to) {
        cuts.push_back(0);
        for (std::size_t from = 0; from < to; ++from) {
            cuts[to] += second::accepts(machine, part(word, from, to)) ? cuts[from] : 0;
        }
    }
    return cuts.back() % 2 == 1;
}

// What the two halves of a word say of it, cut in two at this place.
bool by_halves(const Language& language, const Word& word, std::size_t place)
{
    second::Parts front = second::front_of_empty(language), back = second::back_of_empty(language);
    for (std::size_t i = 0; i < place; ++i) {
        front = second::front_after(language, front, word[i]);
    }
    for (std::size_t i = word.size(); i > place; --i) {
        back = second::back_before(language, back, word[i - 1]);
    }
    return second::truth(language, front, back);
}

}  // namespace

void cut_samples()
{
    product_samples();
    product_refusals();
    star_samples();
    star_refusals();
}

// The minimal machines once more from machines for the whole; and some words by their cuts, also in two halves.
void large_cuts(Chance& chance, std::size_t number)
{
    const std::size_t letters = generate::letter_count(chance);
    const Machine one = generate::machine(chance, generate::state_count(chance), letters);
    const Machine two = generate::machine(chance, generate::state_count(chance), letters);
    const Machine lacking = generate::without_empty_word(one);
    const Language chain{Kind::product, {one, two}}, circle{Kind::star, {lacking}};
    const Machine product = second::minimal_machine(chain);
    const Machine star = second::minimal_machine(circle);
    expect(same(product, second::minimal_machine({Kind::own, {chained(one, two)}})), "a product by another way", number);
    expect(same(star, second::minimal_machine({Kind::own, {circled(lacking)}})), "a star by another way", number);
    for (std::size_t words = 0; words < 4; ++words) {
        const Word word = generate::word(chance, chance.below(24), letters);
        const std::size_t place = chance.between(0, word.size());
        const bool in_product = odd_cuts_into_two(one, two, word);
        const bool in_star = odd_cuts_into_words(lacking, word);
        expect(second::accepts(product, word) == in_product, "a word of a product", number);
        expect(second::accepts(star, word) == in_star, "a word of a star", number);
        expect(by_halves(chain, word, place) == in_product, "a word of a product in two halves", number);
        expect(by_halves(circle, word, place) == in_star, "a word of a star in two halves", number);
    }
}

}  // namespace selftest
