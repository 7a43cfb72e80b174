// The stored cases of product and star: samples, refusals, blanks, the limits, and random requests of mostly small records.
#include "../drive/samples.hpp"
#include "book.hpp"

namespace stored {

namespace {

using generate::Chance;
using second::Machine;
using second::write_record;

const TwoService product = {"product", second::product};
const OneService star = {"star", second::star};

// Products with all words, the empty word and no word on either side, and stars of each.
void samples(Book& book)
{
    const Bytes pairs[] = {drive::x12(), drive::zeros(), drive::ones(), drive::nothing(2), drive::catalogue_record(1),
                           drive::catalogue_record(2), drive::catalogue_record(3), drive::nonempty_words(2)};
    for (const Bytes& first : pairs) {
        one_sizes(book, star, first);
        for (const Bytes& other : pairs) {
            two_sizes(book, product, first, other);
        }
    }
    for (std::size_t letters : {1, 8}) {
        const Bytes records[] = {drive::nothing(letters), drive::empty_word(letters), drive::all_words(letters),
                                 drive::nonempty_words(letters), drive::power(letters - 1, 3, letters)};
        for (const Bytes& first : records) {
            one_sizes(book, star, first);
            for (const Bytes& other : records) {
                book.two(product.name, product.expected, first, other);
            }
        }
    }
    one_sizes(book, star, drive::even_paths());
    one_sizes(book, star, drive::seven_cycle());
}

// Rows 1 to 7, on either side, and row 8.
void refusals(Book& book)
{
    for (const Bytes& record : drive::refused_records()) {
        book.one(star.name, star.expected, record);
        book.two(product.name, product.expected, record, Bytes{});
        book.two(product.name, product.expected, drive::x12(), record);
    }
    for (std::size_t size : {std::size_t{0}, ample}) {
        book.two(product.name, product.expected, drive::power(0, 31, 1), drive::power(0, 31, 2), size);
        book.two(product.name, product.expected, drive::nothing(8), drive::nothing(7), size);
    }
}

// A second record of 0 bytes after records over every number of letters; one of 1 to 6 bytes; a first record of 0 bytes.
void blanks(Book& book)
{
    for (std::size_t letters = 1; letters <= second::most_letters; ++letters) {
        two_sizes(book, product, drive::nothing(letters), Bytes{});
        two_sizes(book, product, drive::all_words(letters), Bytes{});
        book.two(product.name, product.expected, drive::power(letters - 1, 3, letters), Bytes{});
    }
    for (std::size_t length = 1; length < 7; ++length) {
        book.two(product.name, product.expected, drive::x12(), Bytes(length, 0x4E));
    }
    book.two(product.name, product.expected, Bytes{}, drive::x12());
    book.two(product.name, product.expected, Bytes{}, Bytes{});
}

// Row 11 on both sides of its limit, before row 12, and row 14 before both and after rows 1 to 7.
void limits(Book& book)
{
    for (const Bytes& record : drive::records_with_empty_word()) {
        one_sizes(book, star, record);
    }
    for (std::size_t one : {0, 1, 15, 16, 30, 31}) {
        for (std::size_t two : {0, 1, 15, 16, 31}) {
            two_sizes(book, product, drive::power(0, one, 1), drive::power(0, two, 1));
            book.two(product.name, product.expected, drive::power(0, one, 2), drive::power(1, two, 2));
        }
        one_sizes(book, star, drive::power(0, one, 1));
    }
    two_sizes(book, product, drive::lengths(32, 31, 0, 1), drive::lengths(32, 1, 0, 1));
    two_sizes(book, product, drive::power(0, 15, 8), drive::power(7, 16, 8));
    two_sizes(book, product, drive::power(7, 31, 8), drive::empty_word(8));
    for (std::size_t states : {1, 2, 3, 7, 31, 32}) {
        for (std::size_t left = 0; left < states; left += 1 + states / 8) {
            one_sizes(book, star, drive::lengths(states, left, 0, 1));
        }
        one_sizes(book, star, drive::lengths(states, states - 1, 7, 8));
    }
}

// Scattered machines have as many states as there can be: 32 and more.
void largest(Book& book, Chance& chance)
{
    for (std::size_t states : {31, 32}) {
        const Machine machine = generate::scattered(chance, states, 8, 1, 2);
        one_sizes(book, star, write_record(generate::without_empty_word(machine)));
        one_sizes(book, star, write_record(generate::without_empty_word(generate::scattered(chance, states, 2, 1, 2))));
    }
    for (std::size_t states : {16, 17}) {
        const Bytes first = write_record(generate::scattered(chance, states, 8, 1, 2));
        two_sizes(book, product, first, write_record(generate::scattered(chance, 16, 8, 1, 2)));
    }
    const Bytes first = write_record(generate::scattered(chance, 32, 2, 1, 2));
    book.two(product.name, product.expected, first, write_record(generate::scattered(chance, 32, 2, 1, 2)));
}

std::size_t few_states(Chance& chance)
{
    return chance.one_in(12) ? chance.between(5, 12) : chance.between(0, 4);
}

void random_star(Book& book, Chance& chance)
{
    const std::size_t letters = chance.between(1, 3);
    const Machine machine = generate::machine(chance, few_states(chance), letters);
    Bytes record = write_record(chance.one_in(6) ? machine : generate::without_empty_word(machine));
    if (chance.one_in(8)) {
        record = generate::damaged(chance, std::move(record));
    }
    const std::size_t needed = book.one(star.name, star.expected, record);
    if (chance.one_in(2)) {
        book.one(star.name, star.expected, record, generate::buffer_size(chance, needed));
    }
}

generate::Pair small_pair(Chance& chance)
{
    if (chance.one_in(2)) {
        return generate::any_pair(chance, few_states(chance));
    }
    const std::size_t letters = chance.between(1, 3);
    const Bytes first = write_record(generate::machine(chance, few_states(chance), letters));
    return {first, write_record(generate::machine(chance, few_states(chance), letters))};
}

void random_product(Book& book, Chance& chance)
{
    const generate::Pair pair = small_pair(chance);
    const std::size_t needed = book.two(product.name, product.expected, pair.first, pair.other);
    if (chance.one_in(2)) {
        book.two(product.name, product.expected, pair.first, pair.other, generate::buffer_size(chance, needed));
    }
}

}  // namespace

void chaining(Book& book, std::uint64_t seed, std::size_t count)
{
    Chance chance(seed + 1);
    samples(book);
    refusals(book);
    blanks(book);
    limits(book);
    largest(book, chance);
    // A quarter as many as of the others, and none of their chances.
    for (std::size_t number = 0; number < count / 4; ++number) {
        Chance own = generate::chance_of(seed, count + number);
        if (own.one_in(3)) {
            random_star(book, own);
        } else {
            random_product(book, own);
        }
    }
}

}  // namespace stored
