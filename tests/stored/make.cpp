// Makes the stored cases: requests of every service with the second program's answers, one to a line, the same from the same seed.
#include <cstdlib>

#include "../drive/samples.hpp"
#include "book.hpp"

namespace {

using generate::Chance;
using generate::Machine;
using second::Bytes;
using second::Word;
using second::write_record;
using stored::Book;
using stored::Input;
using stored::OneService;
using stored::TwoService;
using stored::joined;
using stored::one_sizes;
using stored::repeated;
using stored::two_sizes;

// But for product and star, whose cases stand after those of the others.
const OneService one_services[] = {{"rewrite", second::rewrite},
                                   {"minimal", second::minimal},
                                   {"complement", second::complement},
                                   {"mirror", second::mirror}};
const TwoService two_services[] = {{"compare", second::compare}, {"sum", second::sum}, {"meet", second::meet}};

void mark_sizes(Book& book, const Input& script, std::size_t index)
{
    for (std::size_t size : stored::sizes_of(book.mark(script, index))) {
        book.mark(script, index, size);
    }
}

// ---- fixed cases: the samples, the refusal table, the limits

void samples(Book& book)
{
    for (const Bytes& record : drive::sample_records()) {
        book.check(record);
        for (const OneService& service : one_services) {
            one_sizes(book, service, record);
        }
        for (const Word& word : {Word{}, Word{0}, Word{0, 0}, Word{0, 0, 0}, Word{0, 1}, Word{0, 2}}) {
            book.test(record, word);
        }
    }
    const Bytes pairs[] = {drive::x12(), drive::zeros(), drive::ones(), drive::nothing(2), drive::even_paths(),
                           drive::catalogue_record(1), drive::catalogue_record(3), drive::catalogue_record(4)};
    for (const Bytes& first : pairs) {
        for (const Bytes& other : pairs) {
            for (const TwoService& service : two_services) {
                two_sizes(book, service, first, other);
            }
        }
    }
}

// Rows 1 to 7, on either side.
void refusals(Book& book)
{
    for (const Bytes& record : drive::refused_records()) {
        book.check(record);
        book.test(record, Word{255});
        for (const OneService& service : one_services) {
            book.one(service.name, service.expected, record);
        }
        for (const TwoService& service : two_services) {
            book.two(service.name, service.expected, record, Bytes{});
            book.two(service.name, service.expected, drive::x12(), record);
        }
    }
}

// A second record of 0 bytes after each refused first record and after small ones over every number of letters, with short and exact
// buffers; one of 1 to 6 bytes; a first record of 0 bytes.
void blanks(Book& book)
{
    std::vector<Bytes> firsts = {drive::x12(), drive::zeros(), drive::even_paths(), drive::seven_cycle(), drive::power(0, 31, 1)};
    for (std::size_t letters = 1; letters <= second::most_letters; ++letters) {
        firsts.insert(firsts.end(), {drive::nothing(letters), drive::uniform(1, letters, 1), drive::power(letters - 1, 3, letters)});
    }
    for (const TwoService& service : two_services) {
        for (const Bytes& first : drive::refused_records()) {
            book.two(service.name, service.expected, first, Bytes{}, 0);
        }
        for (const Bytes& first : firsts) {
            two_sizes(book, service, first, Bytes{});
        }
        for (std::size_t length = 1; length < 7; ++length) {
            book.two(service.name, service.expected, drive::x12(), Bytes(length, 0x4E));
        }
        book.two(service.name, service.expected, Bytes{}, drive::x12());
        book.two(service.name, service.expected, Bytes{}, Bytes{});
    }
}

void catalogue(Book& book)
{
    for (std::size_t number = 0; number < 8; ++number) {
        for (std::size_t size : {0, 14, 15, 22, 23, 26, 27, 30, 31, 32, 1100}) {
            book.catalogue(number, size);
        }
    }
    for (std::size_t number : {std::size_t{255}, std::size_t{256}, std::size_t{1} << 32, SIZE_MAX}) {
        book.catalogue(number, 0);
    }
}

// The largest records there are, of every density, and records that are one over a limit.
void largest(Book& book, Chance& chance)
{
    for (const Bytes& record : drive::boundary_records()) {
        book.check(record);
        book.one("minimal", second::minimal, record);
    }
    const Machine machines[] = {generate::scattered(chance, 32, 8, 1, 2), generate::scattered(chance, 32, 8, 1, 32),
                                generate::permutation(chance, 32, 8), generate::feedback(chance, 32, 8)};
    for (const Machine& machine : machines) {
        const Bytes record = write_record(machine);
        for (const OneService& service : one_services) {
            book.one(service.name, service.expected, record);
        }
        book.one("minimal", second::minimal, record, second::record_length(machine) - 1);
        book.two("compare", second::compare, record, write_record(generate::rebased(chance, machine)));
    }
}

// The longest word of a comparison.
void longest_words(Book& book)
{
    for (std::size_t letters : {1, 2, 8}) {
        const std::size_t letter = letters - 1;
        Machine cycle = generate::only_power(letter, 31, letters);
        cycle.rows[letter][31][0] = 1;
        two_sizes(book, two_services[0], write_record(cycle), drive::power(letter, 31, letters));
        two_sizes(book, two_services[0], drive::power(letter, 31, letters), drive::nothing(letters));
    }
}

// Rows 10 and 11 on both sides of their limits: single words meet in few states, scattered machines in as many as the product.
void too_large(Book& book, Chance& chance)
{
    for (std::size_t one : {0, 1, 6, 7, 8, 15, 20, 30, 31}) {
        for (std::size_t two : {0, 1, 7, 12, 20, 31}) {
            book.two("meet", second::meet, drive::power(0, one, 1), drive::power(0, two, 1));
            book.two("sum", second::sum, drive::power(0, one, 2), drive::power(1, two, 2));
        }
        one_sizes(book, one_services[2], drive::power(0, one, 1));
    }
    for (std::size_t one : {2, 3, 4, 5, 6, 7, 8}) {
        for (std::size_t two : {4, 6, 8, 10, 16}) {
            const Bytes first = write_record(generate::scattered(chance, one, 2, 1, 2));
            book.two("meet", second::meet, first, write_record(generate::scattered(chance, two, 2, 1, 2)));
        }
    }
}

void long_words(Book& book)
{
    const Input zeros = repeated({0}, 70000), mixed = repeated({0, 1, 1, 0, 1}, 14000);
    for (const Bytes& record : {drive::x12(), drive::nothing(2), drive::catalogue_record(3), drive::uniform(32, 2, 0xDEADBEEFu)}) {
        book.test(record, zeros);
        book.test(record, mixed);
        book.test(record, joined(mixed, Bytes{2}));
        book.test(record, joined(Bytes{255}, mixed));
    }
}

// A word with a letter outside the alphabet is not accepted: the letter alone, many of it, and at the front, in the middle and at the end of
// a word. Beside each the same word without it.
void foreign_letters(Book& book)
{
    for (std::size_t letters : {1, 2, 8}) {
        const auto last = static_cast<std::uint8_t>(letters - 1);
        const Word word = {0, last, last, 0, last, 0};
        for (const Bytes& record : {drive::all_words(letters), drive::uniform(31, letters, 0x7FFFFFFFu), drive::nonempty_words(letters),
                                    drive::empty_word(letters), drive::power(last, 6, letters), drive::nothing(letters)}) {
            book.test(record, Bytes{});
            book.test(record, word);
            for (std::size_t letter : {letters, 2 * letters, std::size_t{128}, std::size_t{255}}) {
                const Bytes foreign = {static_cast<std::uint8_t>(letter)};
                book.test(record, foreign);
                book.test(record, repeated(foreign, 300));
                for (std::size_t place : {0, 3, 6}) {
                    Word pasted = word;
                    pasted.insert(pasted.begin() + static_cast<std::ptrdiff_t>(place), foreign[0]);
                    book.test(record, pasted);
                }
                book.test(record, joined(repeated(word, 1000), foreign));
                book.test(record, joined(foreign, repeated(word, 1000)));
            }
        }
    }
}

// ---- scripts

Bytes script_of(const std::vector<Bytes>& records)
{
    Bytes script;
    for (const Bytes& record : records) {
        script.insert(script.end(), record.begin(), record.end());
    }
    return script;
}

void every_line(Book& book, const Input& script, std::size_t lines)
{
    for (std::size_t index = 0; index < lines; ++index) {
        book.mark(script, index);
    }
    book.mark(script, lines, 0);
    book.mark(script, SIZE_MAX);
}

void refused_scripts(Book& book)
{
    const Bytes key = drive::catalogue_record(3);
    for (const Bytes& bad : drive::refused_records()) {
        every_line(book, script_of({bad, key}), 2);
        every_line(book, script_of({key, bad, drive::x12()}), 3);
    }
    for (std::size_t left = 0; left <= key.size(); left += 3) {
        Bytes script = script_of({key, key});
        script.resize(key.size() + left);
        every_line(book, script, 2);
    }
}

// A script of 0 bytes has no lines, one of 1 to 6 bytes the refusal of its key.
void short_scripts(Book& book)
{
    for (std::size_t size = 0; size < 7; ++size) {
        for (std::size_t index : {std::size_t{0}, std::size_t{1}, std::size_t{2}, std::size_t{4370}, SIZE_MAX}) {
            mark_sizes(book, Bytes(size, 0x4E), index);
        }
    }
}

void scripts(Book& book)
{
    const Bytes sample = script_of({drive::catalogue_record(4), drive::x12(), drive::catalogue_record(1)});
    for (std::size_t index = 0; index < 4; ++index) {
        mark_sizes(book, sample, index);
    }
    short_scripts(book);
    refused_scripts(book);
    // 65,536 bytes and one more or fewer, in records of no states: 15 bytes each, 4,369 of them and one byte over.
    const Bytes none = drive::nothing(2);
    for (const Input& script : {joined(repeated(none, 4369), Bytes{78}), joined(repeated(none, 4369), Bytes{78, 88}),
                                repeated(none, 4369), repeated(Bytes{0}, 65536), repeated(Bytes{0}, 65537)}) {
        for (std::size_t index : {0, 1, 9, 10, 4367, 4368, 4369, 4370}) {
            book.mark(script, index);
        }
    }
    // The longest line: an index of two digits, a dimension of 32 and a word of 63 letters.
    Machine cycle = generate::only_power(7, 31, 8);
    const Bytes single = write_record(cycle);
    cycle.rows[7][31][0] = 1;
    const Input longest = joined(write_record(cycle), repeated(single, 62));
    for (std::size_t index : {0, 1, 10, 62, 63}) {
        mark_sizes(book, longest, index);
    }
}

// ---- random cases, mostly of small records

std::size_t few_states(Chance& chance)
{
    return chance.one_in(12) ? chance.between(5, 10) : chance.between(0, 4);
}

Bytes small_record(Chance& chance)
{
    const std::size_t letters = chance.between(1, 3);
    Bytes record = write_record(generate::machine(chance, few_states(chance), letters));
    return chance.one_in(6) ? generate::damaged(chance, std::move(record)) : record;
}

Word small_word(Chance& chance, const Bytes& record)
{
    const std::size_t letters = record.size() > 6 && record[6] >= 1 && record[6] <= 8 ? record[6] : 2;
    const std::size_t length = chance.below(chance.one_in(8) ? 60 : 10);
    return generate::word(chance, length, chance.one_in(6) ? letters + 1 : letters);
}

Bytes small_script(Chance& chance)
{
    const std::size_t letters = chance.between(1, 2);
    const Machine key = generate::machine(chance, chance.between(0, 3), letters);
    Bytes script = write_record(key);
    for (std::size_t answers = chance.below(5); answers > 0; --answers) {
        Bytes answer;
        switch (chance.below(4)) {
        case 0: answer = write_record(generate::disguised(chance, key, chance.between(key.states, 5))); break;
        case 1: answer = write_record(generate::machine(chance, chance.between(0, 3), letters)); break;
        case 2: answer = write_record(generate::rebased(chance, key)); break;
        default: answer = small_record(chance); break;
        }
        script.insert(script.end(), answer.begin(), answer.end());
    }
    return chance.one_in(8) ? generate::damaged(chance, std::move(script)) : script;
}

void random_one(Book& book, Chance& chance)
{
    const OneService& service = one_services[chance.below(4)];
    const Bytes record = small_record(chance);
    const std::size_t needed = book.one(service.name, service.expected, record);
    if (chance.one_in(2)) {
        book.one(service.name, service.expected, record, generate::buffer_size(chance, needed));
    }
}

void random_two(Book& book, Chance& chance)
{
    const TwoService& service = two_services[chance.below(3)];
    const generate::Pair pair = chance.one_in(40) ? generate::meeting_pair(chance) : generate::any_pair(chance, few_states(chance));
    const std::size_t needed = book.two(service.name, service.expected, pair.first, pair.other);
    if (chance.one_in(2)) {
        book.two(service.name, service.expected, pair.first, pair.other, generate::buffer_size(chance, needed));
    }
}

void random_script(Book& book, Chance& chance)
{
    const Bytes script = small_script(chance);
    const std::size_t index = chance.below(5);
    const std::size_t needed = book.mark(script, index);
    if (chance.one_in(2)) {
        book.mark(script, index, generate::buffer_size(chance, needed));
    }
}

void random_case(Book& book, Chance& chance)
{
    switch (chance.below(8)) {
    case 0:
        book.check(small_record(chance));
        break;
    case 1: {
        const Bytes record = small_record(chance);
        book.test(record, small_word(chance, record));
        break;
    }
    case 2:
    case 3:
        random_one(book, chance);
        break;
    case 4:
        random_script(book, chance);
        break;
    default:
        random_two(book, chance);
        break;
    }
}

}  // namespace

// The seed, and how many random cases.
int main(int argc, char** argv)
{
    const std::uint64_t seed = argc > 1 ? std::strtoull(argv[1], nullptr, 10) : 1;
    const std::size_t count = argc > 2 ? std::strtoull(argv[2], nullptr, 10) : 2000;
    Book book(seed);
    Chance chance(seed);
    samples(book);
    refusals(book);
    blanks(book);
    catalogue(book);
    largest(book, chance);
    longest_words(book);
    too_large(book, chance);
    long_words(book);
    scripts(book);
    for (std::size_t number = 0; number < count; ++number) {
        Chance own = generate::chance_of(seed, number);
        random_case(book, own);
    }
    stored::chaining(book, seed, count);
    foreign_letters(book);
    book.finish();
    return 0;
}
