// Self-test of the second program, first part: the samples, the refusal table and the catalogue of 01.
#include <string>

#include "selftest.hpp"

namespace selftest {

namespace {

const Bytes x12 = fields(4, 2, {1, 3, 2, 4, 1, 8, 1, 1, 8, 8});
const Bytes x_minimal = fields(2, 2, {1, 3, 2, 3, 1, 1});
const Bytes zeros = fields(1, 2, {1, 1, 1, 0});   // 0*
const Bytes ones = fields(1, 2, {1, 1, 0, 1});    // 1*
const Bytes nothing = fields(0, 2, {0, 0});
const Bytes everything = fields(1, 2, {1, 1, 1, 1});

void record_refusals()
{
    const Bytes good = x12;
    Bytes bad = good;
    expect(is_refusal(second::check({}), 1, 1, 0), "row 1");
    expect(is_refusal(second::check({0, 0, 0}), 1, 1, 3), "row 1 before 2");
    bad[2] = 0x42;
    expect(is_refusal(second::check(bad), 2, 1, 2), "row 2");
    bad = good;
    bad[3] = 2;
    expect(is_refusal(second::check(bad), 3, 1, 3), "row 3");
    bad[3] = 1;
    bad[4] = 1;
    expect(is_refusal(second::check(bad), 3, 1, 3), "row 3, version 257");
    bad = good;
    bad[5] = 33;
    expect(is_refusal(second::check(bad), 4, 1, 5), "row 4");
    bad[6] = 9;
    expect(is_refusal(second::check(bad), 4, 1, 5), "row 4 before 5");
    bad = good;
    bad[6] = 9;
    expect(is_refusal(second::check(bad), 5, 1, 6), "row 5");
    bad[6] = 0;
    expect(is_refusal(second::check(bad), 5, 1, 6), "row 5, none");
    bad = fields(0, 1, {0, 0});
    bad.push_back(0);
    expect(is_refusal(second::check(bad), 6, 1, 15), "row 6");
    expect(is_refusal(second::check(fields(1, 1, {2, 0, 0})), 7, 1, 7), "row 7 in I");
    expect(is_refusal(second::check(fields(1, 1, {1, 2, 0})), 7, 1, 11), "row 7 in F");
    expect(is_refusal(second::check(fields(1, 2, {1, 0, 1, 2})), 7, 1, 19), "row 7 in a row");
    expect(second::check(good).number == 0, "a good record");
    expect(second::check(fields(32, 8, std::vector<unsigned>(258, 0xFFFFFFFFu))).number == 0, "n 32, a 8");
    expect(is_refusal(second::check(fields(33, 8, std::vector<unsigned>(266, 0))), 4, 1, 5), "n 33");
    expect(is_refusal(second::check(fields(32, 9, std::vector<unsigned>(290, 0))), 5, 1, 6), "n 32, a 9");
}

void service_refusals()
{
    Bytes out(2000, 0);
    const Bytes one_letter = fields(0, 1, {0, 0});
    expect(is_refusal(second::sum(one_letter, nothing, out), 8, 2, 6), "row 8");
    expect(is_refusal(second::compare({0}, {0, 0}, out), 1, 1, 1), "first record first");
    expect(is_refusal(second::compare(nothing, {0}, out), 1, 2, 1), "second record");
    expect(is_refusal(second::meet(power(0, 8, 1), power(0, 7, 1), out), 10, 0, 72), "row 10");
    expect(is_refusal(second::sum(power(0, 20, 2), power(1, 20, 2), out), 11, 0, 40), "row 11");
    Bytes shorter(30, 7);
    expect(is_refusal(second::minimal(x12, shorter), 12, 0, 31), "row 12");
    expect(shorter == Bytes(30, 7), "row 12 writes nothing");
    expect(is_refusal(second::catalogue(6, shorter), 13, 0, 6), "row 13");
    Bytes none;
    expect(is_refusal(second::catalogue(6, none), 13, 0, 6), "row 13 before 12");
    expect(is_refusal(second::compare(everything, x12, none), 12, 0, 2), "row 12 of a comparison");
    expect(second::compare(everything, nothing, none).value == 1, "an empty word needs no bytes");
    expect(second::compare(x_minimal, x12, none).number == 0, "the same needs no bytes");
}

bool is_not_accepted(const Reply& reply)
{
    return reply.number == 0 && reply.record == 0 && reply.place == 0 && reply.length == 0 && reply.value == 0;
}

// The word with each of some foreign letters at each place.
void foreign_in(const Bytes& record, const Word& word)
{
    const std::uint8_t letters = record[6];
    for (std::uint8_t foreign : {letters, static_cast<std::uint8_t>(2 * letters), std::uint8_t{128}, std::uint8_t{255}}) {
        for (std::size_t place = 0; place <= word.size(); ++place) {
            Word pasted = word;
            pasted.insert(pasted.begin() + static_cast<std::ptrdiff_t>(place), foreign);
            expect(is_not_accepted(second::test(record, pasted)), "a foreign letter", foreign);
        }
    }
}

// A word with a foreign letter is not accepted, wherever that letter comes. The first record accepts every word, so that one would be
// accepted that is read without the letter, or with another one in its place, or only up to it. Refusals of the record come first.
void foreign_letters()
{
    for (std::uint8_t letters = 1; letters <= 8; ++letters) {
        const auto last = static_cast<std::uint8_t>(letters - 1);
        const Bytes all = fields(1, letters, std::vector<unsigned>(2 + letters, 1));
        for (const Word& word : {Word{}, Word{last}, Word{0, last, 0}, Word{last, last, 0, last, 0, 0}}) {
            expect(second::test(all, word).value == 1, "all words", letters);
            for (const Bytes& record : {all, power(last, 0, letters), power(last, 1, letters), fields(0, letters, {0, 0})}) {
                foreign_in(record, word);
            }
        }
        expect(is_not_accepted(second::test(all, Word(9, letters))), "foreign letters alone", letters);
    }
    expect(is_refusal(second::test({}, {255}), 1, 1, 0), "row 1 before a foreign letter");
    expect(is_refusal(second::test(fields(1, 1, {2, 0, 0}), {0, 255}), 7, 1, 7), "row 7 before a foreign letter");
}

// A second record of 0 bytes: the first record's own refusals, then what the record with no states gives over the same letters.
void blanks()
{
    const Bytes blank;
    for (const auto service : {second::compare, second::sum, second::meet, second::product}) {
        expect(is_refusal(reply_of(service, blank, blank), 1, 1, 0), "both of 0 bytes");
        expect(is_refusal(reply_of(service, blank, x12), 1, 1, 0), "the first of 0 bytes");
        expect(is_refusal(reply_of(service, fields(1, 1, {2, 0, 0}), blank), 7, 1, 7), "a refused first before a blank");
        for (std::size_t length = 1; length < 7; ++length) {
            expect(is_refusal(reply_of(service, x12, Bytes(length, 0x4E)), 1, 2, length), "a second of 1 to 6 bytes", length);
        }
    }
    for (std::uint8_t letters = 1; letters <= 8; ++letters) {
        const Bytes word(3, static_cast<std::uint8_t>(letters - 1));
        const Bytes first = power(letters - 1, 3, letters);
        const Bytes none = fields(0, letters, {0, 0});
        expect(bytes_of(second::compare, first, blank) == word && reply_of(second::compare, first, blank).value == 1,
               "compared with a blank", letters);
        expect(reply_of(second::compare, none, blank).number == 0 && reply_of(second::compare, none, blank).value == 0,
               "nothing is the same as a blank", letters);
        expect(bytes_of(second::sum, first, blank) == first, "the sum with a blank", letters);
        expect(bytes_of(second::meet, first, blank) == none, "the meet with a blank", letters);
        expect(bytes_of(second::product, first, blank) == none, "the product with a blank", letters);
        Bytes shorter(14, 7);
        expect(is_refusal(second::meet(first, blank, shorter), 12, 0, 15) && shorter == Bytes(14, 7), "row 12 with a blank", letters);
    }
    expect(bytes_of(second::sum, x12, blank) == x_minimal, "X and a blank");
}

void catalogue_samples()
{
    expect(catalogue(0) == nothing, "catalogue", 0);
    expect(catalogue(1) == everything, "catalogue", 1);
    expect(catalogue(2) == fields(1, 2, {1, 1, 0, 0}), "catalogue", 2);
    expect(catalogue(3) == fields(2, 2, {1, 2, 1, 1, 2, 2}), "catalogue", 3);
    expect(catalogue(4) == x_minimal, "catalogue", 4);
    expect(catalogue(5) == fields(3, 1, {1, 7, 2, 4, 5}), "catalogue", 5);
    for (std::size_t length = 0; length < 30; ++length) {
        const std::size_t left = length % 7;
        const bool in = left == 0 || left == 1 || left == 2 || left == 4;
        expect((second::test(catalogue(5), Word(length, 0)).value == 1) == in, "catalogue 5 accepts", length);
    }
    for (std::size_t number = 0; number <= 5; ++number) {
        expect(bytes_of(second::minimal, catalogue(number)) == catalogue(number), "catalogue is minimal", number);
    }
}

void language_samples()
{
    for (const Word& word : {Word{}, Word{0}, Word{1}, Word{0, 0, 0}}) {
        expect(second::test(x12, word).value == 1 && second::test(x_minimal, word).value == 1, "sample 1 accepts");
    }
    for (const Word& word : {Word{0, 0}, Word{0, 0, 1}}) {
        expect(second::test(x12, word).value == 0 && second::test(x_minimal, word).value == 0, "sample 1 rejects");
    }
    expect(bytes_of(second::minimal, x12) == x_minimal && x_minimal.size() == 31, "sample 2");
    expect(bytes_of(second::compare, x12, everything) == Bytes{0, 0}, "sample 3");
    expect(reply_of(second::compare, x12, everything).value == 2, "sample 3, accepted by the second");
    expect(reply_of(second::minimal, nothing).value == 0, "sample 4");
    expect(bytes_of(second::complement, nothing) == everything, "sample 4, complement");
    const Bytes twice = fields(2, 1, {3, 3, 1, 2});
    expect(bytes_of(second::minimal, twice) == fields(0, 1, {0, 0}), "sample 5");
    expect(bytes_of(second::sum, zeros, ones)[5] == 2, "sample 6, sum");
    expect(bytes_of(second::meet, zeros, ones) == catalogue(2), "sample 6, meet");
    const Bytes cycle = fields(7, 1, {1, 23, 2, 4, 8, 16, 32, 64, 1});
    expect(bytes_of(second::minimal, cycle) == catalogue(5), "sample 7");
    const Bytes begins = bytes_of(second::mirror, catalogue(3));
    expect(begins[5] == 2 && second::test(begins, {1, 0}).value == 1 && second::test(begins, {0, 1}).value == 0,
           "sample 8");
    const Bytes long_one = power(0, 31, 1);
    expect(reply_of(second::minimal, long_one).value == 32, "sample 9, dimension");
    expect(bytes_of(second::compare, long_one, fields(0, 1, {0, 0})) == Bytes(31, 0), "sample 9, word");
    expect(is_refusal(reply_of(second::complement, long_one), 11, 0, 33), "sample 9, complement");
    expect(reply_of(second::meet, power(0, 7, 1), power(0, 7, 1)).number == 0, "sample 10");
}

Bytes joined(const std::vector<Bytes>& records)
{
    Bytes script;
    for (const Bytes& record : records) {
        script.insert(script.end(), record.begin(), record.end());
    }
    return script;
}

void marking_samples()
{
    const std::string sample = "0 key dim 2\n1 same dim 2\n2 differ dim 1 word 00 accepted-by answer\n";
    const Bytes script = joined({catalogue(4), x12, catalogue(1)});
    expect(second::mark_program(script) == sample, "the script of 01");
    expect(second::mark_program({}).empty(), "a script of 0 bytes has no lines");
    for (std::size_t index : {std::size_t{0}, std::size_t{1}, SIZE_MAX}) {
        Bytes none;
        const Reply reply = second::mark({}, index, none);
        expect(reply.number == 0 && reply.length == 0 && reply.value == 0, "a script of 0 bytes refuses nothing", index);
    }
    for (std::size_t size = 1; size < 7; ++size) {
        expect(second::mark_program(Bytes(size, 0x4E)) == "0 refused 1 " + std::to_string(size) + "\n", "a script of 1 to 6 bytes", size);
    }
    expect(second::mark_program(Bytes(65536, 0x4E)) == "0 refused 2 1\n", "65,536 bytes");
    expect(second::mark_program(Bytes(65537, 0x4E)) == "too long\n", "65,537 bytes");
    const Bytes stray = fields(1, 2, {1, 2, 0, 0});
    expect(second::mark_program(joined({stray, x12})) == "0 refused 7 11\n", "a bad key stops");
    const Bytes one_letter = fields(0, 1, {0, 0});
    expect(second::mark_program(joined({everything, stray, one_letter, nothing, {1}}))
               == "0 key dim 1\n1 refused 7 11\n2 refused 8 6\n"
                  "3 differ dim 0 word - accepted-by key\n4 refused 1 1\n",
           "answers go on after 7 and 8");
    Bytes cut = joined({everything, x12});
    cut.pop_back();
    expect(second::mark_program(cut) == "0 key dim 1\n1 refused 6 47\n", "the last record is cut");
    std::string text;
    for (std::size_t index = 0; index < 5; ++index) {
        const Bytes line = bytes_of(second::mark, script, index);
        text.append(line.begin(), line.end());
    }
    expect(text == sample, "the lines make the program's text");
    Bytes tight(8, 1);
    expect(is_refusal(second::mark(Bytes(65537, 0), 0, tight), 12, 0, 9), "too long needs 9 bytes");
    expect(second::mark(Bytes(65537, 0), 1, tight).number == 0, "nothing after too long");
}

}  // namespace

void all_samples()
{
    record_refusals();
    service_refusals();
    foreign_letters();
    blanks();
    catalogue_samples();
    language_samples();
    marking_samples();
}

}  // namespace selftest
