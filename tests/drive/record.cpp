// Driver: check, rewrite and test of the desk against the second program, with the law of foreign letters.
#include "run.hpp"
#include "samples.hpp"

namespace {

using drive::Bytes;
using drive::Chance;
using drive::Run;
using drive::Word;

void every_size(Run& run, const Bytes& record)
{
    run.check(record);
    run.one_sizes("rewrite", nxa_rewrite, second::rewrite, record);
    run.one("rewrite", nxa_rewrite, second::rewrite, record, record.size());
    run.one("rewrite", nxa_rewrite, second::rewrite, record, record.empty() ? 0 : record.size() - 1);
    for (const Word& word : {Word{}, Word{0}, Word{7}, Word{8}, Word{255}, Word{0, 2}, Word{0, 0, 1}}) {
        run.test(record, word);
    }
}

// Every length up to a few bytes past the end, and every single bit changed.
void near_records(Run& run, const Bytes& record)
{
    for (std::size_t size = 0; size <= record.size() + 5; ++size) {
        Bytes other = record;
        other.resize(size, 0);
        every_size(run, other);
    }
    for (std::size_t bit = 0; bit < 8 * record.size(); ++bit) {
        Bytes other = record;
        other[bit / 8] ^= static_cast<std::uint8_t>(1u << (bit % 8));
        every_size(run, other);
    }
}

// One stray bit in each field, for every n.
void stray_bits(Run& run)
{
    for (std::size_t n = 0; n < 32; ++n) {
        for (std::size_t field = 0; field < 2 + 2 * n; ++field) {
            for (std::size_t bit : {n, std::size_t{31}}) {
                std::vector<std::uint32_t> rows(2 + 2 * n, 0);
                rows[field] = std::uint32_t{1} << bit;
                rows.back() |= 0x80000000u;
                run.check(drive::record_of(n, 2, rows));
            }
        }
    }
}

// ---- foreign letters; the records are well formed

// Whatever the word is: with a letter at this place that the record does not have it is not accepted, and not refused.
void law_of_foreign(Run& run, const Bytes& record, Word word, std::size_t place, std::size_t foreign)
{
    word.insert(word.begin() + static_cast<std::ptrdiff_t>(place), static_cast<std::uint8_t>(foreign));
    const second::Reply reply = run.test(record, word).reply;
    run.law(reply.number == 0 && reply.record == 0 && reply.place == 0 && reply.length == 0 && reply.value == 0,
            "a word with a foreign letter is not accepted", {record, word});
}

// A word that is accepted: not so with the letter. A service that left the letter out, took another one for it, or answered for the part
// before it or after it, would accept the word of a record that accepts every word.
void law_of_accepted(Run& run, const Bytes& record, const Word& word, std::size_t place, std::size_t foreign)
{
    run.law(run.test(record, word).reply.value == 1, "the record accepts every word", {record, word});
    law_of_foreign(run, record, word, place, foreign);
}

// Records that accept every word: the one of one state, and the largest of an odd number of states and paths.
std::vector<Bytes> records_of_all_words(std::size_t letters)
{
    return {drive::all_words(letters), drive::uniform(31, letters, 0x7FFFFFFFu)};
}

// Every byte that is no letter, alone and after a letter; four of them at each place of short words; a word of nothing else.
void foreign_letters(Run& run)
{
    for (std::size_t letters = 1; letters <= second::most_letters; ++letters) {
        const auto last = static_cast<std::uint8_t>(letters - 1);
        for (const Bytes& record : records_of_all_words(letters)) {
            for (std::size_t foreign = letters; foreign < 256; ++foreign) {
                law_of_accepted(run, record, {}, 0, foreign);
                law_of_accepted(run, record, {last}, 1, foreign);
            }
        }
        std::vector<Bytes> records = records_of_all_words(letters);
        records.insert(records.end(), {drive::nothing(letters), drive::empty_word(letters), drive::nonempty_words(letters),
                                       drive::power(last, 3, letters), drive::lengths(32, 3, last, letters)});
        for (const Bytes& record : records) {
            for (const Word& word : {Word{}, Word{0}, Word{last, last, last}, Word{0, last, 0, 0, last, last, 0}}) {
                for (std::size_t place = 0; place <= word.size(); ++place) {
                    for (std::size_t foreign : {letters, 2 * letters, letters + 128, std::size_t{255}}) {
                        law_of_foreign(run, record, word, place, foreign);
                    }
                }
            }
            law_of_foreign(run, record, Word(8, static_cast<std::uint8_t>(letters)), 0, letters);
        }
    }
}

void long_words(Run& run)
{
    Chance chance(70000);
    const Bytes dense = drive::uniform(32, 8, 0xDEADBEEFu);
    const Bytes mixed = second::write_record(generate::permutation(chance, 32, 8));
    for (const Bytes& record : {drive::x12(), dense, mixed, drive::nothing(2), drive::all_words(2), drive::uniform(31, 8, 0x7FFFFFFFu)}) {
        Word word = generate::word(chance, 70000, 2);
        run.test(record, word);
        word.push_back(1);
        run.test(record, word);
        for (std::size_t place : {word.size(), word.size() - 1, word.size() / 2, std::size_t{0}}) {
            law_of_foreign(run, record, word, place, record[6]);
            law_of_foreign(run, record, word, place, 200);
        }
    }
}

// A machine that accepts every word, though another basis and further states hide it.
Bytes hidden_all_words(Chance& chance, std::size_t letters)
{
    const second::Machine one_state = second::read_record(drive::all_words(letters));
    return second::write_record(generate::disguised(chance, one_state, chance.between(1, second::most_states)));
}

// At the front, at the end or anywhere, the first letter that there is not, the last byte or any between.
void random_foreign(Run& run, Chance& chance, const Bytes& record, const Word& word)
{
    const std::size_t letters = record[6], size = word.size();
    const std::size_t place = chance.one_in(4) ? 0 : chance.one_in(3) ? size : chance.between(0, size);
    const std::size_t foreign = chance.one_in(3) ? letters : chance.one_in(3) ? 255 : chance.between(letters, 255);
    law_of_foreign(run, record, word, place, foreign);
    const Bytes all = hidden_all_words(chance, letters);
    law_of_accepted(run, all, generate::word(chance, size, letters), place, foreign);
}

void fixed_cases(Run& run)
{
    for (const Bytes& record : drive::refused_records()) {
        every_size(run, record);
    }
    for (const Bytes& record : drive::boundary_records()) {
        every_size(run, record);
    }
    near_records(run, drive::x12());
    near_records(run, drive::nothing(8));
    stray_bits(run);
    foreign_letters(run);
    long_words(run);
}

void random_case(Run& run, Chance& chance)
{
    const Bytes record = generate::any_record(chance);
    switch (chance.below(7)) {
    case 0:
    case 1:
        run.check(record);
        break;
    case 2:
    case 3:
        run.one("rewrite", nxa_rewrite, second::rewrite, record, generate::buffer_size(chance, record.size()));
        break;
    default: {
        const bool own = record.size() >= 7 && record[6] >= 1 && record[6] <= 8;
        const Word word = generate::tested_word(chance, own ? record[6] : 2);
        run.test(record, word);
        if (second::record_fault(record).number == 0) {
            random_foreign(run, chance, record, word);
        }
        break;
    }
    }
}

}  // namespace

int main(int argc, char** argv)
{
    Run run("record", argc, argv);
    fixed_cases(run);
    run.cases([&](Chance& chance) { random_case(run, chance); });
    return run.finish();
}
