// Records that 01 names, for the fixed cases of the drivers.
#ifndef DRIVE_SAMPLES_HPP
#define DRIVE_SAMPLES_HPP

#include "../second/generate.hpp"
#include "../second/second.hpp"

namespace drive {

// A record of version 1 from the numbers its rows are worth, I and F first; nothing is checked.
inline second::Bytes record_of(std::size_t n, std::size_t a, const std::vector<std::uint32_t>& rows)
{
    second::Bytes bytes = {0x4E, 0x58, 0x41, 1, 0, static_cast<std::uint8_t>(n), static_cast<std::uint8_t>(a)};
    for (std::uint32_t row : rows) {
        for (int i = 0; i < 4; ++i) {
            bytes.push_back(static_cast<std::uint8_t>(row >> (8 * i)));
        }
    }
    return bytes;
}

// The whole length of a record with these n and a, every row worth the same.
inline second::Bytes uniform(std::size_t n, std::size_t a, std::uint32_t row)
{
    return record_of(n, a, std::vector<std::uint32_t>(2 + a * n, row));
}

// Only the word letter^length.
inline second::Bytes power(std::size_t letter, std::size_t length, std::size_t letters)
{
    return second::write_record(generate::only_power(letter, length, letters));
}

inline second::Bytes catalogue_record(std::size_t number)
{
    second::Bytes bytes(100, 0);
    bytes.resize(second::catalogue(number, bytes).length);
    return bytes;
}

// Language X by four states.
inline second::Bytes x12() { return record_of(4, 2, {1, 3, 2, 4, 1, 8, 1, 1, 8, 8}); }
inline second::Bytes nothing(std::size_t letters) { return record_of(0, letters, {0, 0}); }
inline second::Bytes zeros() { return record_of(1, 2, {1, 1, 1, 0}); }                   // 0*
inline second::Bytes ones() { return record_of(1, 2, {1, 1, 0, 1}); }                    // 1*
inline second::Bytes even_paths() { return record_of(2, 1, {3, 3, 1, 2}); }              // sample 5
inline second::Bytes seven_cycle() { return record_of(7, 1, {1, 23, 2, 4, 8, 16, 32, 64, 1}); }

inline second::Bytes all_words(std::size_t letters) { return uniform(1, letters, 1); }
inline second::Bytes empty_word(std::size_t letters) { return power(0, 0, letters); }

// All words but the empty one: the first state is left with any letter, and the second stays.
inline second::Bytes nonempty_words(std::size_t letters)
{
    std::vector<std::uint32_t> rows(2 + 2 * letters, 2);
    rows[0] = 1;
    return record_of(2, letters, rows);
}

// The words of one letter whose length leaves `left` on division by the number of states.
inline second::Bytes lengths(std::size_t states, std::size_t left, std::size_t letter, std::size_t letters)
{
    second::Machine machine = generate::only_power(letter, states - 1, letters);
    machine.rows[letter][states - 1][0] = 1;
    machine.accepting[states - 1] = 0;
    machine.accepting[left] = 1;
    return second::write_record(machine);
}

// A record for each row 1 to 7 of the refusal table, and some that fit two rows at once.
inline std::vector<second::Bytes> refused_records()
{
    second::Bytes wrong_mark = x12(), version = x12(), high_version = x12(), longer = nothing(1), cut = x12();
    wrong_mark[2] = 0x42;
    version[3] = 2;
    high_version[4] = 1;
    longer.push_back(0);
    cut.pop_back();
    return {{}, {1, 2, 3, 4, 5, 6}, wrong_mark, version, high_version, longer, cut,
            uniform(33, 1, 0), uniform(33, 9, 0), uniform(255, 1, 0), uniform(1, 0, 0), uniform(1, 9, 0),
            uniform(0, 0, 0), record_of(1, 1, {2, 0, 0}), record_of(1, 1, {0, 2, 0}), record_of(1, 1, {0, 0, 2}),
            record_of(0, 1, {1, 0}), record_of(0, 1, {0, 0x80000000u}), record_of(31, 1, {0, 0x80000000u})};
}

// For row 14, records of which an odd number of states is initial and final: first three that rows 6 and 7 refuse, then well-formed ones.
inline std::vector<second::Bytes> records_with_empty_word()
{
    second::Bytes longer = all_words(1), word_too = power(0, 31, 1), cycle_too = lengths(32, 31, 0, 1);
    longer.push_back(0);
    word_too[11] = cycle_too[11] = 1;
    return {longer, record_of(1, 1, {1, 3, 1}), record_of(1, 1, {1, 1, 2}), word_too, cycle_too, empty_word(8), all_words(8),
            uniform(31, 8, 0x7FFFFFFFu)};
}

// Both ends of n and a.
inline std::vector<second::Bytes> boundary_records()
{
    std::vector<second::Bytes> records;
    for (std::size_t n : {0, 1, 31, 32, 33}) {
        for (std::size_t a : {0, 1, 8, 9}) {
            records.push_back(uniform(n, a, 0));
            records.push_back(uniform(n, a, n == 0 ? 0u : 0xFFFFFFFFu >> (n >= 32 ? 0 : 32 - n)));
        }
    }
    return records;
}

// The samples of 01 with its catalogue, and single words of many lengths.
inline std::vector<second::Bytes> sample_records()
{
    std::vector<second::Bytes> records = {x12(), even_paths(), seven_cycle(), zeros(), ones()};
    for (std::size_t number = 0; number <= 5; ++number) {
        records.push_back(catalogue_record(number));
    }
    // 000 or 1111: a last-in search finds as many states in another order.
    records.push_back(second::write_record(
        generate::direct_sum(generate::only_power(0, 3, 2), generate::only_power(1, 4, 2))));
    for (std::size_t length : {0, 1, 7, 8, 20, 30, 31}) {
        records.push_back(power(0, length, 1));
        records.push_back(power(1, length, 2));
    }
    return records;
}

// Every record of at most one state over one or two letters.
inline std::vector<second::Bytes> smallest_records()
{
    std::vector<second::Bytes> records;
    for (std::size_t letters = 1; letters <= 2; ++letters) {
        records.push_back(nothing(letters));
        for (std::uint32_t code = 0; code < (1u << (2 + letters)); ++code) {
            std::vector<std::uint32_t> rows;
            for (std::size_t field = 0; field < 2 + letters; ++field) {
                rows.push_back((code >> field) % 2);
            }
            records.push_back(record_of(1, letters, rows));
        }
    }
    return records;
}

// A few records over each number of letters: none, one and all of the states, one word, and words of any length.
inline std::vector<second::Bytes> records_over_all_letters()
{
    std::vector<second::Bytes> records;
    for (std::size_t a = 1; a <= second::most_letters; ++a) {
        records.insert(records.end(), {nothing(a), uniform(1, a, 1), uniform(31, a, 0x7FFFFFFFu), uniform(32, a, 0xFFFFFFFFu),
                                       power(a - 1, 0, a), power(a - 1, 3, a), power(a - 1, 31, a)});
    }
    return records;
}

// First records of every kind, for a second record of 0 bytes: each refused one, one of 0 bytes among them, before the well formed.
inline std::vector<second::Bytes> records_before_a_blank()
{
    std::vector<second::Bytes> records = refused_records();
    for (const auto& more : {boundary_records(), sample_records(), smallest_records(), records_over_all_letters()}) {
        records.insert(records.end(), more.begin(), more.end());
    }
    return records;
}

}  // namespace drive

#endif
