// Writes the scripts that crates/mark_cases runs, the order in which it runs them, and what the second program prints for each.
//
//   scripts DIRECTORY    writes DIRECTORY/args, DIRECTORY/stdout and one file per script below DIRECTORY/data
#include <cstdio>
#include <cstdlib>
#include <string>
#include <utility>
#include <vector>

#include "samples.hpp"

namespace {

using second::Bytes;

struct Script {
    std::string name;
    Bytes bytes;
};

Bytes joined(const std::vector<Bytes>& records)
{
    Bytes script;
    for (const Bytes& record : records) {
        script.insert(script.end(), record.begin(), record.end());
    }
    return script;
}

// The record of X 12 with one byte changed.
Bytes changed(std::size_t place, std::uint8_t byte)
{
    Bytes record = drive::x12();
    record[place] = byte;
    return record;
}

// For each number 1 to 7 a record that it refuses, where nothing follows it.
std::vector<Bytes> refused()
{
    Bytes cut = drive::x12();
    cut.pop_back();
    return {{1, 2, 3, 4, 5, 6}, changed(1, 0), changed(4, 1), changed(5, 33), changed(6, 9), cut, changed(18, 0x10)};
}

// One letter, lengths that leave 31 on division by 32: the first word in which it is not only 0^31 has 63 letters.
Bytes cycle_of_32()
{
    std::vector<std::uint32_t> rows = {1, 0x80000000u};
    for (std::size_t state = 0; state < 32; ++state) {
        rows.push_back(std::uint32_t{1} << ((state + 1) % 32));
    }
    return drive::record_of(32, 1, rows);
}

std::vector<Script> scripts()
{
    const Bytes x = drive::catalogue_record(4), all = drive::catalogue_record(1), none = drive::catalogue_record(0);
    const Bytes stray_initial = changed(7, 0x10), stray_final = changed(14, 0x80), other_letters = drive::nothing(1);
    std::vector<Script> list = {
        {"three", joined({x, drive::x12(), all})},
        {"empty", {}},
        {"key_alone", x},
    };
    const std::vector<Bytes> bad = refused();
    for (std::size_t i = 0; i < bad.size(); ++i) {
        list.push_back({"key_" + std::to_string(i + 1), i + 1 == 7 ? joined({bad[i], x}) : bad[i]});
    }
    for (std::size_t i = 0; i < bad.size(); ++i) {
        list.push_back({"answer_" + std::to_string(i + 1), joined({x, all, bad[i]})});
    }
    // After 7 and 8 of an answer marking goes on, 7 before 8; after 6 it does not.
    list.push_back({"goes_on", joined({x, stray_initial, other_letters, stray_final, changed(18, 0x10), drive::x12(), none, all,
                                       drive::record_of(1, 1, {2, 0, 0}), x})});
    list.push_back({"stops", joined({x, drive::x12(), changed(3, 2), x})});
    // Each side named, the empty word, the largest dimension, the longest word.
    list.push_back({"words", joined({drive::power(1, 31, 2), none, drive::power(0, 0, 2), drive::power(1, 30, 2),
                                     drive::power(1, 31, 2), all, drive::zeros(), drive::ones()})});
    list.push_back({"eight_letters", joined({drive::power(7, 20, 8), drive::power(7, 19, 8), drive::uniform(32, 8, 0), drive::nothing(8)})});
    list.push_back({"longest_word", joined({drive::power(0, 31, 1), cycle_of_32()})});
    // 4,369 records and one byte: the longest script that is marked, and one byte more.
    std::vector<Bytes> many(4369, drive::nothing(2));
    for (std::size_t i = 100; i < many.size(); i += 100) {
        many[i] = drive::nothing(1);
    }
    Bytes longest = joined(many);
    longest.push_back(0x4E);
    list.push_back({"longest", longest});
    longest.push_back(0x58);
    list.push_back({"too_long", longest});
    return list;
}

void write(const std::string& path, const std::string& text)
{
    std::FILE* file = std::fopen(path.c_str(), "wb");
    if (file == nullptr || std::fwrite(text.data(), 1, text.size(), file) != text.size() || std::fclose(file) != 0) {
        std::perror(path.c_str());
        std::exit(1);
    }
}

}  // namespace

int main(int count, char** words)
{
    if (count != 2) {
        std::fprintf(stderr, "scripts DIRECTORY\n");
        return 2;
    }
    const std::string directory = words[1];
    std::string names, text;
    for (const Script& script : scripts()) {
        names += script.name + "\n";
        text += script.name + ":\n" + second::mark_program(script.bytes);
        write(directory + "/data/" + script.name, std::string(script.bytes.begin(), script.bytes.end()));
    }
    write(directory + "/args", names);
    write(directory + "/stdout", text);
    return 0;
}
