// Driver: the marking of scripts by the desk against the second program, line by line.
#include <string>

#include "run.hpp"
#include "samples.hpp"

namespace {

using drive::Bytes;
using drive::Chance;
using drive::Run;

constexpr std::size_t ample_line = 120;

Bytes joined(const std::vector<Bytes>& records)
{
    Bytes script;
    for (const Bytes& record : records) {
        script.insert(script.end(), record.begin(), record.end());
    }
    return script;
}

// Every line and some indices past the end; the lines together are what the program prints.
void every_line(Run& run, const Bytes& script, std::size_t most_lines = SIZE_MAX)
{
    std::string text;
    for (std::size_t index = 0; index < most_lines; ++index) {
        const Bytes line = run.mark(nxa_mark, script, index, ample_line).written();
        if (line.empty()) {
            break;
        }
        text.append(line.begin(), line.end());
    }
    if (most_lines == SIZE_MAX) {
        run.law(text == second::mark_program(script), "the lines make the program's text", {script});
    }
    for (std::size_t index : {std::size_t{4370}, std::size_t{65536}, std::size_t{1} << 32, SIZE_MAX}) {
        run.mark(nxa_mark, script, index, 0);
        run.mark(nxa_mark, script, index, ample_line);
    }
}

void line_sizes(Run& run, const Bytes& script, std::size_t index)
{
    const std::size_t needed = run.mark(nxa_mark, script, index, ample_line).reply.length;
    for (std::size_t size : {std::size_t{0}, std::size_t{1}, needed == 0 ? 0 : needed - 1, needed, needed + 1}) {
        run.mark(nxa_mark, script, index, size);
    }
}

void thorough(Run& run, const Bytes& script)
{
    every_line(run, script);
    for (std::size_t index = 0; index < 6; ++index) {
        line_sizes(run, script, index);
    }
}

// The sample of 01 cut at every byte, and with every byte changed.
void near_sample(Run& run)
{
    const Bytes sample = joined({drive::catalogue_record(4), drive::x12(), drive::catalogue_record(1)});
    thorough(run, sample);
    for (std::size_t size = 0; size <= sample.size(); ++size) {
        Bytes script = sample;
        script.resize(size);
        every_line(run, script);
    }
    for (std::size_t place = 0; place < sample.size(); ++place) {
        for (std::uint8_t change : {1, 128, 255}) {
            Bytes script = sample;
            script[place] ^= change;
            every_line(run, script);
        }
    }
}

// Each refused record as the key, as an answer between good ones, and as the last answer.
void refusals(Run& run)
{
    const Bytes key = drive::catalogue_record(3);
    for (const Bytes& bad : drive::refused_records()) {
        thorough(run, joined({bad}));
        thorough(run, joined({bad, key}));
        thorough(run, joined({key, bad}));
        thorough(run, joined({key, drive::x12(), bad, key}));
        thorough(run, joined({key, bad, bad, drive::nothing(1), drive::nothing(2)}));
    }
    for (std::size_t left = 1; left < 15; ++left) {
        Bytes script = joined({key, drive::nothing(2)});
        script.resize(key.size() + left);
        thorough(run, script);
    }
}

// The line that must come, whatever the second program says: with too short a buffer row 12, and past the last line no bytes.
void expect_text(Run& run, const Bytes& script, std::size_t index, std::size_t lent, const std::string& text)
{
    const drive::Answer answer = run.mark(nxa_mark, script, index, lent);
    const bool fits = text.size() <= lent;
    const Bytes written = fits ? Bytes(text.begin(), text.end()) : Bytes{};
    run.law(answer.reply.number == (fits ? 0u : 12u) && answer.reply.place == (fits ? 0 : text.size()) && answer.written() == written,
            "the lines of a short script", {script});
}

// A script of 0 bytes has no lines, so that no index and no buffer is refused; one of 1 to 6 bytes has one, the refusal of its key.
void short_scripts(Run& run)
{
    const Bytes record = drive::nothing(2);
    for (std::size_t size = 0; size < 7; ++size) {
        const Bytes head(record.begin(), record.begin() + static_cast<std::ptrdiff_t>(size));
        const std::string line = size == 0 ? "" : "0 refused 1 " + std::to_string(size) + "\n";
        for (const Bytes& script : {head, Bytes(size, 0), Bytes(size, 0xFF)}) {
            thorough(run, script);
            for (std::size_t index : {std::size_t{0}, std::size_t{1}, std::size_t{2}, std::size_t{4370}, SIZE_MAX}) {
                for (std::size_t lent : {0, 1, 160}) {
                    expect_text(run, script, index, lent, index == 0 ? line : "");
                }
            }
        }
    }
}

// A script of so many bytes that holds as many empty records as fit, and then a cut one.
Bytes empty_records(std::size_t size)
{
    Bytes script = drive::catalogue_record(1);
    const Bytes answer = drive::nothing(2);
    while (script.size() < size) {
        script.insert(script.end(), answer.begin(), answer.end());
    }
    script.resize(size);
    return script;
}

void limits(Run& run)
{
    for (std::size_t size : {65535, 65536, 65537, 65538, 131072}) {
        const Bytes script = empty_records(size);
        every_line(run, script, 3);
        every_line(run, Bytes(size, 0), 3);
        for (std::size_t index : {0, 1, 9, 10, 99, 100, 999, 1000, 4365, 4366, 4367, 4368, 4369, 4370}) {
            line_sizes(run, script, index);
        }
    }
    const Bytes key = drive::power(7, 31, 8);
    const Bytes cycle = second::write_record(generate::direct_sum(generate::only_power(7, 30, 8),
                                                                  generate::only_power(7, 0, 8)));
    thorough(run, joined({key, cycle, drive::nothing(8), key}));
}

// The longest line: an index of two digits, a dimension of 32 and a word of 63 letters.
void longest_line(Run& run)
{
    generate::Machine cycle = generate::only_power(7, 31, 8);
    const Bytes single = second::write_record(cycle);
    cycle.rows[7][31][0] = 1;
    const Bytes round = second::write_record(cycle);
    std::vector<Bytes> records(60, single);
    records[0] = round;
    const Bytes script = joined(records);
    for (std::size_t index : {0, 1, 10, 59, 60}) {
        line_sizes(run, script, index);
    }
}

void random_case(Run& run, Chance& chance)
{
    const Bytes script = generate::script(chance);
    const std::size_t index = chance.one_in(8) ? chance.below(20) : chance.below(5);
    const std::size_t needed = run.mark(nxa_mark, script, index, ample_line).reply.length;
    if (chance.one_in(2)) {
        run.mark(nxa_mark, script, index, generate::buffer_size(chance, needed));
    }
    if (chance.one_in(8)) {
        every_line(run, script);
    }
}

}  // namespace

int main(int argc, char** argv)
{
    Run run("mark", argc, argv);
    short_scripts(run);
    near_sample(run);
    refusals(run);
    limits(run);
    longest_line(run);
    run.cases([&](Chance& chance) { random_case(run, chance); });
    return run.finish();
}
