// Marking a script: the records lie end to end, the key first, and each one gets a line.
#include "language.hpp"
#include "lending.hpp"
#include "second.hpp"

namespace second {

namespace {

constexpr std::size_t most_script = 65536;

struct Entry {
    Bytes record;
    Fault fault;
};

Bytes slice(const Bytes& script, std::size_t from, std::size_t to)
{
    return Bytes(script.begin() + static_cast<std::ptrdiff_t>(from),
                 script.begin() + static_cast<std::ptrdiff_t>(to));
}

// The record at this offset, cut off where its own length ends. Faults 1 to 6 leave no end to go on from.
Entry entry_at(const Bytes& script, std::size_t offset)
{
    const std::size_t left = script.size() - offset;
    const Bytes head = slice(script, offset, offset + (left < 7 ? left : 7));
    Entry entry{{}, head_fault(head)};
    if (entry.fault.number != 0) {
        return entry;
    }
    if (left < needed_length(head)) {
        entry.fault = {6, needed_length(head)};
        return entry;
    }
    entry.record = slice(script, offset, offset + needed_length(head));
    entry.fault = stray_fault(entry.record);
    return entry;
}

// The entries that get a line; a script of 0 bytes has none.
std::vector<Entry> entries_of(const Bytes& script)
{
    std::vector<Entry> entries;
    std::size_t offset = 0;
    while (offset < script.size()) {
        Entry entry = entry_at(script, offset);
        offset += entry.record.size();
        if (!entries.empty() && entry.fault.number == 0 && entry.record[6] != entries[0].record[6]) {
            entry.fault = {8, 6};
        }
        const std::size_t number = entry.fault.number;
        entries.push_back(std::move(entry));
        if ((number >= 1 && number <= 6) || (number != 0 && entries.size() == 1)) {
            break;
        }
    }
    return entries;
}

std::string digits(const Word& word)
{
    std::string text;
    for (std::uint8_t letter : word) {
        text += static_cast<char>('0' + letter);
    }
    return text.empty() ? "-" : text;
}

std::string verdict(const Machine& key, const Machine& answer)
{
    const Difference difference = first_difference(key, answer);
    const std::string dim = " dim " + std::to_string(dimension(answer));
    if (!difference.differs) {
        return "same" + dim;
    }
    return "differ" + dim + " word " + digits(difference.word) + " accepted-by "
        + (difference.side == 1 ? "key" : "answer");
}

std::string line_of(const std::vector<Entry>& entries, std::size_t index)
{
    const Entry& entry = entries[index];
    std::string text = std::to_string(index) + " ";
    if (entry.fault.number != 0) {
        text += "refused " + std::to_string(entry.fault.number) + " " + std::to_string(entry.fault.place);
    } else if (index == 0) {
        text += "key dim " + std::to_string(dimension(read_record(entry.record)));
    } else {
        text += verdict(read_record(entries[0].record), read_record(entry.record));
    }
    return text + "\n";
}

const std::string too_long = "too long\n";

}  // namespace

Reply mark(const Bytes& script, std::size_t index, Bytes& out)
{
    std::string text;
    if (script.size() > most_script) {
        text = index == 0 ? too_long : "";
    } else {
        const std::vector<Entry> entries = entries_of(script);
        text = index < entries.size() ? line_of(entries, index) : "";
    }
    return lend(Bytes(text.begin(), text.end()), out);
}

std::string mark_program(const Bytes& script)
{
    if (script.size() > most_script) {
        return too_long;
    }
    const std::vector<Entry> entries = entries_of(script);
    std::string text;
    for (std::size_t index = 0; index < entries.size(); ++index) {
        text += line_of(entries, index);
    }
    return text;
}

}  // namespace second
