// The fuzzer's target: reads bytes as a request for any of the services, and holds the desk's answer to the second program's.
//
// Most records are put together from fields, so that they pass the check; some are damaged then, some are the bytes as they come. A
// difference is printed and ends the process, which libFuzzer takes for a crash, and keeps the input.
#include "../drive/run.hpp"

#include "../drive/samples.hpp"

namespace {

using drive::Bytes;
using drive::Chance;
using drive::Run;
using drive::Word;
using second::Machine;

constexpr std::size_t services = 13;
constexpr std::size_t ample_line = 120;
constexpr std::size_t short_word = 11;

// The fuzzer's bytes, one after another; zeros when they are used up.
class Source {
public:
    Source(const std::uint8_t* bytes, std::size_t size) : bytes_(bytes), size_(size) {}

    std::size_t byte() { return place_ < size_ ? bytes_[place_++] : 0; }
    std::size_t below(std::size_t limit) { return byte() % limit; }
    std::size_t two_bytes()
    {
        const std::size_t low = byte();
        return low + 256 * byte();
    }

    Bytes bytes(std::size_t count)
    {
        Bytes result;
        while (result.size() < count) {
            result.push_back(static_cast<std::uint8_t>(byte()));
        }
        return result;
    }

private:
    const std::uint8_t* bytes_;
    std::size_t size_;
    std::size_t place_ = 0;
};

// ---- records

// A row takes no more bytes than it needs, and keeps to its states.
std::uint32_t row(Source& source, std::size_t states)
{
    std::uint32_t value = 0;
    for (std::size_t bit = 0; bit < states; bit += 8) {
        value |= static_cast<std::uint32_t>(source.byte()) << bit;
    }
    return states >= 32 ? value : value & ((1u << states) - 1);
}

// Its rows bit by bit, or a machine of one of the shapes that the drivers use, from a seed: full rows for few bytes.
Bytes well_formed(Source& source, std::size_t letters)
{
    const std::size_t states = source.below(second::most_states + 1);
    if (source.below(2) == 0) {
        Chance chance(source.two_bytes());
        return second::write_record(generate::machine(chance, states, letters));
    }
    std::vector<std::uint32_t> rows;
    for (std::size_t field = 0; field < 2 + letters * states; ++field) {
        rows.push_back(row(source, states));
    }
    return drive::record_of(states, letters, rows);
}

// Half of the damage is done to the head.
Bytes damaged(Source& source, Bytes record)
{
    const std::size_t place = (source.below(2) == 0 ? source.below(8) : source.two_bytes()) % (record.size() + 1);
    const auto value = static_cast<std::uint8_t>(source.byte());
    switch (source.below(3)) {
    case 0:
        record.resize(place);
        break;
    case 1:
        record.resize(record.size() + 1 + place % 20, value);
        break;
    default:
        if (place < record.size()) {
            record[place] = value;
        }
        break;
    }
    return record;
}

std::size_t letter_count(Source& source)
{
    return 1 + source.below(second::most_letters);
}

Bytes any_record(Source& source, std::size_t letters)
{
    switch (source.below(8)) {
    case 0:
        return source.bytes(source.below(64));
    case 1:
        return damaged(source, well_formed(source, letters));
    default:
        return well_formed(source, letters);
    }
}

// The same language in another basis and more states, where the record is one.
Bytes disguised(Source& source, const Bytes& record)
{
    if (second::record_fault(record).number != 0) {
        return record;
    }
    const Machine machine = second::read_record(record);
    const std::size_t more = source.below(second::most_states - machine.states + 1);
    Chance chance(source.byte());
    return second::write_record(generate::disguised(chance, machine, machine.states + more));
}

// A second record for the first: a stranger over any letters or over the same, the same language, or almost, or a blank.
Bytes other_record(Source& source, const Bytes& first)
{
    const std::size_t same = first.size() > 6 && first[6] >= 1 && first[6] <= second::most_letters ? first[6] : 1;
    switch (source.below(7)) {
    case 0:
        return any_record(source, letter_count(source));
    case 1:
        return disguised(source, first);
    case 2:
        return disguised(source, damaged(source, first));
    case 3:
        return first;
    case 4:
        return {};
    default:
        return any_record(source, same);
    }
}

// Mostly letters of the record, in some words with one put in that it does not have, at any place. The others are bytes as they come, so that
// a foreign letter stands first as a rule.
Word any_word(Source& source, const Bytes& record)
{
    const std::size_t letters = record.size() > 6 ? record[6] : 0, kind = source.below(8);
    Word word = source.bytes(source.below(4) == 0 ? source.two_bytes() % 2048 : source.below(short_word));
    if (letters == 0 || kind == 0) {
        return word;
    }
    for (std::uint8_t& letter : word) {
        letter = static_cast<std::uint8_t>(letter % letters);
    }
    if (kind <= 2) {
        const std::size_t place = source.two_bytes() % (word.size() + 1);
        const std::size_t foreign = letters + source.below(256 - letters);
        word.insert(word.begin() + static_cast<std::ptrdiff_t>(place), static_cast<std::uint8_t>(foreign));
    }
    return word;
}

// ---- requests

// How large a buffer to lend after an ample one: just enough, one byte short, or any.
std::size_t lent_size(Source& source, std::size_t needed)
{
    switch (source.below(3)) {
    case 0:
        return needed;
    case 1:
        return needed == 0 ? 0 : needed - 1;
    default:
        return source.byte();
    }
}

void one(Source& source, const char* service, Run::OneService desk, Run::SecondOne expected)
{
    Run run("fuzz", 0, nullptr);
    const Bytes record = any_record(source, letter_count(source));
    const std::size_t needed = run.one(service, desk, expected, record, drive::ample).reply.length;
    run.one(service, desk, expected, record, lent_size(source, needed));
}

void two(Source& source, const char* service, Run::TwoService desk, Run::SecondTwo expected)
{
    Run run("fuzz", 0, nullptr);
    const Bytes first = any_record(source, letter_count(source));
    const Bytes other = other_record(source, first);
    const std::size_t needed = run.two(service, desk, expected, first, other, drive::ample).reply.length;
    run.two(service, desk, expected, first, other, lent_size(source, needed));
}

void check(Source& source)
{
    Run run("fuzz", 0, nullptr);
    run.check(any_record(source, letter_count(source)));
}

void test(Source& source)
{
    Run run("fuzz", 0, nullptr);
    const Bytes record = any_record(source, letter_count(source));
    run.test(record, any_word(source, record));
}

void catalogue(Source& source)
{
    Run run("fuzz", 0, nullptr);
    const std::size_t number = source.below(8) == 7 ? SIZE_MAX - source.byte() : source.below(8);
    run.catalogue(nxa_catalogue, number, source.below(50));
}

Bytes script(Source& source)
{
    const Bytes key = any_record(source, letter_count(source));
    Bytes whole = key;
    for (std::size_t answers = source.below(5); answers > 0; --answers) {
        const Bytes answer = other_record(source, key);
        whole.insert(whole.end(), answer.begin(), answer.end());
    }
    // Once in a while as many records as reach the largest script, or just pass it.
    if (!whole.empty() && source.byte() == 255) {
        const Bytes once = whole;
        while (whole.size() < 65600) {
            whole.insert(whole.end(), once.begin(), once.end());
        }
        whole.resize(65500 + source.below(50));
    }
    return whole;
}

void mark(Source& source)
{
    Run run("fuzz", 0, nullptr);
    const Bytes whole = script(source);
    const std::size_t index = source.below(8) == 7 ? source.two_bytes() : source.below(6);
    const std::size_t needed = run.mark(nxa_mark, whole, index, ample_line).reply.length;
    run.mark(nxa_mark, whole, index, lent_size(source, needed));
}

}  // namespace

extern "C" int LLVMFuzzerTestOneInput(const std::uint8_t* bytes, std::size_t size)
{
    Source source(bytes, size);
    switch (source.below(services)) {
    case 0: check(source); break;
    case 1: one(source, "rewrite", nxa_rewrite, second::rewrite); break;
    case 2: test(source); break;
    case 3: one(source, "minimal", nxa_minimal, second::minimal); break;
    case 4: two(source, "compare", nxa_compare, second::compare); break;
    case 5: two(source, "sum", nxa_sum, second::sum); break;
    case 6: two(source, "meet", nxa_meet, second::meet); break;
    case 7: one(source, "complement", nxa_complement, second::complement); break;
    case 8: one(source, "mirror", nxa_mirror, second::mirror); break;
    case 9: catalogue(source); break;
    case 10: mark(source); break;
    case 11: two(source, "product", nxa_product, second::product); break;
    case 12: one(source, "star", nxa_star, second::star); break;
    }
    return 0;
}
