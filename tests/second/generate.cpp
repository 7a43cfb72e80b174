// Random and hostile inputs: words, records, damage, pairs, scripts and buffer sizes.
#include "generate.hpp"

#include <algorithm>
#include <utility>

namespace generate {

using second::Bits;
using second::most_letters;
using second::most_states;
using second::write_record;

std::uint64_t Chance::next()
{
    state_ += 0x9E3779B97F4A7C15u;
    std::uint64_t mixed = state_;
    mixed = (mixed ^ (mixed >> 30)) * 0xBF58476D1CE4E5B9u;
    mixed = (mixed ^ (mixed >> 27)) * 0x94D049BB133111EBu;
    return mixed ^ (mixed >> 31);
}

std::size_t Chance::below(std::size_t limit)
{
    return static_cast<std::size_t>(next() % limit);
}

std::size_t Chance::between(std::size_t least, std::size_t most)
{
    return least + below(most - least + 1);
}

Chance chance_of(std::uint64_t seed, std::uint64_t number)
{
    // Mixed twice, so that neighbouring seeds and numbers share no stretch of values.
    return Chance(Chance(Chance(seed).next() + number).next());
}

std::size_t state_count(Chance& chance)
{
    switch (chance.below(8)) {
    case 0:
        return most_states;
    case 1:
        return chance.below(4);
    default:
        return chance.between(0, most_states);
    }
}

std::size_t letter_count(Chance& chance)
{
    return chance.one_in(3) ? chance.between(1, 2) : chance.between(1, most_letters);
}

Word word(Chance& chance, std::size_t length, std::size_t letters)
{
    Word result(length, 0);
    for (std::uint8_t& letter : result) {
        letter = static_cast<std::uint8_t>(chance.below(letters));
    }
    return result;
}

Word tested_word(Chance& chance, std::size_t letters)
{
    const std::size_t length = chance.one_in(40) ? chance.below(4000) : chance.below(chance.one_in(3) ? 100 : 12);
    Word result = word(chance, length, letters);
    if (length > 0 && chance.one_in(4)) {
        const std::size_t foreign = chance.one_in(2) ? letters : chance.between(letters, 255);
        result[chance.below(length)] = static_cast<std::uint8_t>(foreign);
    }
    return result;
}

Bytes record(Chance& chance)
{
    const std::size_t states = state_count(chance);
    return write_record(machine(chance, states, letter_count(chance)));
}

// Where a call would draw twice among its arguments, one draw is made before it: the order of arguments is the compiler's own, and a
// seed must mean the same to each.
namespace {

void flip(Chance& chance, Bytes& bytes, std::size_t from)
{
    if (from < bytes.size()) {
        bytes[chance.between(from, bytes.size() - 1)] ^= static_cast<std::uint8_t>(1u << chance.below(8));
    }
}

Bytes noise(Chance& chance, std::size_t size)
{
    Bytes bytes(size, 0);
    for (std::uint8_t& byte : bytes) {
        byte = static_cast<std::uint8_t>(chance.next());
    }
    return bytes;
}

void set(Bytes& bytes, std::size_t at, std::size_t value)
{
    if (at < bytes.size()) {
        bytes[at] = static_cast<std::uint8_t>(value);
    }
}

}  // namespace

Bytes damaged(Chance& chance, Bytes record)
{
    const std::size_t size = record.size();
    const std::size_t fault = chance.below(12);
    const std::size_t value = fault == 6 ? chance.below(4) : fault == 4 || fault == 5 ? chance.next() : 0;
    switch (fault) {
    case 0: flip(chance, record, 0); break;
    case 1: flip(chance, record, 7); break;
    case 2: record.resize(chance.between(0, size)); break;
    case 3: record.resize(size - std::min(size, chance.between(1, 4))); break;
    case 4: record.resize(size + chance.between(1, 20), static_cast<std::uint8_t>(value)); break;
    case 5: set(record, chance.below(3), value); break;
    case 6: set(record, chance.between(3, 4), value); break;
    case 7: set(record, 5, chance.one_in(2) ? 33 : chance.next()); break;
    case 8: set(record, 6, chance.one_in(2) ? 9 * chance.below(2) : chance.next()); break;
    case 9: record.resize(std::min<std::size_t>(size, chance.between(6, 8))); break;
    case 10: record = noise(chance, chance.below(60)); break;
    default: record.clear(); break;
    }
    return record;
}

Bytes any_record(Chance& chance)
{
    Bytes bytes = record(chance);
    if (chance.one_in(4)) {
        bytes = damaged(chance, std::move(bytes));
        if (chance.one_in(3)) {
            bytes = damaged(chance, std::move(bytes));
        }
    }
    return bytes;
}

namespace {

// The same language but for one word, or the same outright where no state is left for that word.
Machine one_word_off(Chance& chance, const Machine& machine, std::size_t most)
{
    if (machine.states >= most) {
        return machine;
    }
    const std::size_t length = chance.below(most - machine.states);
    return direct_sum(machine, only_word(word(chance, length, machine.letters), machine.letters));
}

Machine other_of(Chance& chance, const Machine& machine, std::size_t most)
{
    switch (chance.below(6)) {
    case 0:
        return generate::machine(chance, chance.between(0, most), machine.letters);
    case 1:
        return rebased(chance, machine);
    case 2:
        return disguised(chance, machine, chance.between(machine.states, most));
    case 3:
        return rebased(chance, one_word_off(chance, machine, most));
    case 4: {
        Machine changed = machine;
        if (machine.states > 0) {
            Bits& row = changed.rows[chance.below(machine.letters)][chance.below(machine.states)];
            row[chance.below(machine.states)] ^= 1;
        }
        return rebased(chance, changed);
    }
    default: {
        Machine changed = machine;
        if (machine.states > 0) {
            changed.accepting[chance.below(machine.states)] ^= 1;
        }
        return changed;
    }
    }
}

}  // namespace

Pair any_pair(Chance& chance, std::size_t most)
{
    const std::size_t states = std::min(state_count(chance), most);
    const Machine one = machine(chance, states, letter_count(chance));
    const Machine two = other_of(chance, one, most);
    // A common beginning puts the first difference off.
    const std::size_t room = chance.one_in(3) ? most - std::max(one.states, two.states) : 0;
    const Word common = word(chance, chance.between(0, room), one.letters);
    Pair pair{write_record(delayed(common, one)), write_record(delayed(common, two))};
    if (chance.one_in(2)) {
        std::swap(pair.first, pair.other);
    }
    if (chance.one_in(12)) {
        pair.other = record(chance);   // most often over other letters
    }
    if (chance.one_in(12)) {
        pair.first = damaged(chance, std::move(pair.first));
    }
    if (chance.one_in(12)) {
        pair.other = damaged(chance, std::move(pair.other));
    }
    if (chance.one_in(12)) {
        pair.other.clear();
    }
    return pair;
}

Pair meeting_pair(Chance& chance)
{
    const std::size_t letters = letter_count(chance);
    const std::size_t one_states = chance.one_in(2) ? chance.between(1, most_states) : chance.between(5, 12);
    const std::size_t two_states = std::min(most_states, chance.between(0, 72 / one_states + 1));
    const Machine one = machine(chance, one_states, letters);
    const bool single = two_states > 0 && chance.one_in(4);
    const Machine two = single ? only_power(chance.below(letters), two_states - 1, letters)
                               : machine(chance, two_states, letters);
    Pair pair{write_record(disguised(chance, one, chance.between(one.states, most_states))),
              write_record(disguised(chance, two, chance.between(two.states, most_states)))};
    if (chance.one_in(2)) {
        std::swap(pair.first, pair.other);
    }
    return pair;
}

Bytes script(Chance& chance)
{
    const std::size_t most = chance.one_in(4) ? most_states : 6;
    const std::size_t letters = letter_count(chance);
    const Machine key = machine(chance, chance.between(0, most), letters);
    Bytes whole = write_record(key);
    if (chance.one_in(10)) {
        whole = damaged(chance, std::move(whole));
    }
    for (std::size_t answers = chance.below(6); answers > 0; --answers) {
        Bytes answer = write_record(other_of(chance, key, most));
        if (chance.one_in(8)) {
            answer = record(chance);
        }
        if (chance.one_in(8)) {
            answer = damaged(chance, std::move(answer));
        }
        whole.insert(whole.end(), answer.begin(), answer.end());
    }
    return chance.one_in(10) ? damaged(chance, std::move(whole)) : whole;
}

std::size_t buffer_size(Chance& chance, std::size_t needed)
{
    switch (chance.below(6)) {
    case 0:
        return 0;
    case 1:
        return needed == 0 ? 0 : needed - 1;
    case 2:
        return needed + chance.between(1, 64);
    case 3:
        return chance.between(0, needed);
    default:
        return needed;
    }
}

}  // namespace generate
