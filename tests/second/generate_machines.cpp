// Random machines of many shapes: scattered, functional, shifting, chained, summed, disguised.
#include "generate.hpp"

#include <utility>

namespace generate {

using second::Bits;
using second::blank_machine;

namespace {

Bits scattered_bits(Chance& chance, std::size_t size, std::size_t part, std::size_t whole)
{
    Bits bits(size, 0);
    for (unsigned char& bit : bits) {
        bit = chance.below(whole) < part ? 1 : 0;
    }
    return bits;
}

// Initial and final states are set so often that most languages are not empty.
void scatter_ends(Chance& chance, Machine& machine)
{
    machine.initial = scattered_bits(chance, machine.states, 1, 2);
    machine.accepting = scattered_bits(chance, machine.states, 1, 2);
}

}  // namespace

Machine scattered(Chance& chance, std::size_t states, std::size_t letters, std::size_t part, std::size_t whole)
{
    Machine machine = blank_machine(states, letters);
    scatter_ends(chance, machine);
    for (auto& matrix : machine.rows) {
        for (Bits& row : matrix) {
            row = scattered_bits(chance, states, part, whole);
        }
    }
    return machine;
}

Machine functional(Chance& chance, std::size_t states, std::size_t letters)
{
    Machine machine = blank_machine(states, letters);
    machine.accepting = scattered_bits(chance, states, 1, 2);
    if (states > 0) {
        machine.initial[chance.below(states)] = 1;
    }
    for (auto& matrix : machine.rows) {
        for (Bits& row : matrix) {
            row[chance.below(states)] = 1;
        }
    }
    return machine;
}

Machine permutation(Chance& chance, std::size_t states, std::size_t letters)
{
    Machine machine = blank_machine(states, letters);
    scatter_ends(chance, machine);
    for (auto& matrix : machine.rows) {
        std::vector<std::size_t> to(states);
        for (std::size_t i = 0; i < states; ++i) {
            to[i] = i;
            std::swap(to[i], to[chance.between(0, i)]);
        }
        for (std::size_t i = 0; i < states; ++i) {
            matrix[i][to[i]] = 1;
        }
    }
    return machine;
}

Machine feedback(Chance& chance, std::size_t states, std::size_t letters)
{
    Machine machine = blank_machine(states, letters);
    if (states == 0) {
        return machine;
    }
    machine.initial[chance.below(states)] = 1;
    machine.accepting[chance.below(states)] = 1;
    for (auto& matrix : machine.rows) {
        for (std::size_t i = 0; i + 1 < states; ++i) {
            matrix[i][i + 1] = 1;
        }
        matrix[states - 1] = scattered_bits(chance, states, 1, 2);
        if (chance.one_in(3)) {
            break;   // the other letters lead nowhere
        }
    }
    return machine;
}

Machine only_word(const Word& word, std::size_t letters)
{
    Machine machine = blank_machine(word.size() + 1, letters);
    machine.initial.front() = 1;
    machine.accepting.back() = 1;
    for (std::size_t i = 0; i < word.size(); ++i) {
        machine.rows[word[i]][i][i + 1] = 1;
    }
    return machine;
}

Machine only_power(std::size_t letter, std::size_t length, std::size_t letters)
{
    return only_word(Word(length, static_cast<std::uint8_t>(letter)), letters);
}

Machine direct_sum(const Machine& one, const Machine& two)
{
    Machine machine = blank_machine(one.states + two.states, one.letters);
    const auto join = [](const Bits& left, const Bits& right) {
        Bits bits = left;
        bits.insert(bits.end(), right.begin(), right.end());
        return bits;
    };
    machine.initial = join(one.initial, two.initial);
    machine.accepting = join(one.accepting, two.accepting);
    for (std::size_t l = 0; l < one.letters; ++l) {
        for (std::size_t i = 0; i < one.states; ++i) {
            machine.rows[l][i] = join(one.rows[l][i], Bits(two.states, 0));
        }
        for (std::size_t i = 0; i < two.states; ++i) {
            machine.rows[l][one.states + i] = join(Bits(one.states, 0), two.rows[l][i]);
        }
    }
    return machine;
}

Machine delayed(const Word& word, const Machine& machine)
{
    if (word.empty()) {
        return machine;
    }
    // The chain's last state is not final; its last letter leads into the machine.
    const std::size_t chain = word.size();
    Machine result = direct_sum(only_word(Word(word.begin(), word.end() - 1), machine.letters), machine);
    result.accepting[chain - 1] = 0;
    for (std::size_t i = 0; i < machine.states; ++i) {
        result.initial[chain + i] = 0;
        result.rows[word.back()][chain - 1][chain + i] = machine.initial[i];
    }
    return result;
}

namespace {

// The basis change that adds state i to state j: every path that ends in i is also counted in j,
// and j's ways on are taken from i's, so that no word's parity changes.
void add_state(Machine& machine, std::size_t i, std::size_t j)
{
    const auto in_row = [&](Bits& row) { row[j] ^= row[i]; };
    in_row(machine.initial);
    for (auto& matrix : machine.rows) {
        for (Bits& row : matrix) {
            in_row(row);
        }
        for (std::size_t k = 0; k < machine.states; ++k) {
            matrix[i][k] ^= matrix[j][k];
        }
    }
    machine.accepting[i] ^= machine.accepting[j];
}

}  // namespace

Machine rebased(Chance& chance, const Machine& machine)
{
    Machine result = machine;
    for (std::size_t step = 0; machine.states > 1 && step < 3 * machine.states; ++step) {
        const std::size_t i = chance.below(machine.states);
        const std::size_t j = chance.below(machine.states);
        if (i != j) {
            add_state(result, i, j);
        }
    }
    return result;
}

Machine unreachable(Chance& chance, const Machine& machine, std::size_t states)
{
    Machine result = direct_sum(machine, scattered(chance, states - machine.states, machine.letters, 1, 3));
    for (std::size_t i = machine.states; i < states; ++i) {
        result.initial[i] = 0;
        for (auto& matrix : result.rows) {
            for (std::size_t j = 0; j < machine.states; ++j) {
                matrix[i][j] = chance.one_in(3) ? 1 : 0;
            }
        }
    }
    return result;
}

Machine unobservable(Chance& chance, const Machine& machine, std::size_t states)
{
    Machine result = direct_sum(machine, scattered(chance, states - machine.states, machine.letters, 1, 3));
    for (std::size_t j = machine.states; j < states; ++j) {
        result.accepting[j] = 0;
        for (auto& matrix : result.rows) {
            for (std::size_t i = 0; i < machine.states; ++i) {
                matrix[i][j] = chance.one_in(3) ? 1 : 0;
            }
        }
    }
    return result;
}

Machine without_empty_word(Machine machine)
{
    std::size_t common = 0;
    std::size_t last = 0;
    for (std::size_t i = 0; i < machine.states; ++i) {
        if (machine.initial[i] != 0 && machine.accepting[i] != 0) {
            ++common;
            last = i;
        }
    }
    if (common % 2 == 1) {
        machine.accepting[last] = 0;
    }
    return machine;
}

Machine disguised(Chance& chance, const Machine& machine, std::size_t states)
{
    const std::size_t half = chance.between(machine.states, states);
    return rebased(chance, unobservable(chance, unreachable(chance, machine, half), states));
}

Machine machine(Chance& chance, std::size_t states, std::size_t letters)
{
    switch (chance.below(11)) {
    case 0:
        return scattered(chance, states, letters, 1, 2);
    case 1:
        return scattered(chance, states, letters, 3, 4);
    case 2:
        return scattered(chance, states, letters, 1, states + 1);
    case 3:
        return functional(chance, states, letters);
    case 4:
        return permutation(chance, states, letters);
    case 5:
        return feedback(chance, states, letters);
    case 6:
        return states == 0 ? blank_machine(0, letters) : only_word(word(chance, states - 1, letters), letters);
    case 7: {
        const std::size_t part = chance.between(0, states);
        const Machine rest = machine(chance, states - part, letters);
        return direct_sum(machine(chance, part, letters), rest);
    }
    case 8: {
        const std::size_t chain = chance.between(0, states);
        const Machine rest = machine(chance, states - chain, letters);
        return delayed(word(chance, chain, letters), rest);
    }
    case 9: {   // twice the same machine: every count is even
        const Machine half = machine(chance, states / 2, letters);
        return disguised(chance, direct_sum(half, rebased(chance, half)), states);
    }
    default:
        return disguised(chance, machine(chance, chance.between(0, states), letters), states);
    }
}

}  // namespace generate
