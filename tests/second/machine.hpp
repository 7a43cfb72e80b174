// Xor automata and their records: the check, the reading and the writing of version 1.
#ifndef SECOND_MACHINE_HPP
#define SECOND_MACHINE_HPP

#include <cstddef>
#include <cstdint>
#include <vector>

namespace second {

using Bytes = std::vector<std::uint8_t>;
using Word = Bytes;                        // one letter per byte
using Bits = std::vector<unsigned char>;   // one truth per entry, 0 or 1

// Any number of states; it need not fit a record.
struct Machine {
    std::size_t states = 0;
    std::size_t letters = 1;
    Bits initial;
    Bits accepting;
    std::vector<std::vector<Bits>> rows;   // rows[letter][from][to]
};

// A machine of this size without initial states, final states or transitions.
Machine blank_machine(std::size_t states, std::size_t letters);

// Number 0: no fault. Otherwise a number of the refusal table and its place.
struct Fault {
    std::size_t number = 0;
    std::size_t place = 0;
};

// Rows 1 to 5: what can be told from the first 7 bytes.
Fault head_fault(const Bytes& bytes);

// 15 + 4·a·n, for bytes whose head has no fault.
std::size_t needed_length(const Bytes& bytes);

// Row 7, for bytes whose head and length have no fault.
Fault stray_fault(const Bytes& bytes);

// Rows 1 to 7 in order.
Fault record_fault(const Bytes& bytes);

// The machine of a well-formed record.
Machine read_record(const Bytes& bytes);

// The record of a machine of at most 32 states.
Bytes write_record(const Machine& machine);

std::size_t record_length(const Machine& machine);

// The largest n of version 1 and the largest a.
constexpr std::size_t most_states = 32;
constexpr std::size_t most_letters = 8;

}  // namespace second

#endif
