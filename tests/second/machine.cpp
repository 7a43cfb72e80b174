// Xor automata and their records: bytes to fields and back, fault by fault.
#include "machine.hpp"

namespace second {

namespace {

constexpr std::size_t head_length = 7;    // up to and with a
constexpr std::size_t rows_offset = 15;
constexpr std::size_t row_length = 4;
const Bytes record_mark = {0x4E, 0x58, 0x41};

// Bit j of the field at this offset.
bool field_bit(const Bytes& bytes, std::size_t offset, std::size_t j)
{
    return (bytes[offset + j / 8] / (1u << (j % 8))) % 2 == 1;
}

Bits read_field(const Bytes& bytes, std::size_t offset, std::size_t states)
{
    Bits field(states, 0);
    for (std::size_t j = 0; j < states; ++j) {
        field[j] = field_bit(bytes, offset, j) ? 1 : 0;
    }
    return field;
}

void write_field(Bytes& bytes, const Bits& field)
{
    const std::size_t offset = bytes.size();
    bytes.resize(offset + row_length, 0);
    for (std::size_t j = 0; j < field.size(); ++j) {
        if (field[j] != 0) {
            bytes[offset + j / 8] = static_cast<std::uint8_t>(bytes[offset + j / 8] + (1u << (j % 8)));
        }
    }
}

}  // namespace

Machine blank_machine(std::size_t states, std::size_t letters)
{
    Machine machine;
    machine.states = states;
    machine.letters = letters;
    machine.initial.assign(states, 0);
    machine.accepting.assign(states, 0);
    machine.rows.assign(letters, std::vector<Bits>(states, Bits(states, 0)));
    return machine;
}

Fault head_fault(const Bytes& bytes)
{
    if (bytes.size() < head_length) {
        return {1, bytes.size()};
    }
    for (std::size_t i = 0; i < record_mark.size(); ++i) {
        if (bytes[i] != record_mark[i]) {
            return {2, i};
        }
    }
    if (bytes[3] + 256u * bytes[4] != 1) {
        return {3, 3};
    }
    if (bytes[5] > most_states) {
        return {4, 5};
    }
    if (bytes[6] == 0 || bytes[6] > most_letters) {
        return {5, 6};
    }
    return {};
}

std::size_t needed_length(const Bytes& bytes)
{
    const std::size_t states = bytes[5];
    const std::size_t letters = bytes[6];
    return rows_offset + row_length * letters * states;
}

Fault stray_fault(const Bytes& bytes)
{
    // I, F and the rows lie end to end from offset 7 on.
    for (std::size_t offset = head_length; offset < needed_length(bytes); offset += row_length) {
        for (std::size_t j = bytes[5]; j < 8 * row_length; ++j) {
            if (field_bit(bytes, offset, j)) {
                return {7, offset};
            }
        }
    }
    return {};
}

Fault record_fault(const Bytes& bytes)
{
    const Fault head = head_fault(bytes);
    if (head.number != 0) {
        return head;
    }
    if (bytes.size() != needed_length(bytes)) {
        return {6, needed_length(bytes)};
    }
    return stray_fault(bytes);
}

Machine read_record(const Bytes& bytes)
{
    Machine machine = blank_machine(bytes[5], bytes[6]);
    machine.initial = read_field(bytes, 7, machine.states);
    machine.accepting = read_field(bytes, 11, machine.states);
    std::size_t offset = rows_offset;
    for (std::vector<Bits>& matrix : machine.rows) {
        for (Bits& row : matrix) {
            row = read_field(bytes, offset, machine.states);
            offset += row_length;
        }
    }
    return machine;
}

std::size_t record_length(const Machine& machine)
{
    return rows_offset + row_length * machine.letters * machine.states;
}

Bytes write_record(const Machine& machine)
{
    Bytes bytes = record_mark;
    bytes.push_back(1);
    bytes.push_back(0);
    bytes.push_back(static_cast<std::uint8_t>(machine.states));
    bytes.push_back(static_cast<std::uint8_t>(machine.letters));
    write_field(bytes, machine.initial);
    write_field(bytes, machine.accepting);
    for (const std::vector<Bits>& matrix : machine.rows) {
        for (const Bits& row : matrix) {
            write_field(bytes, row);
        }
    }
    return bytes;
}

}  // namespace second
