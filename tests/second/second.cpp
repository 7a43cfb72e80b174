// The second program's services over records: checks in the order of the table, then the meaning.
#include "second.hpp"

#include <algorithm>
#include <map>

#include "language.hpp"
#include "lending.hpp"

namespace second {

namespace {

constexpr std::size_t most_product = 64;
constexpr std::size_t last_catalogue_number = 5;

Reply refuse(std::size_t number, std::size_t record, std::size_t place)
{
    return {number, record, place, 0, 0};
}

bool refused(const Reply& reply)
{
    return reply.number != 0;
}

Reply check_as(std::size_t which, const Bytes& record)
{
    const Fault fault = record_fault(record);
    return fault.number == 0 ? Reply{} : refuse(fault.number, which, fault.place);
}

// What two records mean, or why they are refused.
struct Pair {
    Reply fault = {};
    Machine one, two;
};

// Rows 1 to 7 of the first. A second record of 0 bytes, a blank, is then the machine with no states over the first one's letters; any
// other runs rows 1 to 7 too, and then row 8.
Pair read_both(const Bytes& first, const Bytes& other)
{
    Pair pair;
    pair.fault = check_as(1, first);
    if (refused(pair.fault)) {
        return pair;
    }
    pair.one = read_record(first);
    if (other.empty()) {
        pair.two = blank_machine(0, pair.one.letters);
        return pair;
    }
    pair.fault = check_as(2, other);
    if (refused(pair.fault)) {
        return pair;
    }
    pair.two = read_record(other);
    if (pair.one.letters != pair.two.letters) {
        pair.fault = refuse(8, 2, 6);
    }
    return pair;
}

// Row 11, then row 12, then the record of a minimal machine.
Reply lend_minimal(const Machine& machine, Bytes& out)
{
    if (machine.states > most_states) {
        return refuse(11, 0, machine.states);
    }
    return lend(write_record(machine), out);
}

}  // namespace

Reply check(const Bytes& record)
{
    return check_as(1, record);
}

Reply rewrite(const Bytes& record, Bytes& out)
{
    const Reply fault = check(record);
    return refused(fault) ? fault : lend(write_record(read_record(record)), out);
}

Reply test(const Bytes& record, const Word& word)
{
    const Reply fault = check(record);
    if (refused(fault)) {
        return fault;
    }
    const Machine machine = read_record(record);
    const bool foreign = std::any_of(word.begin(), word.end(), [&](std::uint8_t letter) { return letter >= machine.letters; });
    return {0, 0, 0, 0, !foreign && accepts(machine, word) ? std::size_t{1} : std::size_t{0}};
}

Reply minimal(const Bytes& record, Bytes& out)
{
    const Reply fault = check(record);
    if (refused(fault)) {
        return fault;
    }
    const Machine machine = minimal_machine({Kind::own, {read_record(record)}});
    Reply reply = lend_minimal(machine, out);
    reply.value = refused(reply) ? 0 : machine.states;
    return reply;
}

Reply compare(const Bytes& first, const Bytes& other, Bytes& word)
{
    const Pair pair = read_both(first, other);
    if (refused(pair.fault)) {
        return pair.fault;
    }
    const Difference difference = first_difference(pair.one, pair.two);
    if (!difference.differs) {
        return {};
    }
    Reply reply = lend(difference.word, word);
    reply.value = refused(reply) ? 0 : difference.side;
    return reply;
}

Reply sum(const Bytes& first, const Bytes& other, Bytes& out)
{
    const Pair pair = read_both(first, other);
    if (refused(pair.fault)) {
        return pair.fault;
    }
    return lend_minimal(minimal_machine({Kind::sum, {pair.one, pair.two}}), out);
}

Reply meet(const Bytes& first, const Bytes& other, Bytes& out)
{
    const Pair pair = read_both(first, other);
    if (refused(pair.fault)) {
        return pair.fault;
    }
    const Machine one = minimal_machine({Kind::own, {pair.one}});
    const Machine two = minimal_machine({Kind::own, {pair.two}});
    if (one.states * two.states > most_product) {
        return refuse(10, 0, one.states * two.states);
    }
    return lend_minimal(minimal_machine({Kind::meet, {one, two}}), out);
}

Reply complement(const Bytes& record, Bytes& out)
{
    const Reply fault = check(record);
    if (refused(fault)) {
        return fault;
    }
    return lend_minimal(minimal_machine({Kind::complement, {read_record(record)}}), out);
}

Reply mirror(const Bytes& record, Bytes& out)
{
    const Reply fault = check(record);
    if (refused(fault)) {
        return fault;
    }
    return lend_minimal(minimal_machine({Kind::mirror, {read_record(record)}}), out);
}

Reply product(const Bytes& first, const Bytes& other, Bytes& out)
{
    const Pair pair = read_both(first, other);
    if (refused(pair.fault)) {
        return pair.fault;
    }
    return lend_minimal(minimal_machine({Kind::product, {pair.one, pair.two}}), out);
}

Reply star(const Bytes& record, Bytes& out)
{
    const Reply fault = check(record);
    if (refused(fault)) {
        return fault;
    }
    const Machine machine = read_record(record);
    if (accepts(machine, {})) {
        return refuse(14, 1, 0);
    }
    return lend_minimal(minimal_machine({Kind::star, {machine}}), out);
}

namespace {

// A machine that is in one state at a time: step[letter][state] is the next one.
Machine deterministic(const std::vector<std::vector<std::size_t>>& step, const Bits& accepting)
{
    Machine machine = blank_machine(accepting.size(), step.size());
    machine.initial[0] = 1;
    machine.accepting = accepting;
    for (std::size_t letter = 0; letter < step.size(); ++letter) {
        for (std::size_t state = 0; state < accepting.size(); ++state) {
            machine.rows[letter][state][step[letter][state]] = 1;
        }
    }
    return machine;
}

// Each language of the catalogue as 01 describes it; the record is worked out from it.
Machine described(std::size_t number)
{
    switch (number) {
    case 0:
        return blank_machine(0, 2);
    case 1:
        return deterministic({{0}, {0}}, {1});
    case 2:   // state 1: some letter has been read
        return deterministic({{1, 1}, {1, 1}}, {1, 0});
    case 3:   // state 1: the last letter was 1
        return deterministic({{0, 0}, {1, 1}}, {0, 1});
    case 4:   // states 0 to 2: what the run of 0 leaves on division by 3; state 3: a run was wrong
        return deterministic({{1, 2, 0, 3}, {0, 0, 3, 3}}, {1, 1, 0, 0});
    default:  // what the length leaves on division by 7
        return deterministic({{1, 2, 3, 4, 5, 6, 0}}, {1, 1, 1, 0, 1, 0, 0});
    }
}

}  // namespace

Reply catalogue(std::size_t number, Bytes& out)
{
    if (number > last_catalogue_number) {
        return refuse(13, 0, number);
    }
    return lend(write_record(minimal_machine({Kind::own, {described(number)}})), out);
}

// Written by hand, and not made from what the services above do: it is a second account of them. 9 is in no list.
const std::vector<std::size_t>& numbers_of(const std::string& service)
{
    static const std::map<std::string, std::vector<std::size_t>> lists = {
        {"check", {0, 1, 2, 3, 4, 5, 6, 7}},
        {"rewrite", {0, 1, 2, 3, 4, 5, 6, 7, 12}},
        {"test", {0, 1, 2, 3, 4, 5, 6, 7}},
        {"minimal", {0, 1, 2, 3, 4, 5, 6, 7, 12}},
        {"compare", {0, 1, 2, 3, 4, 5, 6, 7, 8, 12}},
        {"sum", {0, 1, 2, 3, 4, 5, 6, 7, 8, 11, 12}},
        {"meet", {0, 1, 2, 3, 4, 5, 6, 7, 8, 10, 11, 12}},
        {"product", {0, 1, 2, 3, 4, 5, 6, 7, 8, 11, 12}},
        {"complement", {0, 1, 2, 3, 4, 5, 6, 7, 11, 12}},
        {"mirror", {0, 1, 2, 3, 4, 5, 6, 7, 12}},
        {"star", {0, 1, 2, 3, 4, 5, 6, 7, 11, 12, 14}},
        {"catalogue", {0, 12, 13}},
        {"mark", {0, 12}},
        {"a refused line", {1, 2, 3, 4, 5, 6, 7, 8}},
    };
    return lists.at(service);
}

}  // namespace second
