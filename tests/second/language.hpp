// Languages of xor automata: quotients as truths on test words, minimal machines, first differences.
#ifndef SECOND_LANGUAGE_HPP
#define SECOND_LANGUAGE_HPP

#include "machine.hpp"

namespace second {

// How a language is made from the languages of its operands (two for sum, meet and product, else one). A star is asked for only where its
// operand does not accept the empty word.
enum class Kind { own, mirror, sum, meet, complement, product, star };

struct Language {
    Kind kind = Kind::own;
    std::vector<Machine> operands;
};

// The minimal machine: its states are the basis words in shortlex order (prefix order).
// Its number of states is the dimension. For a meet the cost grows with the product of the states.
Machine minimal_machine(const Language& language);

std::size_t dimension(const Machine& machine);

struct Difference {
    bool differs = false;
    Word word;               // the first word in shortlex order that just one accepts
    std::size_t side = 0;    // 1 or 2: the one that accepts it
};

Difference first_difference(const Machine& one, const Machine& two);

// Whether the number of paths along the word is odd; every letter must be one of the machine's.
bool accepts(const Machine& machine, const Word& word);

}  // namespace second

#endif
