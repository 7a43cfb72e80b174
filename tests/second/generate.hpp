// Random and hostile inputs, each determined by a 64-bit seed.
#ifndef SECOND_GENERATE_HPP
#define SECOND_GENERATE_HPP

#include "machine.hpp"

namespace generate {

using second::Bytes;
using second::Machine;
using second::Word;

// splitmix64.
class Chance {
public:
    explicit Chance(std::uint64_t seed) : state_(seed) {}
    std::uint64_t next();
    std::size_t below(std::size_t limit);                          // 0 to limit - 1
    std::size_t between(std::size_t least, std::size_t most);      // both included
    bool one_in(std::size_t count) { return below(count) == 0; }

private:
    std::uint64_t state_;
};

// The chance of one case of a run, so that a case can be repeated without those before it.
Chance chance_of(std::uint64_t seed, std::uint64_t number);

// Machines by shape; each entry of a scattered one is set with chance part in whole.
Machine scattered(Chance& chance, std::size_t states, std::size_t letters, std::size_t part, std::size_t whole);
Machine functional(Chance& chance, std::size_t states, std::size_t letters);     // one way on for each letter
Machine permutation(Chance& chance, std::size_t states, std::size_t letters);
Machine feedback(Chance& chance, std::size_t states, std::size_t letters);       // shift registers
Machine only_word(const Word& word, std::size_t letters);                        // a nilpotent chain
Machine only_power(std::size_t letter, std::size_t length, std::size_t letters); // only 0^k, only 1^k
Machine direct_sum(const Machine& one, const Machine& two);
Machine delayed(const Word& word, const Machine& machine);      // this word, then a word of the machine
Machine rebased(Chance& chance, const Machine& machine);        // other rows, the same language
Machine unreachable(Chance& chance, const Machine& machine, std::size_t states);  // states no word leads to
Machine unobservable(Chance& chance, const Machine& machine, std::size_t states); // states no suffix tells apart
Machine without_empty_word(Machine machine);   // one final state fewer, where the empty word was accepted

// The same language in exactly this many states, though another basis and further states hide it.
Machine disguised(Chance& chance, const Machine& machine, std::size_t states);

Machine machine(Chance& chance, std::size_t states, std::size_t letters);        // any of these shapes
std::size_t state_count(Chance& chance);     // 0 to 32
std::size_t letter_count(Chance& chance);    // 1 to 8

Word word(Chance& chance, std::size_t length, std::size_t letters);
Word tested_word(Chance& chance, std::size_t letters);      // some long, some with a foreign letter

Bytes record(Chance& chance);                               // well formed
Bytes damaged(Chance& chance, Bytes record);
Bytes any_record(Chance& chance);                           // mostly well formed

// Two records: strangers, equals under another basis, equals but for one word or one bit, unlike letters, damaged, the second blank.
struct Pair {
    Bytes first, other;
};
Pair any_pair(Chance& chance, std::size_t most);     // of at most so many states

// Two records over the same letters whose dimensions have a product near 64.
Pair meeting_pair(Chance& chance);

Bytes script(Chance& chance);                               // whole or damaged

std::size_t buffer_size(Chance& chance, std::size_t needed);    // exact, one short, none, larger

}  // namespace generate

#endif
