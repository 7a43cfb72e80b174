// The second program: every service of the desk, from bytes to bytes, by plain means.
#ifndef SECOND_SECOND_HPP
#define SECOND_SECOND_HPP

#include <string>

#include "machine.hpp"

namespace second {

// Number 0: granted. Fields a reply has no use for are 0.
struct Reply {
    std::size_t number, record, place, length, value;
};

// A lent buffer keeps its size; it keeps its bytes on a refusal and past the bytes written.
Reply check(const Bytes& record);
Reply rewrite(const Bytes& record, Bytes& out);
Reply test(const Bytes& record, const Word& word);              // value 1: accepted; a word with a foreign letter is not
Reply minimal(const Bytes& record, Bytes& out);                 // value: the dimension
// In the services on two records a second one of 0 bytes, a blank, is the machine with no states over the first one's letters.
Reply compare(const Bytes& first, const Bytes& other, Bytes& word);   // value 0: same, else who accepts
Reply sum(const Bytes& first, const Bytes& other, Bytes& out);
Reply meet(const Bytes& first, const Bytes& other, Bytes& out);
Reply complement(const Bytes& record, Bytes& out);
Reply mirror(const Bytes& record, Bytes& out);
Reply product(const Bytes& first, const Bytes& other, Bytes& out);
Reply star(const Bytes& record, Bytes& out);
Reply catalogue(std::size_t number, Bytes& out);
Reply mark(const Bytes& script, std::size_t index, Bytes& out);

// The whole text that the marking program prints.
std::string mark_program(const Bytes& script);

// By the name of a service every number that its reply can have, 0 among them; by `a refused line` those with which a line of a marking
// says `refused`.
const std::vector<std::size_t>& numbers_of(const std::string& service);

}  // namespace second

#endif
