// Brute force for small machines: the definitions of 01 followed word by word and path by path.
#ifndef SECOND_BRUTE_HPP
#define SECOND_BRUTE_HPP

#include <functional>
#include <map>

#include "machine.hpp"

namespace brute {

using second::Bytes;
using second::Machine;
using second::Word;

// All words of fewer letters than the bound, in shortlex order.
std::vector<Word> words_shorter_than(std::size_t bound, std::size_t letters);

// The number of paths along the word, each one walked to its end. No path goes on with a letter that the machine does not have.
std::size_t path_count(const Machine& machine, const Word& word);

// A language as a question, each word asked once.
class Oracle {
public:
    explicit Oracle(std::function<bool(const Word&)> question) : question_(std::move(question)) {}
    bool operator()(const Word& word);

private:
    std::function<bool(const Word&)> question_;
    std::map<Word, bool> answers_;
};

Oracle oracle_of(const Machine& machine);

// The number of cuts of a word into a word of the one and then a word of the other; either may be empty.
std::size_t cuts_into_two(Oracle& one, Oracle& other, const Word& word);

// The number of cuts of a word into words of the language, none of them empty, each cut followed to its end.
// The empty word has one, into none.
std::size_t cuts_into_words(Oracle& language, const Word& word);

// The rank of the table of uv over all words u, v shorter than the bound, as the
// logarithm of the number of xors of its rows.
std::size_t table_rank(Oracle& language, std::size_t bound, std::size_t letters);

// The minimal record of a language whose dimension is at most the bound.
Bytes minimal_record(Oracle& language, std::size_t bound, std::size_t letters);

// The first word shorter than the bound that just one accepts: whether there is one, and which.
bool first_difference(Oracle& one, Oracle& two, std::size_t bound, std::size_t letters, Word& found);

}  // namespace brute

#endif
