// A run of requests put to the desk and to the second program, which ends at the first difference.
#ifndef DRIVE_RUN_HPP
#define DRIVE_RUN_HPP

#include <cstddef>
#include <cstdint>
#include <map>
#include <set>
#include <string>

#include "../second/generate.hpp"
#include "../second/second.hpp"
#include "nxa.h"

namespace drive {

using generate::Chance;
using second::Bytes;
using second::Reply;
using second::Word;

// Bytes in the middle of other bytes that nobody may touch.
class Guarded {
public:
    explicit Guarded(const Bytes& content);
    std::uint8_t* data() { return all_.data() + margin; }
    std::size_t size() const { return all_.size() - 2 * margin; }
    bool holds(const Bytes& content) const;   // this content, and the bytes around it as they were

    // With the address sanitizer, code that was compiled for it may not even read the bytes around while they are fenced off.
    void fence_off();
    void open_up();

private:
    static constexpr std::size_t margin = 64;
    Bytes all_;
};

// What one request gave: its reply, and the whole lent buffer afterwards.
struct Answer {
    Reply reply;
    Bytes buffer;
    Bytes written() const;
};

// The bytes and numbers of a request, to be shown when the answers differ.
struct Request {
    std::string service;
    std::vector<Bytes> inputs;
    std::size_t number = 0;   // the catalogue number or the index in a script
    std::size_t lent = 0;
};

class Run {
public:
    // From the arguments seed, count and, to repeat a part, the first case.
    Run(std::string name, int argc, char** argv);

    using OneService = nxa_reply (*)(const std::uint8_t*, std::size_t, std::uint8_t*, std::size_t);
    using TwoService = nxa_reply (*)(const std::uint8_t*, std::size_t, const std::uint8_t*, std::size_t,
                                     std::uint8_t*, std::size_t);
    using NumberService = nxa_reply (*)(std::size_t, std::uint8_t*, std::size_t);
    using IndexService = nxa_reply (*)(const std::uint8_t*, std::size_t, std::size_t, std::uint8_t*, std::size_t);
    using SecondOne = Reply (*)(const Bytes&, Bytes&);
    using SecondTwo = Reply (*)(const Bytes&, const Bytes&, Bytes&);

    // Each puts one request to both, compares all there is to compare and gives the answer. The number of a reply must be one that the
    // service can have, and so must that of a line that says `refused`.
    Answer check(const Bytes& record);
    Answer test(const Bytes& record, const Word& word);
    Answer one(const char* service, OneService desk, SecondOne expected, const Bytes& record, std::size_t lent);
    Answer two(const char* service, TwoService desk, SecondTwo expected, const Bytes& first, const Bytes& other,
               std::size_t lent);
    Answer catalogue(NumberService desk, std::size_t number, std::size_t lent);
    Answer mark(IndexService desk, const Bytes& script, std::size_t index, std::size_t lent);

    // The same with every size that may matter: exact, one short, none and larger.
    void one_sizes(const char* service, OneService desk, SecondOne expected, const Bytes& record);
    void two_sizes(const char* service, TwoService desk, SecondTwo expected, const Bytes& first,
                   const Bytes& other);

    // A second record of 0 bytes, a blank, with every such size; and the law of it: the answer and the whole buffer are those for the
    // record with no states over the first one's letters.
    void two_blank(const char* service, TwoService desk, SecondTwo expected, const Bytes& first);

    // A law among answers of the desk; the inputs are shown when it fails.
    void law(bool holds, const char* what, const std::vector<Bytes>& inputs);

    // Goes through the random cases.
    template <typename Case>
    void cases(Case each)
    {
        for (number_ = first_; number_ < first_ + count_; ++number_) {
            Chance chance = generate::chance_of(seed_, number_);
            each(chance);
        }
    }

    // The closing line. It fails where a service was asked and a number that its reply can have did not come: the fixed cases of each driver
    // are to make every one come.
    int finish() const;

private:
    [[noreturn]] void fail(const Request& request, const std::string& what) const;
    void count(const Request& request, const std::string& service, std::size_t number);
    Bytes lent_bytes(std::size_t size);
    template <typename Desk, typename Second>
    Answer put(Request request, Desk desk, Second expected);

    std::string name_;
    std::uint64_t seed_ = 1;
    std::size_t count_ = 1000;
    std::size_t first_ = 0;
    std::size_t number_ = SIZE_MAX;   // no random case: the fixed ones
    std::size_t requests_ = 0;
    std::map<std::string, std::set<std::size_t>> came_;   // which numbers, by the name that second::numbers_of has
    Chance filling_;
};

// Larger than anything a service writes.
constexpr std::size_t ample = 1100;

inline bool granted(const Answer& answer)
{
    return answer.reply.number == 0;
}

// Where both are granted, both have written the same record.
inline bool agree(const Answer& one, const Answer& two)
{
    return !granted(one) || !granted(two) || one.written() == two.written();
}

// An operation with an ample buffer, and half of the time with one more, whose size is chosen by what is needed.
template <typename Operation, typename... Inputs>
void with_size(Run& run, Chance& chance, Operation operation, const Inputs&... inputs)
{
    const Answer answer = operation(run, inputs..., ample);
    if (chance.one_in(2)) {
        operation(run, inputs..., generate::buffer_size(chance, answer.reply.length));
    }
}

}  // namespace drive

#endif
