// What the parts of the self-test share: counted checks, records, and services with an ample buffer.
#ifndef SECOND_SELFTEST_HPP
#define SECOND_SELFTEST_HPP

#include "generate.hpp"
#include "second.hpp"

namespace selftest {

using second::Bytes;
using second::Reply;
using second::Word;

// Counts a check, and prints what it was about when it fails.
void expect(bool holds, const char* what, std::size_t which = 0);

// The samples of 01, its refusal table and its catalogue.
void all_samples();

// Product and star: the samples and refusals; two large machines by another way.
void cut_samples();
void large_cuts(generate::Chance& chance, std::size_t number);

inline bool is_refusal(const Reply& reply, std::size_t number, std::size_t record, std::size_t place)
{
    return reply.number == number && reply.record == record && reply.place == place && reply.length == 0
        && reply.value == 0;
}

constexpr std::uint8_t untouched = 0xEE;

template <typename Service, typename... Inputs>
Reply reply_of(Service service, const Inputs&... inputs)
{
    Bytes out(2000, untouched);
    return service(inputs..., out);
}

// The bytes written; a single odd byte when the rest of the buffer was not left alone.
template <typename Service, typename... Inputs>
Bytes bytes_of(Service service, const Inputs&... inputs)
{
    Bytes out(2000, untouched);
    const Reply reply = service(inputs..., out);
    for (std::size_t i = reply.length; i < out.size(); ++i) {
        if (out[i] != untouched) {
            return {0xFF};
        }
    }
    out.resize(reply.length);
    return out;
}

// A record from numbers worth the bits of its rows.
inline Bytes fields(std::uint8_t n, std::uint8_t a, const std::vector<unsigned>& rows)
{
    Bytes bytes = {0x4E, 0x58, 0x41, 1, 0, n, a};
    for (unsigned row : rows) {
        for (int i = 0; i < 4; ++i) {
            bytes.push_back(static_cast<std::uint8_t>(row >> (8 * i)));
        }
    }
    return bytes;
}

// Only the word letter^length.
inline Bytes power(std::size_t letter, std::size_t length, std::size_t letters)
{
    return second::write_record(generate::only_power(letter, length, letters));
}

inline Bytes catalogue(std::size_t number)
{
    return bytes_of(second::catalogue, number);
}

}  // namespace selftest

#endif
