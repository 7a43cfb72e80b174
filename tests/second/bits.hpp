// Vectors of truths: their xor, and the parity of what two have in common.
#ifndef SECOND_BITS_HPP
#define SECOND_BITS_HPP

#include "machine.hpp"

namespace second {

inline void add(Bits& target, const Bits& other)
{
    const std::size_t size = target.size();
    unsigned char* const to = target.data();
    const unsigned char* const from = other.data();
    for (std::size_t i = 0; i < size; ++i) {
        to[i] ^= from[i];
    }
}

inline unsigned char parity(const Bits& row, const Bits& column)
{
    const std::size_t size = row.size();
    unsigned char odd = 0;
    for (std::size_t i = 0; i < size; ++i) {
        odd ^= row[i] & column[i];
    }
    return odd;
}

}  // namespace second

#endif
