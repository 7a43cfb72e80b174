// Lent buffers: row 12, and writing from the start.
#ifndef SECOND_LENDING_HPP
#define SECOND_LENDING_HPP

#include <algorithm>

#include "second.hpp"

namespace second {

// Writes the content, or refuses a buffer that is too short and leaves it as it was.
inline Reply lend(const Bytes& content, Bytes& out)
{
    if (out.size() < content.size()) {
        return {12, 0, content.size(), 0, 0};
    }
    std::copy(content.begin(), content.end(), out.begin());
    return {0, 0, 0, content.size(), 0};
}

}  // namespace second

#endif
