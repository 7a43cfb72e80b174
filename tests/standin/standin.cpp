// A stand-in for the archive, to try the drivers themselves: the whole C interface answered by the second program.
#include <algorithm>

#include "../second/second.hpp"
#include "nxa.h"

namespace {

using second::Bytes;
using second::Reply;

Bytes taken(const uint8_t* bytes, size_t length)
{
    return Bytes(bytes, bytes + length);
}

nxa_reply given(const Reply& reply)
{
    return {reply.number, reply.record, reply.place, reply.length, reply.value};
}

// Answers in a copy of the lent buffer and hands all of it back.
template <typename Service>
nxa_reply lent(Service service, uint8_t* out, size_t length)
{
    Bytes buffer = taken(out, length);
    const Reply reply = service(buffer);
    std::copy(buffer.begin(), buffer.end(), out);
    return given(reply);
}

}  // namespace

extern "C" {

nxa_reply nxa_check(const uint8_t* record, size_t record_len)
{
    return given(second::check(taken(record, record_len)));
}

nxa_reply nxa_rewrite(const uint8_t* record, size_t record_len, uint8_t* out, size_t out_len)
{
    return lent([&](Bytes& b) { return second::rewrite(taken(record, record_len), b); }, out, out_len);
}

nxa_reply nxa_test(const uint8_t* record, size_t record_len, const uint8_t* word, size_t word_len)
{
    return given(second::test(taken(record, record_len), taken(word, word_len)));
}

nxa_reply nxa_minimal(const uint8_t* record, size_t record_len, uint8_t* out, size_t out_len)
{
    return lent([&](Bytes& b) { return second::minimal(taken(record, record_len), b); }, out, out_len);
}

nxa_reply nxa_compare(const uint8_t* first, size_t first_len, const uint8_t* other, size_t other_len,
                      uint8_t* word, size_t word_len)
{
    return lent([&](Bytes& b) { return second::compare(taken(first, first_len), taken(other, other_len), b); },
                word, word_len);
}

nxa_reply nxa_sum(const uint8_t* first, size_t first_len, const uint8_t* other, size_t other_len,
                  uint8_t* out, size_t out_len)
{
    return lent([&](Bytes& b) { return second::sum(taken(first, first_len), taken(other, other_len), b); },
                out, out_len);
}

nxa_reply nxa_meet(const uint8_t* first, size_t first_len, const uint8_t* other, size_t other_len,
                   uint8_t* out, size_t out_len)
{
    return lent([&](Bytes& b) { return second::meet(taken(first, first_len), taken(other, other_len), b); },
                out, out_len);
}

nxa_reply nxa_complement(const uint8_t* record, size_t record_len, uint8_t* out, size_t out_len)
{
    return lent([&](Bytes& b) { return second::complement(taken(record, record_len), b); }, out, out_len);
}

nxa_reply nxa_mirror(const uint8_t* record, size_t record_len, uint8_t* out, size_t out_len)
{
    return lent([&](Bytes& b) { return second::mirror(taken(record, record_len), b); }, out, out_len);
}

nxa_reply nxa_product(const uint8_t* first, size_t first_len, const uint8_t* other, size_t other_len,
                      uint8_t* out, size_t out_len)
{
    return lent([&](Bytes& b) { return second::product(taken(first, first_len), taken(other, other_len), b); },
                out, out_len);
}

nxa_reply nxa_star(const uint8_t* record, size_t record_len, uint8_t* out, size_t out_len)
{
    return lent([&](Bytes& b) { return second::star(taken(record, record_len), b); }, out, out_len);
}

nxa_reply nxa_catalogue(size_t number, uint8_t* out, size_t out_len)
{
    return lent([&](Bytes& b) { return second::catalogue(number, b); }, out, out_len);
}

nxa_reply nxa_mark(const uint8_t* script, size_t script_len, size_t index, uint8_t* out, size_t out_len)
{
    return lent([&](Bytes& b) { return second::mark(taken(script, script_len), index, b); }, out, out_len);
}

}  // extern "C"
