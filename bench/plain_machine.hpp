// What machines.hpp works on where there is no yardstick to have it from: a machine as the yardstick has it, and its record.
#ifndef PLAIN_MACHINE_HPP
#define PLAIN_MACHINE_HPP

#include <algorithm>
#include <cstddef>
#include <cstdint>
typedef uint64_t u64;
typedef uint8_t u8;

struct Machine {
    int n = 0, a = 1;
    u64 I = 0, F = 0;
    u64 T[8][64];
};

static inline u8* put_row(u8* at, u64 row) {
    for (int k = 0; k < 4; k++) *at++ = (u8)(row >> 8 * k);
    return at;
}

static inline size_t write_record(const Machine& m, u8* out) {
    const u8 head[7] = {0x4E, 0x58, 0x41, 1, 0, (u8)m.n, (u8)m.a};
    u8* at = put_row(put_row(std::copy(head, head + 7, out), m.I), m.F);
    for (int l = 0; l < m.a; l++)
        for (int i = 0; i < m.n; i++) at = put_row(at, m.T[l][i]);
    return (size_t)(at - out);
}

#endif
