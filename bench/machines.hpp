// The machines that the benchmarks run on: random dense ones, sparse and deterministic ones, the same language in another basis. Needs the yardstick's Machine,
// or that of plain_machine.hpp.
#ifndef MACHINES_HPP
#define MACHINES_HPP

#include <vector>

typedef std::vector<u8> Bytes;

static u64 seed = 20261115;

static inline u64 random64() {
    u64 z = (seed += 0x9E3779B97F4A7C15ull);
    z = (z ^ z >> 30) * 0xBF58476D1CE4E5B9ull;
    z = (z ^ z >> 27) * 0x94D049BB133111EBull;
    return z ^ z >> 31;
}

static inline u64 random_row(int n, double density) {
    u64 r = 0;
    for (int i = 0; i < n; i++)
        if ((random64() >> 11) * 0x1p-53 < density) r |= 1ull << i;
    return r;
}

static inline Machine dense(int n, int a, double density = 0.5) {
    Machine m;
    m.n = n;
    m.a = a;
    m.I = random_row(n, density);
    m.F = random_row(n, density);
    for (int l = 0; l < a; l++)
        for (int i = 0; i < n; i++) m.T[l][i] = random_row(n, density);
    return m;
}

// Only 0^k, over a letters.
static inline Machine only(int k, int a) {
    Machine m;
    m.n = k + 1;
    m.a = a;
    m.I = 1;
    m.F = 1ull << k;
    for (int l = 0; l < a; l++)
        for (int i = 0; i <= k; i++) m.T[l][i] = l == 0 && i < k ? 2ull << i : 0;
    return m;
}

// A deterministic machine: one state to begin in, and one after each state and letter.
static inline Machine deterministic(int n, int a) {
    Machine m;
    m.n = n;
    m.a = a;
    m.I = 1;
    m.F = random_row(n, 0.5);
    for (int l = 0; l < a; l++)
        for (int i = 0; i < n; i++) m.T[l][i] = 1ull << random64() % n;
    return m;
}

// Nothing is accepted, as no state is final, though every row can be reached.
static inline Machine no_final(Machine m) {
    m.F = 0;
    return m;
}

// Nothing is accepted, as the one final state is out of reach; the rows of the others can be reached.
static inline Machine final_out_of_reach(Machine m) {
    u64 last = 1ull << (m.n - 1);
    m.I &= ~last;
    m.F = last;
    for (int l = 0; l < m.a; l++)
        for (int i = 0; i < m.n; i++) m.T[l][i] &= ~last;
    return m;
}

// Letter l leads from each state to the one l + 1 places further; the last one is final.
static inline Machine cycle(int n, int a) {
    Machine m;
    m.n = n;
    m.a = a;
    m.I = 1;
    m.F = 1ull << (n - 1);
    for (int l = 0; l < a; l++)
        for (int i = 0; i < n; i++) m.T[l][i] = 1ull << (i + 1 + l) % n;
    return m;
}

// Every word: each letter leads from each state to itself.
static inline Machine loops(int n, int a) {
    Machine m;
    m.n = n;
    m.a = a;
    m.I = m.F = 1;
    for (int l = 0; l < a; l++)
        for (int i = 0; i < n; i++) m.T[l][i] = 1ull << i;
    return m;
}

// The last letter leads nowhere from state 0.
static inline Machine without_last(Machine m) {
    m.T[m.a - 1][0] = 0;
    return m;
}

// The same language in another basis: state i gains state j.
static inline void change_basis(Machine& m, int i, int j) {
    auto column = [&](u64& v) { v ^= (v >> i & 1) << j; };
    column(m.I);
    m.F ^= (m.F >> j & 1) << i;
    for (int l = 0; l < m.a; l++) {
        for (int r = 0; r < m.n; r++) column(m.T[l][r]);
        m.T[l][i] ^= m.T[l][j];
    }
}

static inline Machine other_basis(Machine m) {
    for (int k = 0; k < 6 * m.n && m.n > 1; k++) {
        int i = random64() % m.n, j = random64() % m.n;
        if (i != j) change_basis(m, i, j);
    }
    return m;
}

// The same machine with its states in another order.
static inline Machine renamed(const Machine& m) {
    int to[32];
    for (int i = 0; i < m.n; i++) {
        int j = random64() % (i + 1);
        to[i] = to[j];
        to[j] = i;
    }
    auto row = [&](u64 v) {
        u64 w = 0;
        for (int i = 0; i < m.n; i++) w |= (v >> i & 1) << to[i];
        return w;
    };
    Machine o = m;
    o.I = row(m.I);
    o.F = row(m.F);
    for (int l = 0; l < m.a; l++)
        for (int i = 0; i < m.n; i++) o.T[l][to[i]] = row(m.T[l][i]);
    return o;
}

// Every state twice: each copy may begin a path, and both end it. The copies of a state cannot be told apart.
static inline Machine doubled(const Machine& m) {
    Machine o = m;
    o.n = 2 * m.n;
    o.I = m.I ^ random_row(m.n, 0.5) * ((1ull << m.n) + 1);
    o.F = m.F | m.F << m.n;
    for (int l = 0; l < m.a; l++)
        for (int i = 0; i < m.n; i++) {
            o.T[l][i] = m.T[l][i];
            o.T[l][m.n + i] = m.T[l][i] << m.n;
        }
    return o;
}

static inline Bytes record_of(const Machine& m) {
    Bytes r(15 + 4 * m.a * m.n);
    write_record(m, r.data());
    return r;
}

#endif
