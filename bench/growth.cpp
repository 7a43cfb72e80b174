// How the time of the minimal service grows with the states n and the letters a, beside the row additions that the algorithm needs: for each
// product the bits of its row, for each elimination the pivots that it meets, for each new row the basis rows that it changes, each of the
// last two twice where coefficients are kept; for a row looked up, its coefficients or what it
// is folded, one for every four bits, and fifteen to make each four's entries. Beside it the additions of two reductions, the first of the mirror.
#define NO_MAIN
#include "baseline.cpp"
#include "machines.hpp"
extern "C" {
#include "nxa.h"
}
#include <cstdio>
#include <cstdlib>
#include <string>
#include <time.h>

static double seconds() {
    timespec t;
    clock_gettime(CLOCK_THREAD_CPUTIME_ID, &t);
    return t.tv_sec + t.tv_nsec * 1e-9;
}

static size_t ones(u64 x) { return (size_t)__builtin_popcountll(x); }

// A basis by Gauss and Jordan, indexed by pivot, as the desk has it: the additions that it makes.
struct Basis {
    u64 row[64], made[64], found[64], pivots = 0;
    int count = 0;
    size_t kept;  // 2 where coefficients are kept, else 1
    size_t additions = 0;

    explicit Basis(bool coefficients) : kept(coefficients ? 2 : 1) {}

    u64 place(u64 y) {
        u64 left = y, own = 0;
        for (u64 s = y & pivots; s; s &= s - 1) {
            left ^= row[__builtin_ctzll(s)];
            own ^= made[__builtin_ctzll(s)];
        }
        additions += kept * ones(y & pivots);
        if (left == 0) return own;
        int q = __builtin_ctzll(left);
        own ^= 1ull << count;
        for (u64 s = pivots; s; s &= s - 1) {
            int p = __builtin_ctzll(s);
            if (row[p] >> q & 1) row[p] ^= left, made[p] ^= own, additions += kept;
        }
        row[q] = left, made[q] = own, pivots |= 1ull << q, found[count] = y;
        return 1ull << count++;
    }
};

// A reduction; once there are as many rows as states and 32 products or more are left, these are looked up, if the desk's way is asked for.
static size_t reduced(const Machine& m, Machine& out, bool look_up) {
    Basis b(true);
    out.a = m.a;
    out.I = b.place(m.I);
    size_t table = 0;
    for (int k = 0; k < b.count; k++) {
        if (look_up && !table && b.count == m.n && (m.n - k) * m.a >= 32) b.additions += table = (m.n + 3) / 4 * 15;
        for (int l = 0; l < m.a; l++) {
            size_t before = b.additions;
            out.T[l][k] = b.place(times(b.found[k], m.T[l]));
            if (table) b.additions = before + (m.n + 3) / 4;
            b.additions += ones(b.found[k]);
        }
    }
    out.n = b.count;
    out.F = 0;
    for (int k = 0; k < b.count; k++) out.F |= (u64)odd(b.found[k] & m.F) << k;
    return b.additions;
}

// The search over the mirror for the columns, up to as many rows as states.
static Basis explored(Machine m) {
    mirror(m);
    Basis b(false);
    b.place(m.I);
    for (int k = 0; k < b.count && b.count < m.n; k++)
        for (int l = 0; l < m.a; l++) {
            b.additions += ones(b.found[k]);
            b.place(times(b.found[k], m.T[l]));
        }
    return b;
}

// The row x on the pivots, which are the states then.
static u64 folded(Basis& b, int n, u64 x) {
    u64 y = 0;
    int rank = 0;
    for (u64 p = b.pivots; p; p &= p - 1, rank++) y |= (u64)odd(x & b.row[__builtin_ctzll(p)]) << rank;
    b.additions += (n + 3) / 4;
    return y;
}

static size_t additions(const Machine& m) {
    Basis b = explored(m);
    Machine f = m, out;
    if (b.count < m.n) {
        b.additions += (m.n + 3) / 4 * 15;
        f.n = b.count;
        f.I = folded(b, m.n, m.I);
        int rank = 0;
        f.F = 0;
        for (u64 p = b.pivots; p; p &= p - 1, rank++) {
            int state = __builtin_ctzll(p);
            f.F |= (m.F >> state & 1) << rank;
            for (int l = 0; l < m.a; l++) f.T[l][rank] = folded(b, m.n, m.T[l][state]);
        }
    }
    return b.additions + reduced(f, out, true);
}

static size_t of_two_reductions(Machine m) {
    Machine once, twice;
    mirror(m);
    size_t count = reduced(m, once, false);
    mirror(once);
    return count + reduced(once, twice, false);
}

int main() {
    u8 out[NXA_RECORD_MAX];
    std::printf("%4s %4s %14s %14s %20s %18s\n", "n", "a", "microseconds", "row additions", "ns for an addition", "of two reductions");
    for (int a : {1, 2, 4, 8})
        for (int n = 4; n <= 32; n += 4) {
            std::vector<Bytes> in;
            double count = 0, two = 0, best = 1e9;
            for (int k = 0; k < 64; k++) {
                Machine m = dense(n, a);
                in.push_back(record_of(m));
                count += (double)additions(m) / 64;
                two += (double)of_two_reductions(m) / 64;
            }
            for (int turn = 0; turn < 300; turn++) {
                double from = seconds();
                for (const Bytes& r : in) nxa_minimal(r.data(), r.size(), out, sizeof out);
                best = std::min(best, (seconds() - from) / 64);
            }
            std::printf("%4d %4d %14.2f %14.0f %20.2f %18.0f\n", n, a, best * 1e6, count, best * 1e9 / count, two);
        }
}
