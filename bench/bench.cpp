// Times the proved services beside a plain and a tuned C++ program, from record bytes to answer bytes, in one run on the same inputs.
// Every answer must agree. Build: see README.md in this folder. The yardstick is included, not linked: baseline.cpp and tuned.hpp.
#define NO_MAIN
#include "baseline.cpp"
#include "tuned.hpp"
#include "machines.hpp"
#include "timing.hpp"
extern "C" {
#include "nxa.h"
}
#include <algorithm>
#include <cstdio>
#include <cstdlib>
#include <cstring>
#include <deque>
#include <functional>
#include <string>
#include <vector>

struct Pair { Bytes first, second; };

// ---- times

// A family: its name, a turn of the three programs, which is a slice of each, and how many seconds of each it is given.
struct Family {
    std::string name;
    double budget;
    std::function<double(Family&)> turn;
    Timer plain = {}, tuned = {}, proved = {};

    double to_plain() const { return proved.best / plain.best; }
    double to_tuned() const { return proved.best / tuned.best; }
    double to_better() const { return std::max(to_plain(), to_tuned()); }
};
static std::vector<Family> families;

template <class P, class T, class V> static void add_family(const std::string& name, size_t inputs, double budget, P p, T t, V v) {
    families.push_back({name, budget, [=](Family& f) { return f.plain.slice(inputs, p) + f.tuned.slice(inputs, t) + f.proved.slice(inputs, v); }});
}

// All families, one after another, in many passes. Others on the machine slow it for seconds at a time, so that no family is to have all
// its slices in one stretch; and the slices of the three programs take turns.
static void time_families() {
    for (int pass = 0; pass < PASSES; pass++)
        for (Family& f : families) {
            double spent = 0;
            for (int turn = 0; spent < 3 * f.budget / PASSES || turn < 4; turn++) spent += f.turn(f);
        }
}

// What the families run on, and where the answers go.
static std::deque<std::vector<Bytes>> records;
static std::deque<std::vector<Pair>> pairs;
static u8 out[NXA_RECORD_MAX], word[64];

static void time_check(const std::string& name, const std::vector<Bytes>& of, double budget) {
    const Bytes* in = records.emplace_back(of).data();
    auto plain = [=](size_t i) { sink = check(in[i].data(), in[i].size(), 1).no; };
    add_family("check " + name, of.size(), budget, plain, plain, [=](size_t i) { sink = nxa_check(in[i].data(), in[i].size()).number; });
}

static void time_minimal(const std::string& name, const std::vector<Bytes>& of, double budget) {
    const Bytes* in = records.emplace_back(of).data();
    add_family(
        "minimal " + name, of.size(), budget, [=](size_t i) { sink = minimal(in[i].data(), in[i].size(), out, sizeof out).dim; },
        [=](size_t i) { sink = tuned::minimal(in[i].data(), in[i].size(), out, sizeof out).dim; },
        [=](size_t i) { sink = nxa_minimal(in[i].data(), in[i].size(), out, sizeof out).value; });
}

static void time_compare(const std::string& name, const std::vector<Pair>& of, double budget) {
    const Pair* in = pairs.emplace_back(of).data();
    auto first = [=](size_t i) { return in[i].first.data(); };
    auto second = [=](size_t i) { return in[i].second.data(); };
    add_family(
        "compare " + name, of.size(), budget, [=](size_t i) { sink = compare(first(i), in[i].first.size(), second(i), in[i].second.size(), word, 64).len; },
        [=](size_t i) { sink = tuned::compare(first(i), in[i].first.size(), second(i), in[i].second.size(), word, 64).len; },
        [=](size_t i) { sink = nxa_compare(first(i), in[i].first.size(), second(i), in[i].second.size(), word, 64).length; });
}

static void print_families() {
    std::printf("%-42s %8s %8s %8s   %6s %6s\n", "microseconds for one call", "plain", "tuned", "proved", "/plain", "/tuned");
    for (const Family& f : families)
        std::printf("%-42s %8.3f %8.3f %8.3f   %6.2f %6.2f\n", f.name.c_str(), f.plain.best, f.tuned.best, f.proved.best, f.to_plain(), f.to_tuned());
}

// The family with the worst of a ratio, among those that `counts` takes.
template <class C, class R> static void worst(const char* what, C counts, R ratio) {
    const Family* bad = nullptr;
    for (const Family& f : families)
        if (counts(f) && (!bad || ratio(f) > ratio(*bad))) bad = &f;
    if (bad) std::printf("worst %s: %.2f, %s\n", what, ratio(*bad), bad->name.c_str());
}

static void print_worst() {
    auto to_plain = [](const Family& f) { return f.to_plain(); };
    worst("to plain, over 5 microseconds", [](const Family& f) { return f.plain.best > 5; }, to_plain);
    worst("to plain at n=32 a=8, over 5 microseconds", [](const Family& f) { return f.plain.best > 5 && f.name.find("n=32 a=8") != std::string::npos; }, to_plain);
    worst("to the better of the two", [](const Family&) { return true; }, [](const Family& f) { return f.to_better(); });
}

// ---- agreement

static void disagree(const char* what) {
    std::printf("DISAGREE %s\n", what);
    std::exit(1);
}

static void agree(int cases) {
    for (int k = 0; k < cases; k++) {
        int n = random64() % 33, a = 1 + random64() % 8;
        Machine m = dense(n, a, (random64() % 5) * 0.2 + 0.05);
        if (n % 2 == 0 && random64() % 4 == 0) m = other_basis(doubled(dense(n / 2, a)));
        Machine o = random64() % 2 ? other_basis(m) : dense(random64() % 33, a, 0.3);
        Bytes x = record_of(m), y = record_of(o);
        u8 b[3][NXA_RECORD_MAX], w[3][64];
        std::memset(b, 0xEE, sizeof b);
        std::memset(w, 0xEE, sizeof w);
        MinAnswer p = minimal(x.data(), x.size(), b[0], NXA_RECORD_MAX);
        MinAnswer t = tuned::minimal(x.data(), x.size(), b[2], NXA_RECORD_MAX);
        nxa_reply v = nxa_minimal(x.data(), x.size(), b[1], NXA_RECORD_MAX);
        if ((size_t)p.dim != v.value || (size_t)p.len != v.length || std::memcmp(b[0], b[1], NXA_RECORD_MAX)) disagree("minimal");
        if (p.dim != t.dim || p.len != t.len || std::memcmp(b[0], b[2], NXA_RECORD_MAX)) disagree("minimal, of the yardstick's two");
        CmpAnswer q = compare(x.data(), x.size(), y.data(), y.size(), w[0], 64);
        CmpAnswer e = tuned::compare(x.data(), x.size(), y.data(), y.size(), w[2], 64);
        nxa_reply c = nxa_compare(x.data(), x.size(), y.data(), y.size(), w[1], 64);
        if (q.kind != e.kind || (q.kind == 1 && (q.len != e.len || q.by != e.by)) || std::memcmp(w[0], w[2], 64)) disagree("compare, of the yardstick's two");
        if ((q.kind == 0) != (c.value == 0) || (q.kind == 1 && ((size_t)q.len != c.length || (size_t)q.by != c.value)) || std::memcmp(w[0], w[1], 64)) disagree("compare");
    }
    std::printf("%d random machines and pairs agree\n", cases);
}

// ---- families

static void time_dense(int n, int a, double budget) {
    std::vector<Bytes> in;
    std::vector<Pair> early, same;
    for (int i = 0; i < INPUTS; i++) {
        Machine m = dense(n, a);
        in.push_back(record_of(m));
        early.push_back({record_of(m), record_of(dense(n, a))});
        same.push_back({record_of(m), record_of(other_basis(m))});
    }
    time_minimal("random dense" + size_of(n, a), in, budget);
    time_compare("that differs early" + size_of(n, a), early, budget);
    time_compare("same language, two bases" + size_of(n, a), same, budget);
}

static void time_deterministic(int n, int a, double budget) {
    std::vector<Bytes> in;
    std::vector<Pair> same;
    for (int i = 0; i < INPUTS; i++) {
        Machine m = deterministic(n, a);
        in.push_back(record_of(m));
        same.push_back({record_of(m), record_of(renamed(m))});
    }
    time_minimal("deterministic" + size_of(n, a), in, budget);
    time_compare("deterministic, renamed" + size_of(n, a), same, budget);
}

// Machines of twice as many states as their languages need, in another basis.
static void time_redundant(int n, int a, double budget) {
    std::vector<Bytes> in;
    std::vector<Pair> same;
    for (int i = 0; i < INPUTS; i++) {
        Machine m = dense(n / 2, a), o = other_basis(doubled(m));
        in.push_back(record_of(o));
        same.push_back({record_of(m), record_of(o)});
    }
    time_minimal("half the states needed" + size_of(n, a), in, budget);
    time_compare("with half the states" + size_of(n, a), same, budget);
}

static void time_worst(double budget) {
    std::vector<Bytes> thick;
    std::vector<Pair> nothing, none_final;
    for (int i = 0; i < INPUTS; i++) {
        thick.push_back(record_of(dense(32, 8, 0.9)));
        nothing.push_back({record_of(no_final(dense(32, 8))), record_of(final_out_of_reach(dense(32, 8)))});
        none_final.push_back({record_of(no_final(dense(32, 8))), record_of(no_final(dense(32, 8)))});
    }
    time_check("n=32 a=8", thick, budget);
    time_minimal("density 0.9 n=32 a=8", thick, budget);
    time_compare("of two empty languages n=32 a=8", nothing, budget);
    time_compare("of two without final states n=32 a=8", none_final, budget);
    for (int a : {1, 8}) {
        Bytes m = record_of(only(31, a));
        time_minimal("only 0^31 a=" + std::to_string(a), {m}, budget);
        time_compare("only 0^31 with itself a=" + std::to_string(a), {{m, m}}, budget);
    }
}

// One input each: a processor knows by heart which way every branch goes, and what is left is checking, clearing and copying.
static void time_single(int n, int a, double budget) {
    Bytes round = record_of(cycle(n, a)), all = record_of(loops(n, a)), some = record_of(without_last(loops(n, a)));
    Bytes one = record_of(only(n - 1, a)), none = record_of(dense(0, a));
    time_compare("one cycle with itself" + size_of(n, a), {{round, round}}, budget);
    time_compare("all words with itself" + size_of(n, a), {{all, all}}, budget);
    time_compare("one pair, by a letter" + size_of(n, a), {{all, some}}, budget);
    time_compare("only 0^" + std::to_string(n - 1) + " with no word" + size_of(n, a), {{one, none}}, budget);
}

int main(int argc, char** argv) {
    double budget = argc > 1 ? std::atof(argv[1]) : 0.25;
    agree(20000);
    for (int n : {1, 2, 4, 8, 16, 32})
        for (int a : {1, 2, 3, 4, 8}) time_dense(n, a, budget);
    for (int n : {4, 8, 32})
        for (int a : {1, 2, 3, 4, 8}) time_deterministic(n, a, budget);
    for (int n : {4, 8, 32})
        for (int a : {1, 2, 8}) time_redundant(n, a, budget);
    for (int n : {1, 2, 3, 4, 8, 16})
        for (int a : {1, 2, 3, 8}) time_single(n, a, budget / 2);
    time_worst(budget);
    time_families();
    print_families();
    print_worst();
}
