// Times the record check beside that of an archive before, in one run: nxa_check on records, and nxa_mark on scripts of small records, of which the
// check is a good part. Build: see README.md in this folder. Needs no yardstick: nothing but the two archives is timed.
#include <cstdio>
#include <cstdlib>
#include <string>
#include <vector>
#include "plain_machine.hpp"
#include "machines.hpp"
#include "timing.hpp"
extern "C" {
#include "nxa.h"
#define COPY(name) decltype(nxa_check) name##_check; decltype(nxa_mark) name##_mark;
COPY(before0) COPY(before1) COPY(before2) COPY(before3) COPY(now0) COPY(now1) COPY(now2) COPY(now3)
}

// A copy of an archive: its services by their addresses, as each copy lies elsewhere in a line of the cache.
struct Copy {
    decltype(&nxa_check) check;
    decltype(&nxa_mark) mark;
};
static const int COPIES = 4;
typedef Copy Archive[COPIES];
static const Archive before = {{before0_check, before0_mark}, {before1_check, before1_mark}, {before2_check, before2_mark}, {before3_check, before3_mark}};
static const Archive now = {{now0_check, now0_mark}, {now1_check, now1_mark}, {now2_check, now2_mark}, {now3_check, now3_mark}};

// A script: records end to end, and how long each is.
struct Script {
    Bytes bytes;
    std::vector<size_t> lengths;

    void add(const Bytes& record) {
        bytes.insert(bytes.end(), record.begin(), record.end());
        lengths.push_back(record.size());
    }
};

static u8 line[NXA_LINE_MAX];

// Number and place of each record's check, added up.
static size_t check_each(const Copy& copy, const Script& script) {
    size_t told = 0;
    const u8* record = script.bytes.data();
    for (size_t length : script.lengths) {
        nxa_reply reply = copy.check(record, length);
        told += 4096 * reply.number + reply.place;
        record += length;
    }
    return told;
}

// The lines, as one number.
static size_t mark_each(const Copy& copy, const Script& script) {
    size_t told = 0;
    for (size_t i = 0; i + 1 < script.lengths.size(); i++) {
        nxa_reply reply = copy.mark(script.bytes.data(), script.bytes.size(), i, line, sizeof line);
        for (size_t k = 0; k < reply.length; k++) told = 31 * told + line[k];
    }
    return told;
}

// What one archive takes, copy by copy.
struct Times {
    Timer of[COPIES] = {};

    double mean() const {
        double sum = 0;
        for (const Timer& t : of) sum += t.best;
        return sum / COPIES;
    }
    double slowest() const {
        double most = 0;
        for (const Timer& t : of) most = std::max(most, t.best);
        return most;
    }
};

struct Family {
    std::string name;
    size_t (*work)(const Copy&, const Script&);
    std::vector<Script> in;
    Times earlier = {}, own = {};

    double slice(const Copy& copy, Timer& timer) {
        return timer.slice(in.size(), [&](size_t i) { sink = work(copy, in[i]); });
    }

    // A slice of each.
    double turn() {
        double spent = 0;
        for (int k = 0; k < COPIES; k++) spent += slice(before[k], earlier.of[k]) + slice(now[k], own.of[k]);
        return spent;
    }
};
static std::vector<Family> families;

// Both archives tell the same.
static void add_family(const std::string& name, size_t (*work)(const Copy&, const Script&), std::vector<Script> in) {
    for (const Script& script : in)
        if (work(before[0], script) != work(now[0], script)) {
            std::printf("%s: the answers differ\n", name.c_str());
            std::exit(1);
        }
    families.push_back({name, work, std::move(in)});
}

// Scripts of so many records.
template <class M> static std::vector<Script> scripts(int count, int records, M machine) {
    std::vector<Script> made(count);
    for (Script& script : made)
        for (int k = 0; k < records; k++) script.add(record_of(machine()));
    return made;
}

// A bit that names no state, in the last row: every field is looked at before it is told.
static Machine stray(Machine m) {
    m.T[m.a - 1][m.n - 1] |= 1ull << m.n;
    return m;
}

static void add_families() {
    auto largest = [] { return dense(32, 8); };
    auto refused = [] { return stray(dense(31, 8)); };
    auto small = [] { return dense((int)(random64() % 5), 2); };
    add_family("check of one record n=32 a=8", check_each, scripts(1, 1, largest));
    add_family("check of a record n=32 a=8", check_each, scripts(INPUTS, 1, largest));
    add_family("check refused in the last row n=31 a=8", check_each, scripts(INPUTS, 1, refused));
    for (int n : {0, 1, 2, 4, 8}) add_family("check of a record" + size_of(n, 2), check_each, scripts(INPUTS, 1, [n] { return dense(n, 2); }));
    add_family("check of 64 records n=0 to 4 a=2", check_each, scripts(INPUTS, 64, small));
    add_family("marks of 64 records n=0 to 4 a=2", mark_each, scripts(16, 64, small));
}

static void print_families() {
    std::printf("%-42s %8s %8s %6s   %8s %8s %6s\n", "microseconds, mean and slowest of 4 copies", "before", "now", "ratio", "before", "now", "ratio");
    for (const Family& f : families)
        std::printf("%-42s %8.4f %8.4f %6.2f   %8.4f %8.4f %6.2f\n", f.name.c_str(), f.earlier.mean(), f.own.mean(), f.own.mean() / f.earlier.mean(),
                    f.earlier.slowest(), f.own.slowest(), f.own.slowest() / f.earlier.slowest());
}

int main(int argc, char** argv) {
    double budget = argc > 1 ? std::atof(argv[1]) : 0.25;
    add_families();
    time_in_passes(families, 2 * COPIES * budget);
    print_families();
}
