// What the benchmarks of the services share: how many inputs and passes, processor time, and the fastest of many slices.
#ifndef TIMING_HPP
#define TIMING_HPP

#include <algorithm>
#include <cstddef>
#include <string>
#include <time.h>
#include <vector>

// So many inputs of a family that no branch predictor knows them by heart: with 128 small ones it does, in some runs, for some programs.
static const int INPUTS = 512;

// How often the benchmark goes through all families.
static const int PASSES = 16;

static double seconds() {
    timespec t;
    clock_gettime(CLOCK_THREAD_CPUTIME_ID, &t);
    return t.tv_sec + t.tv_nsec * 1e-9;
}

static volatile size_t sink;

// The fastest of many slices of work, in microseconds for one call.
struct Timer {
    size_t rounds = 1;
    double best = 1e9;

    template <class F> double slice(size_t inputs, F call) {
        double from = seconds();
        for (size_t r = 0; r < rounds; r++)
            for (size_t i = 0; i < inputs; i++) call(i);
        double took = seconds() - from;
        if (took < 50e-6) rounds *= 2;
        else best = std::min(best, took / (rounds * inputs) * 1e6);
        return took;
    }
};

// All families, one after another, in many passes; a turn of a family is a slice of each thing that it times. Others on the machine slow it for
// seconds at a time, so that no family is to have all its slices in one stretch.
template <class Family> static void time_in_passes(std::vector<Family>& families, double budget) {
    for (int pass = 0; pass < PASSES; pass++)
        for (Family& f : families) {
            double spent = 0;
            for (int turn = 0; spent < budget / PASSES || turn < 4; turn++) spent += f.turn();
        }
}

static inline std::string size_of(int n, int a) { return " n=" + std::to_string(n) + " a=" + std::to_string(a); }

#endif
