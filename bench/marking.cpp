// Times the program that marks beside the yardstick's marker, each as a process of its own, on whole scripts of the largest size: as many
// records of n states over a letters as 65,536 bytes hold. The two texts must be the same. The best of many runs in turn counts.
//
//   marking OURS YARDSTICK SCRIPT-FILE [RUNS]
#define NO_MAIN
#include "baseline.cpp"
#include "machines.hpp"
#include <fcntl.h>
#include <string>
#include <sys/wait.h>
#include <time.h>
#include <unistd.h>

static double seconds() {
    timespec t;
    clock_gettime(CLOCK_MONOTONIC, &t);
    return t.tv_sec + t.tv_nsec * 1e-9;
}

// One run with the script as input, in seconds; what it prints goes to the file.
static double run(const char* program, const char* argument, const char* script, const char* printed) {
    double from = seconds();
    pid_t child = fork();
    if (child == 0) {
        dup2(open(script, O_RDONLY), 0);
        dup2(open(printed, O_WRONLY | O_CREAT | O_TRUNC, 0600), 1);
        execl(program, program, argument, (char*)nullptr);
        _exit(127);
    }
    int status = 0;
    if (child < 0 || waitpid(child, &status, 0) != child || status != 0) {
        std::printf("%s failed\n", program);
        std::exit(1);
    }
    return seconds() - from;
}

static std::vector<u8> contents(const std::string& name) {
    FILE* f = fopen(name.c_str(), "rb");
    std::vector<u8> bytes;
    for (int c; (c = getc(f)) != EOF;) bytes.push_back((u8)c);
    fclose(f);
    return bytes;
}

// A key and answers, all the same language where `same`, else other machines.
static void write_script(const char* name, int n, int a, bool same) {
    Machine key = dense(n, a);
    FILE* f = fopen(name, "wb");
    size_t left = 65536;
    for (Machine m = key;; m = same ? other_basis(key) : dense(n, a)) {
        Bytes r = record_of(m);
        if (left < r.size()) break;
        fwrite(r.data(), 1, r.size(), f);
        left -= r.size();
    }
    fclose(f);
}

int main(int argc, char** argv) {
    if (argc < 4) return std::fprintf(stderr, "marking OURS YARDSTICK SCRIPT-FILE [RUNS]\n"), 2;
    int runs = argc > 4 ? std::atoi(argv[4]) : 200;
    std::string script = argv[3], ours = script + ".ours", yard = script + ".yardstick";
    std::printf("%-42s %10s %10s   %6s\n", "milliseconds for a whole script", "yardstick", "proved", "ratio");
    for (bool same : {true, false})
        for (int n : {0, 8, 32})
            for (int a : {2, 8}) {
                write_script(script.c_str(), n, a, same);
                double best[2] = {1e9, 1e9};
                for (int k = 0; k < runs; k++) {
                    best[0] = std::min(best[0], run(argv[2], "mark", script.c_str(), yard.c_str()));
                    best[1] = std::min(best[1], run(argv[1], nullptr, script.c_str(), ours.c_str()));
                }
                if (contents(ours) != contents(yard)) return std::printf("the texts differ\n"), 1;
                std::string name = std::string(same ? "same answers" : "other answers") + " n=" + std::to_string(n) + " a=" + std::to_string(a);
                std::printf("%-42s %10.2f %10.2f   %6.2f\n", name.c_str(), best[0] * 1e3, best[1] * 1e3, best[1] / best[0]);
            }
}
