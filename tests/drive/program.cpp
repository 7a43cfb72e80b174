// Driver: the program `mark` on scripts of 0 to 6 bytes and on random ones, whole and damaged, that arrive in pieces; its text against
// the second program's, and against the lines of the marking service.
//
//   drive_program PROGRAM SEED COUNT
#include <cerrno>
#include <csignal>
#include <cstdio>
#include <cstdlib>
#include <string>
#include <sys/wait.h>
#include <unistd.h>

#include "../second/generate.hpp"
#include "../second/second.hpp"
extern "C" {
#include "nxa.h"
}

namespace {

using generate::Chance;
using second::Bytes;

[[noreturn]] void fail(const char* what)
{
    std::perror(what);
    std::exit(2);
}

// The script in pieces. A program that has read enough may close its end: what it printed decides, not this.
void send(int end, const Bytes& script, Chance& chance)
{
    std::size_t at = 0;
    while (at < script.size()) {
        const std::size_t piece = std::min<std::size_t>(script.size() - at, chance.one_in(2) ? 1 + chance.below(40) : 65536);
        const ssize_t sent = write(end, script.data() + at, piece);
        if (sent < 0 && errno == EPIPE) {
            return;
        }
        if (sent < 0) {
            fail("write");
        }
        at += static_cast<std::size_t>(sent);
    }
}

std::string receive(int end)
{
    std::string text;
    char piece[4096];
    ssize_t got;
    while ((got = read(end, piece, sizeof piece)) > 0) {
        text.append(piece, static_cast<std::size_t>(got));
    }
    return text;
}

// What the program prints for a script. It reads all it wants before it prints, so that sending first does not wait for ever.
std::string printed(const char* program, const Bytes& script, Chance& chance)
{
    int in[2], out[2], status = 0;
    if (pipe(in) != 0 || pipe(out) != 0) {
        fail("pipe");
    }
    const pid_t child = fork();
    if (child < 0) {
        fail("fork");
    }
    if (child == 0) {
        dup2(in[0], 0);
        dup2(out[1], 1);
        for (int end : {in[0], in[1], out[0], out[1]}) {
            close(end);
        }
        execl(program, program, static_cast<char*>(nullptr));
        _exit(127);
    }
    close(in[0]);
    close(out[1]);
    send(in[1], script, chance);
    close(in[1]);
    const std::string text = receive(out[0]);
    close(out[0]);
    if (waitpid(child, &status, 0) != child || status != 0) {
        std::printf("program: ended with status %d\n", status);
        std::exit(1);
    }
    return text;
}

// The lines of the service, one after another.
std::string lines(const Bytes& script)
{
    std::string text;
    std::uint8_t line[NXA_LINE_MAX];
    for (std::size_t index = 0;; ++index) {
        const nxa_reply reply = nxa_mark(script.data(), script.size(), index, line, sizeof line);
        if (reply.length == 0) {
            return text;
        }
        text.append(line, line + reply.length);
    }
}

// Whether the program and the service give the text of the second program; for a script of 0 bytes none at all.
bool agrees(const char* program, Bytes script, Chance& chance)
{
    script.reserve(script.size() + 1);  // a pointer that is not null, also for a script of 0 bytes
    const std::string wanted = second::mark_program(script);
    return script.empty() == wanted.empty() && printed(program, script, chance) == wanted && lines(script) == wanted;
}

}  // namespace

int main(int argc, char** argv)
{
    if (argc != 4) {
        std::fprintf(stderr, "drive_program PROGRAM SEED COUNT\n");
        return 2;
    }
    std::signal(SIGPIPE, SIG_IGN);
    const std::uint64_t seed = std::strtoull(argv[2], nullptr, 10);
    const std::size_t count = std::strtoull(argv[3], nullptr, 10);
    Chance pieces(seed);
    const std::size_t fixed = 7;
    for (std::size_t size = 0; size < fixed; ++size) {
        if (!agrees(argv[1], Bytes(size, 0x4E), pieces)) {
            std::printf("program: %zu bytes 4E: another text\n", size);
            return 1;
        }
    }
    for (std::size_t number = 0; number < count; ++number) {
        Chance chance = generate::chance_of(seed, number);
        if (!agrees(argv[1], generate::script(chance), chance)) {
            std::printf("program: seed %s, script %zu: another text\n", argv[2], number);
            return 1;
        }
    }
    std::printf("program: %zu scripts agree\n", fixed + count);
    return 0;
}
