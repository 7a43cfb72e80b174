#!/usr/bin/env python3
"""The program that marks where reading or writing fails: a line on standard error says so, and what was printed is no finished marking. An
empty input is no failure.

    failures.py PROGRAM SHELL-SCRIPT INTERRUPT.SO DATA

PROGRAM is the compiled program and SHELL-SCRIPT the script that starts it; both are put the same cases. INTERRUPT.SO makes calls fail that are
interrupted. DATA is the folder with the stored scripts. Ends with status 1 at the first case that is not as it must be, else prints how many were.
"""
import fcntl
import os
import pathlib
import subprocess
import sys
import time

INPUT = "mark: standard input: "
OUTPUT = "mark: standard output: "


def pipe(nonblocking=None):
    """A pipe's ends; the one of that index does not wait."""
    ends = os.pipe()
    if nonblocking is not None:
        fcntl.fcntl(ends[nonblocking], fcntl.F_SETFL, fcntl.fcntl(ends[nonblocking], fcntl.F_GETFL) | os.O_NONBLOCK)
    return ends


class Desk:
    """One of the two programs, and the cases that it has been put."""

    def __init__(self, command, is_shell, data):
        self.command, self.is_shell, self.count = command, is_shell, 0
        self.short = (data / "three").read_bytes()
        self.long = data / "longest"

    def start(self, close=None, env=None, **streams):
        """The program, started; `close` is a standard descriptor that it does not get."""
        streams.setdefault("stdout", subprocess.PIPE)
        return subprocess.Popen([self.command], stderr=subprocess.PIPE, env=env, preexec_fn=None if close is None else lambda: os.close(close), **streams)

    def told(self, name, process, line, printed=b""):
        """The case passes if this line alone stands on standard error and this was printed."""
        out, err = process.communicate(timeout=60)
        wanted = (line + "\n").encode() if line else b""
        ended = 1 if line and self.is_shell else 0
        if err != wanted or (out or b"") != printed or process.returncode != ended:
            sys.exit(f"failures: {self.command}: {name}: status {process.returncode}, standard error {err!r}, printed {out!r}")
        self.count += 1

    def text(self, script):
        return subprocess.run([self.command], input=script, stdout=subprocess.PIPE, check=True, timeout=60).stdout

    def inputs(self):
        """Where the script cannot be read, nothing is printed."""
        self.told("closed input", self.start(close=0), INPUT + "Bad file descriptor")
        with open("/dev/null", "wb") as unreadable:
            self.told("input open for writing alone", self.start(stdin=unreadable), INPUT + "Bad file descriptor")
        folder = os.open("/", os.O_RDONLY)
        self.told("a directory as input", self.start(stdin=folder), INPUT + "Is a directory")
        os.close(folder)
        for sent in (b"", self.short):
            out_end, in_end = pipe(nonblocking=0)
            os.write(in_end, sent)
            self.told("input without data yet", self.start(stdin=out_end), INPUT + "Resource temporarily unavailable")
            os.close(out_end)
            os.close(in_end)

    def outputs(self):
        """Where the text cannot be written, it is not taken for a finished marking."""
        with open("/dev/full", "wb") as full:
            self.told("full device", self.send(self.short, stdout=full), OUTPUT + "No space left on device")
        self.told("closed output", self.send(self.short, close=1), OUTPUT + "Bad file descriptor")
        with open("/dev/null", "rb") as unwritable:
            self.told("output open for reading alone", self.send(self.short, stdout=unwritable), OUTPUT + "Bad file descriptor")
        self.closing_pipes()
        out_end, in_end = pipe(nonblocking=1)
        self.told("output without room", self.start(stdin=open(self.long, "rb"), stdout=in_end), OUTPUT + "Resource temporarily unavailable")
        os.close(in_end)
        with open(out_end, "rb") as printed:
            got = printed.read()
        if not self.text(self.long.read_bytes()).startswith(got) or len(got) == len(self.text(self.long.read_bytes())):
            sys.exit(f"failures: {self.command}: output without room: {len(got)} bytes")

    def closing_pipes(self):
        """A pipe that nobody reads, at once or after some bytes. No signal ends the program, whether it was started with the signal ignored or not."""
        for wanted in (0, 10):
            out_end, in_end = pipe()
            process = self.start(stdin=open(self.long, "rb"), stdout=in_end)
            os.close(in_end)
            os.read(out_end, wanted)
            os.close(out_end)
            self.told("closing pipe", process, OUTPUT + "Broken pipe")
        out_end, in_end = pipe()
        os.close(out_end)
        process = subprocess.Popen([self.command], stdin=open(self.long, "rb"), stdout=in_end, stderr=subprocess.PIPE, restore_signals=False)
        os.close(in_end)
        self.told("closed pipe, the signal ignored", process, OUTPUT + "Broken pipe")

    def send(self, script, **streams):
        out_end, in_end = pipe()
        process = self.start(stdin=out_end, **streams)
        os.close(out_end)
        os.write(in_end, script)
        os.close(in_end)
        return process

    def empty(self):
        """A script of 0 bytes has no lines, and this is no failure: nothing is printed and nothing told."""
        with open("/dev/null", "rb") as nothing:
            self.told("an empty file", self.start(stdin=nothing), "")
        self.told("a pipe that ends at once", self.send(b""), "")

    def goes_on(self, interrupt):
        """What is slow, partial or interrupted goes on, to the whole text."""
        script = self.long.read_bytes()
        whole = self.text(script)
        process = self.start(stdin=subprocess.PIPE)
        for at in range(0, 60000, 20000):
            process.stdin.write(script[at:at + 20000])
            process.stdin.flush()
            time.sleep(0.05)
        process.stdin.write(script[60000:])
        self.told("input in pieces with pauses", process, "", printed=whole)
        interrupted = dict(os.environ, LD_PRELOAD=str(interrupt))
        if not self.is_shell:  # the shell's own calls would be interrupted too
            self.told("interrupted calls", self.start(stdin=open(self.long, "rb"), env=interrupted), "", printed=whole)
        self.told("a file", self.start(stdin=open(self.long, "rb")), "", printed=whole)


def main():
    program, shell, interrupt, data = (pathlib.Path(word).resolve() for word in sys.argv[1:])
    count = 0
    for command, is_shell in ((program, False), (shell, True)):
        desk = Desk(command, is_shell, data)
        desk.inputs()
        desk.outputs()
        desk.empty()
        desk.goes_on(interrupt)
        count += desk.count
    print(f"failures: {count} cases are told as they must be")


if __name__ == "__main__":
    main()
