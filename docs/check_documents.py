#!/usr/bin/env python3
"""Holds the documents against the tree: commands run and print what stands under them, links and files that are named exist.

In a block headed ```console a line `$ COMMAND` is run in the repository's root by a shell, and what it prints on standard output must be the
lines under it, where there are any. The first block headed ```sh of MARKING.md is run on hand-ins that are made for it, and must print the block
headed ```text after it. The gate's own command is not run, since it runs this, nor is the one that makes the archive, which the gate has
just done; a command that only builds is run once. A link [..](PATH) and a path crate/specs/File in
backquotes must name a file or folder. Ends with status 1 if anything is not as said.
"""
import pathlib
import re
import subprocess
import sys
import tempfile

ROOT = pathlib.Path(__file__).resolve().parent.parent
DOCUMENTS = ["README.md", "host/README.md", "tests/README.md", "bench/README.md"] + [f"docs/{name}.md" for name in ("CLAIMS", "DECISIONS", "DESIGN", "MARKING", "PROVING", "TRUST")]
GATE = {"bash .ci/run", "(cd crates/nxa && rt lib)"}  # the gate itself, and what it has just done


def blocks(text):
    """Each command of the console blocks with the lines that stand under it."""
    for body in re.findall(r"^```console\n(.*?)^```$", text, re.M | re.S):
        for part in re.split(r"^\$ ", body, flags=re.M)[1:]:
            command, _, printed = part.partition("\n")
            yield command, printed


def try_command(command, printed, built):
    """What is wrong with one command, or nothing."""
    if command in GATE or command in built:
        return None
    if not printed:
        built.add(command)
    done = subprocess.run(command, shell=True, cwd=ROOT, stdin=subprocess.DEVNULL, capture_output=True, text=True, check=False)
    if done.returncode != 0:
        return f"ended with status {done.returncode}: {done.stderr.strip()[-300:]}"
    if printed and done.stdout != printed:
        return f"printed\n{done.stdout}where the document has\n{printed}"
    return None


def hand_ins():
    """A key and the hand-ins that MARKING.md speaks of, by name: from the records of the example."""
    script = (ROOT / "examples/three.script").read_bytes()
    starts = [found.start() for found in re.finditer(b"NXA", script)] + [len(script)]
    key, same, other = (script[a:b] for a, b in zip(starts, starts[1:]))
    return {"key": key, "answers/anna": same, "answers/ben": other, "answers/carl": b"", "answers/dora": same + other, "answers/emil": same[:-8]}


def try_loop(text):
    """What is wrong with the loop that marks each hand-in by itself, or nothing."""
    loop, printed = (re.search(rf"^```{head}\n(.*?)^```$", text, re.M | re.S).group(1) for head in ("sh", "text"))
    with tempfile.TemporaryDirectory() as folder:
        desk = pathlib.Path(folder)
        (desk / "answers/fred").mkdir(parents=True)
        for name, content in hand_ins().items():
            (desk / name).write_bytes(content)
        (desk / "mark").write_text(f"#!/bin/sh\nexec '{ROOT}/mark'\n", encoding="utf-8")
        (desk / "mark").chmod(0o755)
        done = subprocess.run(["sh", "-c", loop], cwd=desk, stdin=subprocess.DEVNULL, capture_output=True, text=True, check=False)
    if done.returncode != 0 or done.stdout != printed:
        return f"ended with status {done.returncode}, printed\n{done.stdout}{done.stderr}where the document has\n{printed}"
    return None


def places(document, text):
    """What links and backquotes name: files and folders."""
    for link in re.findall(r"\]\(([^)#:]+)\)", text):
        yield link, (document.parent / link)
    for crate, name in re.findall(r"`(\w+)/specs/(\w+)`", text):
        yield f"{crate}/specs/{name}", ROOT / "crates" / crate / "specs" / f"{name}.antt"
    for name in re.findall(r"`((?:host|tests|bench|docs|examples)/[\w./]+)`", text):
        yield name, ROOT / name


def main():
    wrong = named = 0
    commands = 1
    built = set()
    problem = try_loop((ROOT / "docs/MARKING.md").read_text(encoding="utf-8"))
    if problem:
        print(f"docs/MARKING.md: the loop: {problem}")
        wrong += 1
    for name in DOCUMENTS:
        document = ROOT / name
        text = document.read_text(encoding="utf-8")
        for what, path in places(document, text):
            named += 1
            if not path.exists():
                print(f"{name}: {what} is not there")
                wrong += 1
        for command, printed in blocks(text):
            commands += 1
            problem = try_command(command, printed, built)
            if problem:
                print(f"{name}: {command}: {problem}")
                wrong += 1
    print(f"documents: {commands} commands, {named} names, {wrong} not as said")
    return 1 if wrong else 0


if __name__ == "__main__":
    sys.exit(main())
