#!/usr/bin/env python3
"""Makes docs/TIMES.md from what the gate printed: python3 docs/times.py < LOG > docs/TIMES.md

A line for each crate: whether its proofs were made in this run or kept from an earlier one, and the number of its must-fail edits that were
refused; then the seconds of the gate's parts. `rt ci` tells no seconds of a crate or an edit.
Parts run beside each other, so the gate prints the seconds of all of it in a last line of this kind.
"""
import re
import sys

PROVED = re.compile(r"^rt: (\w+) (proved$|is kept: )")
EDIT = re.compile(r"^rt: must-fail (\w+)/[\w.-]+\.edit: refused, ")
PART = re.compile(r"^gate: (.*) passed \((\d+) s\)")


def main():
    proofs, edits, parts, verdict = {}, {}, [], ""
    for line in sys.stdin:
        if match := PROVED.match(line):
            proofs[match[1]] = "this run" if match[2] == "proved" else "kept"
        elif match := EDIT.match(line):
            edits[match[1]] = edits.get(match[1], 0) + 1
        elif match := PART.match(line):
            parts.append((match[1], int(match[2])))
        elif re.match(r"^\d+ passed, ", line):
            verdict = line.strip()
    print("# How long the gate takes\n")
    print(f"Made by `python3 docs/times.py` from the output of `bash .ci/run`: {verdict}. Crates are proved side by side, and so do parts of the tests run.\n")
    print("| crate | proofs | edits |\n|---|---|---|")
    for name, when in proofs.items():
        print(f"| `{name}` | {when} | {edits.get(name, 0)} |")
    print(f"| together | {sum(when == 'this run' for when in proofs.values())} in this run, {sum(when == 'kept' for when in proofs.values())} kept | {sum(edits.values())} |")
    print("\n| part of the gate | seconds |\n|---|---|")
    for name, seconds in parts:
        print(f"| {name} | {seconds} |")


if __name__ == "__main__":
    main()
