#!/usr/bin/env python3
"""Holds what is told of the numbers of replies to the contracts: each export of crates/nxa promises a list of them, and for the marking
service one of those with which a line says `refused`. The header, the services from Python, the second program and the table of refusals
in MARKING.md must have the same. Row 9 is gone: it may stand in no list. Ends with status 1 if anything is not as promised.
"""
import pathlib
import re
import sys

ROOT = pathlib.Path(__file__).resolve().parent.parent
LINE = "a refused line"  # beside the services


def read(name):
    return (ROOT / name).read_text(encoding="utf-8")


def numerals(text):
    return {int(number) for number in re.findall(r"\d+", text)}


def spelt(text):
    """The numbers of a list like `0 to 7, 12`."""
    ranges = [[int(number) for number in part.split(" to ")] for part in text.split(", ")]
    return {number for bounds in ranges for number in range(bounds[0], bounds[-1] + 1)}


def promised():
    """What the contracts promise, by service."""
    text = read("crates/nxa/src/lib.rt")
    exports = re.split(r'^pub extern "C" fn nxa_', text, flags=re.M)[1:]
    lists = {re.match(r"\w+", export).group(): numerals(re.search(r"NumberIn \((.*?)\)", export).group(1)) for export in exports}
    return {**lists, LINE: numerals(re.search(r"SaysRefused \((.*?)\)", text).group(1))}


def header():
    text = read("host/nxa.h")
    lists = re.findall(r"^ \* Numbers:  (.*?)\.$(?:(?!\*/).)*\*/\nnxa_reply nxa_(\w+)\(", text, re.M | re.S)
    line = re.search(r"A line says `refused` only with ([\d to,]+\d)", text).group(1)
    return {**{name: spelt(numbers) for numbers, name in lists}, LINE: spelt(line)}


def python():
    """A function tells the refusals alone. `mark` asks `mark_line`, which is the service, once for each line."""
    functions = re.findall(r'^def (\w+)\(.*?"""(.*?)"""', read("host/nxa.py"), re.M | re.S)
    refusals = {name: re.search(r"Refused ((?:\d+(?: to \d+)?(?:, )?)+)", text) for name, text in functions}
    return {name.removesuffix("_line"): {0} | spelt(found.group(1)) for name, found in refusals.items() if found}


def second():
    lists = re.findall(r'^        \{"([\w ]+)", \{([\d, ]+)\}\},$', read("tests/second/second.cpp"), re.M)
    return {name: numerals(numbers) for name, numbers in lists}


def marking():
    return {LINE: {int(number) for number in re.findall(r"^\| (\d+) \|", read("docs/MARKING.md"), re.M)}}


def main():
    contracts = promised()
    services = contracts.keys() - {LINE}
    told = [("host/nxa.h", header(), services | {LINE}), ("host/nxa.py", python(), services),
            ("tests/second/second.cpp", second(), services | {LINE}), ("docs/MARKING.md", marking(), {LINE})]
    wrong = [f"crates/nxa: {name}: row 9 is in the list" for name, numbers in contracts.items() if 9 in numbers]
    for place, lists, names in told:
        for name in sorted(names | lists.keys()):
            if lists.get(name) != (contracts[name] if name in names else None):
                wrong.append(f"{place}: {name}: {sorted(lists.get(name, []))}, and the contract has {sorted(contracts.get(name, []))}")
    print("\n".join(wrong + [f"numbers: {len(contracts)} lists in {len(told)} places, {len(wrong)} not as promised"]))
    return 1 if wrong or not services else 0


if __name__ == "__main__":
    sys.exit(main())
