#!/usr/bin/env python3
"""Holds docs/CLAIMS.md against the tree: every definition, promise, edit and test that a line of its tables names exists.

A cell names things in backquotes. In a column headed
  definition   a name that a file of some crates/CRATE/specs defines; with (crate/File) after it, that file does
  promise      a function of some crates/CRATE/src, an `ensures NAME` of one, or a law of some crates/CRATE/proofs; likewise (crate/File)
  must-fail    CRATE/EDIT, without backquotes: crates/CRATE/must-fail/EDIT.edit; so under "nearest in code"
  test         a path, without backquotes: below the repository, tests/ or crates/
The table whose first column is headed must-fail lists the edits that change no code: those of the tree, no more and no fewer.
Prints each name that is not found and ends with status 1 if there is one.
"""
import pathlib
import re
import sys

ROOT = pathlib.Path(__file__).resolve().parent.parent
CRATES = ROOT / "crates"
NAME = r"[^\s(){}:;,]+"


def read_all(pattern):
    """The text of every file below crates/ that the pattern names, by its path."""
    return {path: path.read_text(encoding="utf-8") for path in CRATES.glob(pattern)}


SPECS = read_all("*/specs/**/*.antt")
LAWS = read_all("*/proofs/*.antt")
CODE = read_all("*/src/*.rt")
DEFINED = re.compile(r"^\s*(?:abbrev |unfoldable )?(?:pub )?(?:record |data )?(" + NAME + r") ?(?=[:({])", re.M)
FUNCTION = re.compile(r"^\s*(?:pub )?(?:extern \"C\" )?fn (\w+)", re.M)
TYPE = re.compile(r"^\s*(?:pub )?(?:struct|enum) (\w+)", re.M)
ENSURES = re.compile(r"^\s*ensures (\w+) \{", re.M)


def names_in(texts, pattern, where=None):
    """Every name that the pattern finds in the texts, or in those of the file `crate/File`."""
    found = set()
    for path, text in texts.items():
        place = f"{path.relative_to(CRATES).parts[0]}/{path.stem}"
        if where is None or place == where or place.startswith(where + "/"):
            found.update(pattern.findall(text))
    return found


def definition(name, where):
    """A name that the definitions, or the enums and structs they rest on, have."""
    return name in names_in(SPECS, DEFINED, where) or (where is None and name in names_in(CODE, TYPE))


def promise(name, where):
    """A function, a named promise of one, or a law."""
    if name.startswith("ensures "):
        return name[len("ensures "):] in names_in(CODE, ENSURES)
    if name == "requires":
        return True
    return name in names_in(LAWS, DEFINED, where) or name in names_in(CODE, FUNCTION) or name in names_in(SPECS, DEFINED, where)


def quoted(cell):
    """The names in backquotes, each with the file in brackets after it, if one stands there."""
    for match in re.finditer(r"`([^`]+)`(?: \(([\w/]+)\))?", cell):
        where = match.group(2)
        yield match.group(1), where if where and "/" in where else None


def edits(cell):
    return [part for part in re.split(r"[,;] ?", cell) if re.fullmatch(r"\w+/\w+", part.strip())]


def tests(cell):
    return [part.strip() for part in re.split(r"[,;] ?", cell) if "/" in part]


def missing(header, cell):
    """What one cell names and the tree has not."""
    if header == "definition":
        return [name for name, where in quoted(cell) if not definition(name, where)]
    if header == "promise":
        return [name for name, where in quoted(cell) if not promise(name, where)]
    if header in ("must-fail", "nearest in code"):
        return [edit for edit in edits(cell) if not (CRATES / edit.strip().replace("/", "/must-fail/")).with_suffix(".edit").is_file()]
    if header == "test":
        return [test for test in tests(cell) if not any(found(base, test.split(" ")[0]) for base in (ROOT, ROOT / "tests", CRATES))]
    return []


def found(base, name):
    return (base / name).exists() or any(base.glob(name + ".*"))


def uncoded():
    """The edits of the tree that name a file outside src/."""
    texts = {f"{path.parts[-3]}/{path.stem}": path.read_text(encoding="utf-8") for path in CRATES.glob("*/must-fail/*.edit")}
    return {edit for edit, text in texts.items() if any(not name.startswith("src/") for name in re.findall(r"^file: (.*)$", text, re.M))}


def main():
    headers, wrong, count, listed = [], 0, 0, set()
    for number, line in enumerate((ROOT / "docs/CLAIMS.md").read_text(encoding="utf-8").splitlines(), 1):
        if not line.startswith("|"):
            headers = []
            continue
        cells = [cell.strip() for cell in line.strip("|").split("|")]
        if not headers:
            headers = cells
            continue
        if set(line) <= set("|-"):
            continue
        if len(cells) != len(headers):
            print(f"docs/CLAIMS.md:{number}: {len(cells)} cells under {len(headers)} headers")
            wrong += 1
        count += 1
        if headers[0] == "must-fail":
            listed.update(edits(cells[0]))
        for header, cell in zip(headers, cells):
            for name in missing(header, cell):
                print(f"docs/CLAIMS.md:{number}: {header} `{name}` is not in the tree")
                wrong += 1
    for edit in sorted(listed ^ uncoded()):
        print(f"docs/CLAIMS.md: {edit} is {'an edit of code' if edit in listed else 'no edit of code'}, which the last table has otherwise")
        wrong += 1
    print(f"claims: {count} lines, {wrong} names not found")
    return 1 if wrong or count == 0 else 0


if __name__ == "__main__":
    sys.exit(main())
