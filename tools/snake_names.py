#!/usr/bin/env python3
"""Spells the names that the repository's own definitions and lemmas have in snake case, in every crate, edit and page.

usage: python3 tools/snake_names.py     at the top of the repository, once, after the port's own script

`pathCount` becomes `path_count`, `path-low` becomes `path_low`, a prime an apostrophe; types, modules, functions of src/, strings, inputs and
outputs keep their names. A lemma with a dash whose new name stands already gets `_lem`. It prints each name, old and new.
"""

import collections
import os
import re
import subprocess

DECLARED = re.compile(r"^ *(?:(?:abbrev|unfoldable|pub|private|opaque) )*([^\s:(){}]+)(?: \{[^{}\n]*\}| \([^()\n]*\))* :(?: |$)")
TOKEN = re.compile(r"[^\s(){}.;,@\"«»⌜⌝]+")
OF_A_FUNCTION = re.compile(r"/proofs/.*/(Proof|Answers|Invariants)\.antt$")
FUNCTION = re.compile(r"\bfn (\w+)")
SPAN = re.compile(r"`[^`\n]+`")
ENTRY = re.compile(r"^(--   )(\S.*?)( {2,})(\S.*)$")
# Words that are Rattle's own, though a lemma of the repository is spelled so.
LEAVE = set()


def read(path):
    with open(path, encoding="utf-8") as f:
        return f.read()


def snake(name):
    parts = (q if q[:1].isupper() else re.sub(r"(?<=[a-z0-9])[A-Z]", lambda m: "_" + m[0].lower(), q) for q in name.split("-"))
    return "_".join(parts).replace("′", "'")


def tracked(*patterns):
    out = subprocess.check_output(["git", "ls-files", "-co", "--exclude-standard", "--", *patterns], text=True)
    return [p for p in out.split("\n") if p and os.path.isfile(p)]


def table(files):
    declared, tokens, functions = {}, collections.Counter(), set()
    for p in files:
        text = read(p)
        tokens.update(TOKEN.findall(text))
        functions.update(FUNCTION.findall(text) if p.endswith(".rt") else [])
        if p.endswith(".antt") and not OF_A_FUNCTION.search(p):
            for line in text.split("\n"):
                m = DECLARED.match(line)
                if m:
                    declared.setdefault(m[1], p)
    turned, taken = {}, set()
    for name in sorted(declared, key=lambda n: ("-" in n, n)):
        new = snake(name)
        if new == name or name in LEAVE:
            continue
        while new in taken or ("-" in name and (new in tokens or new in functions)) or (new in declared):
            new += "_lem"
        taken.add(new)
        turned[name] = new
    return turned


def words(text, turned):
    return TOKEN.sub(lambda m: turned.get(m[0], m[0]), text)


def spans(text, turned):
    return SPAN.sub(lambda m: words(m[0], turned), text)


def comment(line, turned):
    camel = {k: v for k, v in turned.items() if "-" not in k and "′" not in k and k != k.lower()}
    new = spans(TOKEN.sub(lambda m: camel.get(m[0], m[0]), line), turned)
    a, b = ENTRY.match(line), ENTRY.match(new)
    if a and b and len(a[2]) != len(b[2]):
        room = max(2, len(a[2]) + len(a[3]) - len(b[2]))
        new = b[1] + b[2] + " " * room + b[4]
    return new


def source(text, turned, mark):
    out = []
    for line in text.split("\n"):
        at = 0 if line.lstrip().startswith(mark) else -1
        if at == 0:
            out.append(comment(line, turned))
            continue
        pieces = re.split(r'("(?:[^"\\\n]|\\.)*")', line)
        out.append("".join(q if i % 2 else words(q, turned) for i, q in enumerate(pieces)))
    return "\n".join(out)


def main():
    code = tracked("crates/*.antt", "crates/*.rt")
    turned = table(code)
    for p in code:
        # A name that Rattle makes is spelled behind a dot in a function's proof, and stays.
        text = read(p)
        new = source(text, turned, "--" if p.endswith(".antt") else "//")
        if new != text:
            open(p, "w", encoding="utf-8").write(new)
    for p in tracked("crates/*/must-fail/*.edit"):
        text = read(p)
        new = "\n".join(comment(it, turned) if it.startswith("#") else words(it, turned) for it in text.split("\n"))
        if new != text:
            open(p, "w", encoding="utf-8").write(new)
    for p in tracked("README.md", "docs/*.md", "*/README.md"):
        text = read(p)
        new = spans(text, turned)
        if new != text:
            open(p, "w", encoding="utf-8").write(new)
    for name in sorted(turned):
        print(f"{name}\t{turned[name]}")


if __name__ == "__main__":
    main()
