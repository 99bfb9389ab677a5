#!/usr/bin/env python3
"""Brings the definitions and lemmas of crates/ to snake case, in proof files, contracts and ghost items.

usage: python3 tools/snake_names.py [--list]        at the top of the repository

A name is taken from the line that declares it in an .antt file: it begins with a small letter and has a
capital or a hyphen. Goals of functions (in proofs/F/) keep the names that the check gives them. Functions of src/ keep theirs. --list prints the names and what they fall together with, and changes nothing.
"""
import os
import re
import sys

DECLARED = re.compile(r"^[ \t]*(?:(?:abbrev|unfoldable|opaque|pub)[ \t]+)*([a-z][\w'-]*)[ \t]*:\s", re.M)
FIELD = re.compile(r"^\s+pub\s+([a-z][\w'-]*)\s*:", re.M)
GOAL = re.compile(r"^\s*(?:pub\s+)?([\w'·-]+)\s*:\s*goal\.", re.M)
FUNCTION = re.compile(r"\bfn\s+([a-z]\w*)")
# Names that would fall together with another that their own statements cite.
OTHER = {"line-at": "line_coded", "bit-or": "bit_of_or", "bit-and": "bit_of_and"}
ALIAS = re.compile(r" as ([a-z][\w'-]*)")
MADE = re.compile(r"(?:invariant|decreases|requires|overflow|returns)-")


def texts():
    for folder, dirs, files in os.walk("crates"):
        dirs[:] = sorted(d for d in dirs if d not in ("out", "must-fail", "data"))
        for name in sorted(files):
            if name.endswith((".rt", ".antt")):
                yield os.path.join(folder, name)


def snake(name):
    if name in OTHER:
        return OTHER[name]
    name = re.sub(r"(?<=[a-z0-9])(?=[A-Z])", "_", name)
    return name.replace("-", "_").lower()


def read(path):
    with open(path, encoding="utf-8") as f:
        return f.read()


def main():
    listing = "--list" in sys.argv
    names, goals, functions = set(), set(), set()
    for path in texts():
        text = read(path)
        names |= set(ALIAS.findall(text))
        if path.endswith(".rt"):
            functions |= set(FUNCTION.findall(text))
            continue
        goals |= set(GOAL.findall(text))
        for pattern in (DECLARED, FIELD):
            names |= set(pattern.findall(text))
    kept = {n for n in names - goals if not MADE.match(n)}
    turned = {n: snake(n) for n in kept if snake(n) != n}
    if listing:
        after = {}
        for n in kept:
            after.setdefault(turned.get(n, n), []).append(n)
        for target, sources in sorted(after.items()):
            also = [f"fn {target}"] if target in functions and any(s in turned for s in sources) else []
            if len(sources) > 1 or also:
                print("together:", target, sorted(sources), *also)
        for n in sorted(turned):
            print(n, turned[n])
        return
    word = re.compile(r"(?<![\w'·-])(" + "|".join(sorted(map(re.escape, turned), key=len, reverse=True)) + r")(?![\w'·-])")
    changed = 0
    for path in texts():
        text = read(path)
        out = word.sub(lambda m: turned[m.group(1)], text)
        if out != text:
            with open(path, "w", encoding="utf-8") as f:
                f.write(out)
            changed += 1
    print(f"{len(turned)} names, {changed} files")


main()
