#!/usr/bin/env python3
"""Counts places in crates/*/src that are written in an older form of the language.

    python3 tools/count_places.py [COMMIT] [--list]

With a commit, the sources are those of that commit; else those of the working tree.
Each count is the number of places that a search finds; --list prints the places.
The searches are meant to find too much rather than too little.
"""

import re
import subprocess
import sys

FUNCTION = re.compile(r"^\s*(?:pub(?:\([a-z]+\))? )?(?:const )?fn (\w+)")
TOKEN = re.compile(r"\w+|\S")
KEEP = set(
    "fn let mut match if else for in while loop return self Self pub crate impl as ref move Some None Ok Err "
    "true false Result Option requires ensures result old new now".split()
)

# point, what is searched, pattern, what a line must not hold
SEARCHES = [
    (1, "an Option or Result taken apart by hand", r"^\s*(None|Err\(\w+\)) =>|^\s*let Some\(.*\belse \{", None),
    (1, "a number for a kind, or a flag with a value", r"fn \w+\(self\) -> Option<u\d+>|\b(choice|kind|mode): u8|^\s*stopped: bool", None),
    (1, "a record's kind written as a number", r"put\(buffer, &\[[1-8]|buffer\[0\] = ", None),
    (1, "a number that stands for none", r"^\s*(written|offset): 0,$", None),
    (3, "a loop that counts", r"^\s*while |^\s*for \w+ in [^ ]*\.\.", None),
    (4, "a conversion written by hand", r"fn (from_\w+|of_\w+|number|byte|code|classify|instruction|\w+_code|\w+_at|byte_register|flags|word)\(", None),
    (4, "a zero value written by hand", r"^const \w+: \w+ = \w+ \{$", None),
    (4, "an exchange written by hand", r"^\s*let (main|alternate|ea) = registers\.", None),
    (4, "a plain type without equality and printing", r"#\[derive\(Clone, Copy\)\]", None),
    (4, "a digit printed by hand", r"b'[0A]'", None),
    (5, "a condition on an argument", r"^\s*requires", None),
    (5, "what a board keeps beside its cells", r"ensures keeps \{", None),
    (5, "registers and board as two parameters", r"registers: &(mut )?Registers,? board: &(mut )?B|^\s*board: &(mut )?B,", None),
    (5, "a view of a value applied in a clause", r"^\s*ensures.*\b(lines_of|flat_of|mask_rom_of|bench_of|timers_of|timing_of|count_of|requests_of|view|model_of)\b", None),
    (6, "a position or a length beside a buffer", r"^\s*(pub(\(crate\))? )?(at|next|written|length|fixed_below): (usize|u\d+),", None),
    (6, "a test of an index against a length", r"\.len\(\)", None),
    (6, "an array beside a set", r"\[Tally; ", None),
    (7, "a choice of what to run by a value", r"dyn |impl Fn|: fn\(", None),
]


def files(commit):
    names = subprocess.run(
        ["git", "ls-tree", "-r", "--name-only", commit, "--", "crates"] if commit else ["git", "ls-files", "-co", "--exclude-standard", "crates"],
        capture_output=True, text=True, check=True,
    ).stdout.split()
    for name in sorted(set(names)):
        if re.fullmatch(r"crates/\w+/src/.*\.rt", name):
            if commit:
                text = subprocess.run(["git", "show", f"{commit}:{name}"], capture_output=True, text=True, check=True).stdout
            else:
                text = open(name).read()
            yield name, text.splitlines()


def functions(lines):
    """Name, line and text of each function, contract included."""
    at = 0
    while at < len(lines):
        found = FUNCTION.match(lines[at])
        if not found:
            at += 1
            continue
        begin, depth, seen = at, 0, False
        while at < len(lines):
            for char in re.sub(r"//.*|b?'[{}]'", "", lines[at]):
                depth += (char == "{") - (char == "}")
            seen = seen or lines[at].rstrip() in ("{",) or lines[at].strip() == "{" or lines[at].rstrip().endswith(" {")
            ends = lines[at].strip().endswith("}") and depth == 0 and not re.match(r"\s*(requires|ensures)", lines[at])
            if (seen and ends) or (lines[at].strip().endswith(";") and depth == 0):
                break
            at += 1
        yield found.group(1), begin + 1, "\n".join(lines[begin : at + 1])
        at += 1


def shape(text):
    """The text with names and numbers left out: what twins share."""
    text = re.sub(r"//.*", "", text)
    seen, out = {}, []
    for token in TOKEN.findall(text):
        if token in KEEP or not re.match(r"\w", token):
            out.append(token)
        elif token[0].isdigit():
            out.append("0")
        else:
            out.append("n%d" % seen.setdefault(token, len(seen)))
    return " ".join(out)


def main():
    words = [word for word in sys.argv[1:] if word != "--list"]
    listed = "--list" in sys.argv
    sources = list(files(words[0] if words else None))
    shapes = {}
    for name, lines in sources:
        for function, line, text in functions(lines):
            if text.count("\n") >= 3 and "#[test]" not in text:
                shapes.setdefault(shape(text), []).append(f"{name}:{line} {function}")
    twins = [group for group in shapes.values() if len(group) > 1]
    rows = [(2, "functions that differ in names and numbers only", [" = ".join(group) for group in twins])]
    for point, what, pattern, but in SEARCHES:
        hits = [
            f"{name}:{number}: {line.strip()}"
            for name, lines in sources
            for number, line in enumerate(lines, 1)
            if re.search(pattern, line) and not (but and re.search(but, line))
        ]
        rows.append((point, what, hits))
    for point, what, hits in sorted(rows, key=lambda row: row[0]):
        print(f"{point}  {len(hits):4}  {what}")
        if listed:
            for hit in hits:
                print("        " + hit)


if __name__ == "__main__":
    main()
