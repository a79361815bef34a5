#!/usr/bin/env python3
"""Counts the places in crates/*/src that have an older form, point by point of docs/DESIGN-PASS.md.

  python3 tools/forms.py [FOLDER] [--places]

FOLDER is a checkout (default: this one); with --places each place is printed, not only their number.
"""
import re
import sys
from pathlib import Path

ROOT = Path(__file__).resolve().parent.parent

# Point, name, what a line must match (comments are taken off).
LINES = [
    (1, "enums of our own", r"^(pub )?enum \w+"),
    (1, "a refusal told by a number", r"\b(Refused|refused|fail)\((\w+, )?\d+\)|refused\(\w+, \d+\)"),
    (1, "a bool field of a struct", r"^    (pub )?\w+: bool,$"),
    (1, "a result of 0 for none", r"cells: 0,$|hit: 0|let mut hit = 0|== 0 \{ return|error: 0|if (n|hit|cells) == 0 \{$"),
    (1, "a kind compared with a number's name", r"kind\(\w+\) == "),
    (1, "constants in place of an enum", r"pub const \w+: (u16|usize) = \d+;"),
    (3, "while", r"^\s*('\w+: )?while "),
    (3, "for over a range", r"^\s*('\w+: )?for \w+ in [^\[]*\.\."),
    (4, "conversions by hand", r"fn (\w+_in|\w+_out|decoded|encoded|told|part_of|refusal|kind|value|number|digit)\("),
    (4, "equality by hand", r"fn (pages_same|is_word|stands_for|same|is_\w+)\("),
    (6, "a buffer with its length beside", r"staging: &(mut )?\[u8\], (index: &\[u8\], )?count: usize|errors: \[u16; 10\],|line: &(mut )?\[u8\], at: usize"),
    (7, "a flag that chooses the step", r"(fresh|first|free|after|good|barrier): bool[,)]"),
]
# Facts in `requires` clauses.
FACTS = ["InRange", "Shaped", r"Staged(?:On|In)? \w", "Indexed", "Zoned", "Below", "Tidy", "Judged", "Ready", r"opened \w", "Fits64", "Room"]
# Parameters that travel together.
GROUPS = [("pool", "staging", "index", "count"), ("staging", "index", "count"), ("staging", "count"), ("pool", "s"), ("rows", "cols", "zones"), ("rt", "file", "pool")]


def sources(root):
    for file in sorted(root.glob("crates/*/src/*.rt")):
        yield file.relative_to(root), [re.sub(r"//.*", "", line).rstrip() for line in file.read_text(encoding="utf-8").splitlines()]


def signatures(root):
    for file, lines in sources(root):
        code = "\n".join(lines)
        for m in re.finditer(r"fn (\w+)(?:<[^>]*>)?\(([^)]*)\)", code):
            yield file, code.count("\n", 0, m.start()) + 1, m[1], {p.split(":")[0].strip() for p in m[2].split(",")}


def main():
    args = [a for a in sys.argv[1:] if a != "--places"]
    root = Path(args[0]).resolve() if args else ROOT
    show = "--places" in sys.argv

    def told(point, name, places):
        print(f"{point}  {len(places):4}  {name}")
        if show:
            for place in places:
                print(f"            {place}")

    rows = [(point, name, re.compile(what), []) for point, name, what in LINES]
    facts = [(name, re.compile(rf"requires .*\b{name}"), []) for name in FACTS]
    for file, lines in sources(root):
        for at, line in enumerate(lines, 1):
            for _, _, what, places in rows:
                if what.search(line):
                    places.append(f"{file}:{at}: {line.strip()}")
            for _, what, places in facts:
                if what.search(line):
                    places.append(f"{file}:{at}")
    for point, name, _, places in rows:
        told(point, name, places)
    for name, _, places in facts:
        told(5, f"clauses that require {name.split(chr(92))[0].split('(')[0].strip()}", places)
    for group in GROUPS:
        told(5, "parameters " + ", ".join(group), [f"{file}:{at}: {name}" for file, at, name, names in signatures(root) if set(group) <= names])


main()
