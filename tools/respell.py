#!/usr/bin/env python3
"""Brings the definitions and lemmas of specs/ and proofs/ to snake case, as zoneWalk to zone_walk and xorTo-zero to xor_to-zero.

usage: python3 tools/respell.py [--list]      at the top of the repository; --list writes nothing and prints the old and new names

A word turns if a part of it between dashes begins with a small letter and has a capital. Types and modules (a capital first), quoted text, numbers
and what is not ghost in a .rt file stay. Comments and the pages of docs/ follow. A definition may have the name of the function that it speaks of.
The lemmas of LEMMAS, whose names would fall together with a definition's, get `_lem`. If another new name already stands in an .antt file that has
the old one, behind no dot, or is the name of a parameter in a .rt file that has it, the script says so and writes nothing.
"""
import os
import re
import sys

WORD = re.compile(r"[^\s(){}\[\].;:,@\"«»`*/]+")
PARTS = re.compile(r"(?<![\w'])[a-z]\w*'*")
CLAUSE = re.compile(r"\b(?:requires|ensures)\b\s*\*?\s*(?:\w+\s*)?\{|\bghost\s+(?:\w+\s*(?::\s*|=\s*))?\{")
USE = re.compile(r"\bghost\s+use\b[^;]*;")
LEMMAS = ("entered_all", "free_bytes", "free_of", "head_bytes", "header_ok")
STRING = re.compile(r'"(?:[^"\\\n]|\\.)*"')


def turned(word):
    if word.startswith("0x") or word[:1] == "*":
        return word
    parts = word.split("-")
    return "-".join(
        re.sub(r"(?<=[a-z0-9'])([A-Z])", lambda m: "_" + m[1].lower(), p) if p[:1].islower() and p.isascii() and re.search("[A-Z]", p) else p
        for p in parts
    )


def words(text):
    return WORD.findall(text)


def files(*ends):
    for top in ("crates", "docs", "README.md", "rust", "include", "examples"):
        if os.path.isfile(top):
            yield top
        for folder, dirs, names in os.walk(top):
            dirs[:] = sorted(d for d in dirs if d not in ("out", "target"))
            for name in sorted(names):
                if name.endswith(ends):
                    yield os.path.join(folder, name)


def outside(pattern, text, turn):
    """The text with turn made on all but what the pattern finds."""
    out, at = [], 0
    for m in pattern.finditer(text):
        out += [turn(text[at : m.start()]), m[0]]
        at = m.end()
    return "".join(out + [turn(text[at:])])


def ghost(text):
    """The places of a .rt file that antt reads, and its comments."""
    at = []
    for m in CLAUSE.finditer(text):
        depth, i = 1, m.end()
        while depth and i < len(text):
            depth += (text[i] == "{") - (text[i] == "}")
            i += 1
        at.append((m.end(), i))
    at += [m.span() for m in USE.finditer(text)]
    at += [m.span() for m in re.finditer(r"//[^\n]*", text)]
    return sorted(at)


def main():
    antt, rt = list(files(".antt")), list(files(".rt"))
    texts = {p: open(p, encoding="utf-8").read() for p in antt + rt}
    before = dict(texts)
    found = {}
    for p in antt:
        for w in words(STRING.sub("", texts[p])):
            if turned(w) != w:
                found[w] = turned(w)
    if "--list" in sys.argv:
        for w in sorted(found):
            print(w, found[w])
        return 0
    for p in antt:
        if "/proofs/" in p:
            texts[p] = re.sub(WORD.pattern, lambda m: m[0] + "_lem" if m[0] in LEMMAS else m[0], texts[p])
    clashes = 0
    new = {v: k for k, v in found.items()}
    if len(new) != len(found):
        print("two names become one")
        clashes = 1
    for p in antt + rt:
        if p in antt:
            text = re.sub(r"(?m)--.*$", "", texts[p])
            bare = set(re.findall(r"(?<![^\s(){}\[\];:,@«»])" + WORD.pattern, text))
        else:
            bare = {n for m in re.finditer(r"fn \w+(?:<[^>]*>)?\(([^)]*)\)", texts[p]) for n in re.findall(r"(\w+)\s*:", m[1])}
        for w in set(words(texts[p])):
            if w in found and found[w] in bare:
                print(f"{p}: {w} and {found[w]}")
                clashes += 1
    if clashes:
        return 1

    def turn(text):
        return WORD.sub(lambda m: found.get(m[0].rstrip("?!'’"), m[0]) if m[0] not in found else found[m[0]], text)

    for p in antt:
        save(p, before[p], outside(STRING, texts[p], turn))
    for p in rt:
        out, at = [], 0
        for a, b in ghost(texts[p]):
            if a < at:
                continue
            out += [texts[p][at:a], outside(STRING, texts[p][a:b], turn)]
            at = b
        save(p, texts[p], "".join(out + [texts[p][at:]]))
    for p in files(".md"):
        text = open(p, encoding="utf-8").read()
        save(p, text, outside(STRING, text, turn))
    return 0


def save(path, old, new):
    if new != old:
        with open(path, "w", encoding="utf-8") as f:
            f.write(new)


sys.exit(main())
