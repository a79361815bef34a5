#!/usr/bin/env python3
"""Draws the pictures of docs/ as SVG, with the standard library alone. Sizes and places are worked out here from the paper's formulas; runs, parts of
a commit and what its cuts leave are read from what the programs poolscan and demo print; layers and crates from docs/ARCHITECTURE.md.

  tools/pictures.py            writes docs/NAME.svg
  tools/pictures.py --check    says which of them differ from what would be written
"""
import re
import sys
from html import escape
from pathlib import Path

ROOT = Path(__file__).resolve().parent.parent
PAGE, CELL, HEAD, ENTRIES, BODY = 256, 64, 16, 127, 496
LOG_A, LOG_B, ZONES = 2 * PAGE, 10 * PAGE, 18 * PAGE
INK, GREY, PALE = "#222222", "#777777", "#f1f1f1"
BLUE, GREEN, AMBER, RED = "#cfe2f7", "#d3ecd3", "#fbe7b8", "#f6cfcb"


class Picture:
    """An SVG put together piece by piece, on white."""

    def __init__(self, width, height, title):
        self.parts = [
            f'<svg xmlns="http://www.w3.org/2000/svg" width="{width}" height="{height}" viewBox="0 0 {width} {height}"'
            f' font-family="DejaVu Sans, Verdana, sans-serif" font-size="12" fill="{INK}">',
            f"<title>{escape(title)}</title>",
            '<rect width="100%" height="100%" fill="white"/>',
        ]

    def box(self, x, y, w, h, fill="white", stroke=INK, dash="", round_=0):
        dash = f' stroke-dasharray="{dash}"' if dash else ""
        self.parts.append(f'<rect x="{x:g}" y="{y:g}" width="{w:g}" height="{h:g}" rx="{round_}" fill="{fill}" stroke="{stroke}"{dash}/>')

    def text(self, x, y, words, size=12, anchor="start", bold=False, fill=INK, mono=False):
        more = (' font-weight="bold"' if bold else "") + (' font-family="DejaVu Sans Mono, monospace"' if mono else "")
        self.parts.append(f'<text x="{x:g}" y="{y:g}" font-size="{size}" text-anchor="{anchor}" fill="{fill}"{more}>{escape(str(words))}</text>')

    def lines(self, x, y, rows, size=12, step=16, **how):
        for i, row in enumerate(rows):
            self.text(x, y + i * step, row, size, **how)

    def line(self, x1, y1, x2, y2, stroke=INK, width=1, dash=""):
        dash = f' stroke-dasharray="{dash}"' if dash else ""
        self.parts.append(f'<line x1="{x1:g}" y1="{y1:g}" x2="{x2:g}" y2="{y2:g}" stroke="{stroke}" stroke-width="{width}"{dash}/>')

    def arrow(self, points, stroke=INK, dash=""):
        """A line through the points, with a head at the last, reached straight along one axis."""
        (px, py), (x, y) = points[-2:]
        dx, dy = (x > px) - (x < px), (y > py) - (y < py)
        dash = f' stroke-dasharray="{dash}"' if dash else ""
        path = " ".join(f"{a:g},{b:g}" for a, b in points[:-1] + [(x - 7 * dx, y - 7 * dy)])
        self.parts.append(f'<polyline points="{path}" fill="none" stroke="{stroke}"{dash}/>')
        head = [(x, y), (x - 8 * dx - 4 * dy, y - 8 * dy - 4 * dx), (x - 8 * dx + 4 * dy, y - 8 * dy + 4 * dx)]
        self.parts.append(f'<polygon points="{" ".join(f"{a:g},{b:g}" for a, b in head)}" fill="{stroke}"/>')

    def badge(self, x, y, number):
        self.parts.append(f'<circle cx="{x:g}" cy="{y:g}" r="7.5" fill="{INK}"/>')
        self.text(x, y + 3.8, number, 10.5, "middle", True, "white")

    def end(self):
        return "\n".join(self.parts + ["</svg>", ""])


def printed(crate):
    return (ROOT / "crates" / crate / "stdout").read_text().splitlines()


def number(n):
    return f"{n:,}"


# ---- The pool's bytes, for the pool that poolscan lists.


def fields(p, x, y, title, width, parts):
    """A row of fields: name and bytes, with offsets above. The last part is drawn wider."""
    p.text(x, y, title, bold=True)
    total, at, left = sum(w for _, _, w in parts), 0, x
    for name, size, share in parts:
        w = width * share / total
        p.box(left, y + 22, w, 24, PALE)
        p.text(left + 2, y + 18, number(at), 10, fill=GREY)
        p.text(left + w / 2, y + 38, name, 11, "middle")
        at += size
        left += w
    p.text(left + 2, y + 18, number(at), 10, fill=GREY)


def pool_bytes():
    lines = printed("poolscan")
    rows, cols, zones = map(int, re.fullmatch(r"\(pool (\d+) (\d+) (\d+)\)", lines[0]).groups())
    pages = 18 + zones * (rows + 1) * cols
    p = Picture(940, 625, "The pool's bytes")
    p.text(20, 28, f"A pool with R {rows}, C {cols}, Z {zones}: {pages} pages of {PAGE} bytes, {number(pages * PAGE)} bytes", 15, bold=True)
    width, left, y = 44, 20, 70
    spans = [("header", 1, BLUE), ("copy", 1, BLUE), ("log A", 8, AMBER), ("log B", 8, AMBER)]
    page = 0
    for name, count, fill in spans:
        p.box(left + page * width, y, count * width, 34, fill)
        for i in range(1, count):
            p.line(left + (page + i) * width, y + 27, left + (page + i) * width, y + 34)
        p.text(left + (page + count / 2) * width, y + 21, name, 11, "middle")
        p.text(left + page * width + 2, y - 5, number(page * PAGE), 10, fill=GREY)
        p.text(left + page * width + 2, y + 48, f"page {page}" if count == 1 else f"pages {page} to {page + count - 1}", 10, fill=GREY)
        page += count
    p.text(left + page * width + 6, y + 21, "then the zones,", 11)
    p.text(left + page * width + 6, y + 35, f"from {number(ZONES)} on", 11)

    y, left, cell = 160, 130, 88
    p.text(20, y, "Zone 0", bold=True)
    p.text(left, y, f"{rows} data rows and a parity row, each of {cols} pages; a page has {PAGE // CELL} cells of {CELL} bytes")
    owner = {}
    for line in [line for line in lines if line.startswith("(run ")]:
        z, first, kind, *rest = re.match(r"\(run (\d+) (\d+) \((object|free) (\d+)(?: (\d+))?", line).groups()
        size = -(-(HEAD + int(rest[1])) // CELL) if kind == "object" else int(rest[0])
        for c in range(int(first), int(first) + size):
            owner[c] = (kind, c == int(first), rest)
    row_bytes, per = cols * PAGE, PAGE // CELL
    for r in range(rows + 1):
        top = y + 34 + r * 62
        p.text(20, top + 20, f"row {r}", bold=True)
        p.text(20, top + 35, "data" if r < rows else "parity", 11, fill=GREY)
        for c in range(cols):
            x = left + c * (per * cell + 24)
            p.text(x, top - 5, number(ZONES + r * row_bytes + c * PAGE), 10, fill=GREY)
            for k in range(per):
                at = (r * cols + c) * per + k
                kind, first, rest = owner.get(at, ("", False, None)) if r < rows else ("", False, None)
                if r < rows:
                    p.box(x + k * cell, top, cell, 38, GREEN if kind == "object" else "white", GREY)
                    p.text(x + k * cell + 5, top + 14, f"cell {at}", 10, fill=GREY)
                if first:
                    word = f"tag {rest[0]}, {rest[1]} byte" if kind == "object" else f"free, {rest[0]} cells"
                    p.text(x + k * cell + 5, top + 30, word, 10)
            p.box(x, top, per * cell, 38, "none" if r < rows else BLUE)
            if r == rows:
                p.text(x + per * cell / 2, top + 24, "exclusive or of the pages above", 11, "middle")
    top = y + 34 + (rows + 1) * 62
    for c in range(cols):
        x = left + c * (per * cell + 24)
        p.text(x + per * cell / 2, top - 6, f"column {c}", 11, "middle", True)

    y = top + 30
    fields(p, 20, y, "A header: letters, shape, version, pool id, check over bytes 0 to 15, zeros", 860,
           [("SGPL", 4, 3), ("R", 1, 1.2), ("C", 1, 1.2), ("Z", 1, 1.2), ("version 1", 1, 2.6), ("pool id, not 0", 8, 4), ("check", 4, 2.4), ("zeros", PAGE - 20, 4)])
    cells = -(-(HEAD + BODY) // CELL)
    fields(p, 20, y + 74, f"An object's run, from its first cell on: body of 1 to {BODY} bytes, 1 to {cells} cells (a free run: kind 1, body length 0, tag 0)", 860,
           [("kind 2", 2, 1.8), ("cells", 2, 1.8), ("body length", 4, 2.6), ("check", 4, 2.2), ("tag", 4, 2.2), ("body, then zeros to the last cell's end", BODY, 8)])
    fields(p, 20, y + 148, f"A log: a seal word and up to {ENTRIES} entries of 16 bytes; a seal of zero means empty", 860,
           [("seal: check, count, mark", 8, 4.4), ("not read", 8, 2.2), ("entry 0: target", 8, 3), ("word", 8, 2), ("entry 1: target", 8, 3), ("word", 8, 2), (f".. to entry {ENTRIES - 1}", 16 * (ENTRIES - 2), 3)])
    return p.end()


# ---- A commit's five parts, with the cuts that demo makes.


def commit():
    rows = {}
    for line in printed("demo")[1:]:
        name, *numbers = re.match(r"(.*?)\s+(\d+)\s+(\d+)\s+(\d+)\s+(\d+)\s+(\d+)\s+(\d+)\s+(\d+)$", line).groups()
        rows[name] = list(map(int, numbers))
    steps = rows["committed"][0]
    n = (steps - 9) // 6
    assert steps == 6 * n + 9
    parts = [
        # name, stores, what is stored, new afterwards, what a cut leaves, what recovery does
        ("1 entries", 4 * n, "4n", ["each entry's target", "and word, in log A", "and in log B"], {"log A", "log B"},
         ["some entries;", "both seals zero"], ["nothing to do,", "0 steps"], ["all old"]),
        ("2 seals", 2, "2", ["seal A, seal B"], {"log A", "log B", "seal A", "seal B"},
         ["no seal, one", "or both"], ["replays A, else B:", "2n + 5 steps;", "no seal: 0 steps"], ["all new if a seal", "was kept,", "else all old"]),
        ("3 data", n, "n", ["the data words,", "in the data rows"], {"log A", "log B", "seal A", "seal B", "data"},
         ["data partly new;", "both seals stand"], ["replays A:", "2n + 5 steps"], ["all new"]),
        ("4 parity", n, "n", ["for each entry", "the parity word,", "from all data rows"], {"log A", "log B", "seal A", "seal B", "data", "parity"},
         ["parity partly new;", "both seals stand"], ["replays A:", "2n + 5 steps"], ["all new"]),
        ("5 clearing", 2, "2", ["seal A and seal B", "cleared"], {"log A", "log B", "data", "parity"},
         ["two seals, one", "or none"], ["replays A, else B:", "2n + 5 steps;", "no seal: 0 steps"], ["all new"]),
    ]
    p = Picture(1040, 655, "A commit's five parts")
    p.text(20, 28, f"A commit of n entries: 6n + 9 steps in five parts, a barrier after each (n = {n}: {steps} steps)", 15, bold=True)
    label, left, width = 20, 150, 176
    ys = {"time": 60, "stores": 146, "memory": 216, "cut": 384, "recovery": 444, "objects": 516, "demo": 588}
    p.text(label, ys["time"] + 20, "step", bold=True)
    p.text(label, ys["stores"], "stored", bold=True)
    p.lines(label, ys["memory"] + 14, ["memory after", "the barrier"], bold=True)
    p.lines(label, ys["cut"], ["a cut in this", "part leaves"], bold=True)
    p.lines(label, ys["recovery"], ["recovery then"], bold=True)
    p.lines(label, ys["objects"], ["and leaves", "the objects"], bold=True)
    p.lines(label, ys["demo"], ["cuts that demo", "makes here"], bold=True)
    done = 0
    for i, (name, stores, formula, what, new, cut, then, objects) in enumerate(parts):
        x = left + i * width
        first, last, cuts, old, fresh, ended, clean = rows[name]
        assert (first, last) == (done, done + stores) and ended == cuts == clean
        p.box(x, ys["time"], width - 18, 30, PALE)
        p.text(x + 6, ys["time"] + 20, f"{name}: {formula} stores")
        p.box(x + width - 18, ys["time"] - 8, 8, 46, INK)
        p.text(x, ys["time"] + 52, f"{done + 1} to {done + stores}, barrier {done + stores + 1}", 10, fill=GREY)
        p.lines(x, ys["stores"], what, 11)
        for k, place in enumerate(["seal A", "log A", "seal B", "log B", "data", "parity"]):
            seal = place.startswith("seal")
            fill = (AMBER if seal else BLUE) if place in new else "white"
            if place in new:
                word = "set" if seal else ("entries" if place.startswith("log") else "new")
            else:
                word = "zero" if seal else ("" if place.startswith("log") else "old")
            p.box(x, ys["memory"] + k * 23, 120, 20, fill, GREY)
            p.text(x + 6, ys["memory"] + k * 23 + 14, f"{place}: {word}", 11)
        p.lines(x, ys["cut"], cut, 11)
        p.lines(x, ys["recovery"], then, 11)
        p.lines(x, ys["objects"], objects, 11, bold=True)
        p.lines(x, ys["demo"], [f"{number(cuts)} cuts:", f"{number(old)} old, {number(fresh)} new"], 11)
        done += stores + 1
    assert done == steps
    for y in ["stores", "memory", "cut", "recovery", "objects", "demo"]:
        p.line(label, ys[y] - 19, left + 5 * width, ys[y] - 19, "#cccccc")
    p.text(label, 640, "A cut keeps any of the stores made since the last barrier and loses the others. A black bar is a barrier: the caller passes it.", 11, fill=GREY)
    return p.end()


# ---- The states of a transaction and of a recovery.


def states():
    p = Picture(980, 575, "A transaction's and a recovery's states")

    def state(x, y, name, fill=BLUE, more=""):
        p.box(x, y, 150, 46, fill, round_=10)
        p.text(x + 75, y + (20 if more else 28), name, 13, "middle", True)
        if more:
            p.text(x + 75, y + 37, more, 11, "middle")

    p.text(20, 28, "A transaction", 15, bold=True)
    y = 96
    state(60, y, "open")
    state(420, y, "committing", AMBER, "k of 6n + 9 steps")
    state(780, y, "closed", GREEN)
    p.arrow([(20, y + 23), (60, y + 23)])
    p.text(20, y + 62, "pool_begin", mono=True, size=11)
    p.arrow([(105, y), (105, y - 26), (165, y - 26), (165, y)])
    p.text(175, y - 28, "pool_allocate, pool_write, pool_free: an address, taken, or refused", 11)
    p.arrow([(210, y + 23), (420, y + 23)])
    p.text(315, y + 15, "pool_commit", 11, "middle", mono=True)
    p.text(315, y + 38, "started", 11, "middle")
    p.arrow([(570, y + 23), (780, y + 23)])
    p.text(675, y + 15, "pool_commit_advance", 11, "middle", mono=True)
    p.text(675, y + 38, "done, the last step", 11, "middle")
    p.arrow([(465, y + 46), (465, y + 74), (525, y + 74), (525, y + 46)])
    p.lines(540, y + 72, ["pool_commit_advance: barrier: the caller passes one", "pool_commit_step: stored (8 bytes), or barrier"], 11)
    p.arrow([(135, y + 46), (135, y + 124), (855, y + 124), (855, y + 46)])
    p.text(540, y + 117, "pool_commit with nothing staged: done, 0 steps", 11)
    p.lines(20, y + 160, [
        "A refused call hands back the record as it was: no arrow. A call out of its place is refused, with 29.",
        "Until the commit's first step the pool is unaltered, and a transaction can be dropped: go on with a fresh one.",
        "A power cut ends every record. After it none is used again: the next call is pool_recover.",
    ], 11, fill=GREY)

    y = 340
    p.line(20, y - 30, 960, y - 30, "#cccccc")
    p.text(20, y, "A recovery, at every power-up", 15, bold=True)
    y += 50
    state(60, y, "power-up", "white")
    state(420, y, "recovering", AMBER, "k of 2n + 5, or of 3")
    state(780, y, "finished", GREEN)
    p.arrow([(210, y + 23), (420, y + 23)])
    p.text(315, y + 15, "pool_recover", 11, "middle", mono=True)
    p.text(315, y + 38, "started", 11, "middle")
    p.arrow([(570, y + 23), (780, y + 23)])
    p.text(675, y + 15, "pool_recover_advance", 11, "middle", mono=True)
    p.text(675, y + 38, "done, the last step", 11, "middle")
    p.arrow([(465, y + 46), (465, y + 74), (525, y + 74), (525, y + 46)])
    p.lines(540, y + 68, ["pool_recover_advance: barrier: the caller passes one", "pool_recover_step: stored, or barrier"], 11)
    p.arrow([(135, y), (135, y - 24), (855, y - 24), (855, y)])
    p.text(495, y - 30, "pool_recover: both seals zero: done, 0 steps", 11, "middle")
    p.arrow([(420, y + 36), (380, y + 36), (380, y + 120), (110, y + 120), (110, y + 46)], RED.replace("f6cfcb", "a33b32"), "5 3")
    p.text(245, y + 113, "a power cut: started anew", 11, "middle")
    p.lines(20, y + 150, [
        "2n + 5 steps: log A is replayed if it is valid, else log B. 3 steps: neither is, and one seal is zero: both are cleared (only after damage to a log).",
        "Refused 22: both seals are not zero and neither log is valid. No cut leads there; damage to both logs can.",
    ], 11, fill=GREY)
    return p.end()


# ---- A page rebuilt from its column.


def column():
    rows = 2
    bodies = [b"1 kHz, 0.5 V", b"2 kHz, 1.0 V"]
    parity = bytes(a ^ b for a, b in zip(*bodies))
    shown = len(parity)
    p = Picture(940, 450, "A page rebuilt from its column")
    p.text(20, 28, f"A page rebuilt from its column (R {rows}: {rows} data rows and the parity row)", 15, bold=True)

    def page(y, name, note, content, fill, letters=True, dash=""):
        p.text(20, y + 18, name, bold=True)
        p.text(20, y + 34, note, 11, fill=GREY)
        for i in range(shown):
            p.box(210 + i * 46, y, 46, 40, fill, GREY)
            if content is not None:
                p.text(233 + i * 46, y + 18, f"{content[i]:02X}", 13, "middle", mono=True)
                if letters:
                    p.text(233 + i * 46, y + 34, chr(content[i]), 11, "middle", fill=GREY)
        p.box(210, y, shown * 46, 40, "none", INK, dash)
        p.text(218 + shown * 46, y + 25, f".. to {PAGE} bytes", 11, fill=GREY)

    p.text(210, 60, f"bytes {HEAD} to {HEAD + shown - 1} of the page", 11, fill=GREY)
    page(72, "row 0", "lost: bit 0 of the mask", None, RED, dash="5 3")
    for i in range(shown):
        p.text(233 + i * 46, 97, "?", 13, "middle", mono=True)
    page(128, "row 1", "bit 1", bodies[1], PALE)
    page(184, "row 2, parity", "bit 2", parity, BLUE, letters=False)
    p.text(210, 252, "At every byte the exclusive or of the column's pages is zero, so the lost page is the exclusive or of the others:")
    for line, i in enumerate((0, 7)):
        value = bodies[1][i] ^ parity[i]
        assert value == bodies[0][i]
        p.text(210, 280 + 20 * line, f"byte {HEAD + i}:  {bodies[1][i]:02X} xor {parity[i]:02X} = {value:02X}", 12, mono=True)
    page(324, "row 0, rebuilt", "other bytes stay", bytes(a ^ b for a, b in zip(bodies[1], parity)), GREEN)
    p.lines(210, 396, [
        "pool_repair is given one mask a column: here 1 (bit 0), and 0 for every column without a loss.",
        "Any one page of a column can be lost, the parity page too. Two in one column cannot be rebuilt: refusal 28, nothing is changed.",
        "What the lost page holds at that time is not read. A cut repair is done again with the same list.",
    ], 11, 18)
    return p.end()


# ---- The layers, from docs/ARCHITECTURE.md.


def tables():
    """The layers with their crates, and the numbered calls with the crates that they go through."""
    layers, calls = {}, []
    for line in (ROOT / "docs/ARCHITECTURE.md").read_text().split("\n## One thing, four names\n")[0].splitlines():
        cells = [cell.strip() for cell in line.strip("|").split("|")]
        if re.match(r"\| [a-z]+ \| `[a-z_0-9]+` \|", line):
            layers.setdefault(cells[0], []).append(cells[1].strip("`"))
        elif re.match(r"\| \d+ \|", line):
            calls.append((cells[0], cells[1].strip("`"), re.findall(r"`(\w+)`", cells[2])))
    return layers, calls


def layers():
    bands, calls = tables()
    says = {"programs": "and what they share", "callers": "over the public calls", "public": "answer for all inputs", "parts": "of the calls",
            "runs": "cells and runs", "shape": "header, logs, parity", "bytes": "words, sums, pages", "rules": "definitions, no code"}
    rows, y = [], 64
    for name in reversed(bands):
        lines, x = [[]], 200
        for crate in bands[name]:
            w = max(52, 16 + 7.4 * len(crate))
            if x + w > 960:
                lines.append([])
                x = 200
            lines[-1].append((crate, x, w))
            x += w + 12
        rows.append((name, y, lines))
        y += 40 * len(lines) + 18
    p = Picture(980, y + 20 * len(calls) + 20, "The layers")
    p.text(20, 28, "The layers: a crate uses crates of its own layer and of those below it", 15, bold=True)
    for name, top, lines in rows:
        p.text(20, top + 16, name, 13, bold=True)
        p.text(20, top + 32, says.get(name, ""), 11, fill=GREY)
        p.line(20, top - 12, 960, top - 12, "#cccccc")
        for i, line in enumerate(lines):
            for crate, x, w in line:
                numbers = [n for n, _, way in calls if crate in way]
                p.box(x, top + 40 * i, w, 26, GREEN if numbers else PALE, GREY, round_=4)
                p.text(x + w / 2, top + 40 * i + 17, crate, 12, "middle")
                for k, n in enumerate(numbers):
                    p.badge(x + w - 4 - 16 * (len(numbers) - 1 - k), top + 40 * i - 2, n)
    p.line(20, y - 12, 960, y - 12, "#cccccc")
    p.text(20, y + 12, "A save:", 12, bold=True)
    for k, (n, call, _) in enumerate(calls):
        p.badge(208, y + 8 + 20 * k, n)
        p.text(224, y + 12 + 20 * k, call, 12, mono=True)
    return p.end()


PICTURES = {"pool-bytes": pool_bytes, "commit": commit, "states": states, "column": column, "layers": layers}


def main():
    differ = 0
    for name, draw in PICTURES.items():
        file, svg = ROOT / "docs" / f"{name}.svg", draw()
        if sys.argv[1:] == ["--check"]:
            if not file.exists() or file.read_text() != svg:
                print(f"docs/{name}.svg is not what tools/pictures.py draws")
                differ = 1
        else:
            file.write_text(svg)
    return differ


if __name__ == "__main__":
    sys.exit(main())
