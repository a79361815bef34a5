#!/usr/bin/env python3
"""Works out the tables of docs/DEVICE.md, stores of a commit by page and sizes by shape, from the paper's formulas, and prints them."""
PAGE, CELL, HEAD, WORD, ENTRY, LINE = 256, 64, 16, 8, 16, 64
LOG_A, LOG_B, ZONES = 2 * PAGE, 10 * PAGE, 18 * PAGE
SHAPES = [(1, 1, 1), (2, 2, 1), (3, 3, 1), (3, 4, 1), (4, 8, 1), (7, 8, 2), (15, 14, 1), (15, 64, 16)]
SETUP = 120


def cells_for(body):
    return -(-(HEAD + body) // CELL)


def allocated(body, cells_left=True):
    """Targets that allocate touches, from the first free cell of a zone's first page on."""
    words = cells_for(body) * CELL // WORD + (2 if cells_left else 0)
    return [ZONES + WORD * i for i in range(words)]


def written(body):
    """Targets that a write of the whole body touches: head bytes 8 to 15, and the words of the body."""
    return [ZONES + 8] + [ZONES + HEAD + WORD * i for i in range(-(-body // WORD))]


def parts(targets, row):
    """The offsets stored in each part of a commit; `row` is the distance from a target to its parity word."""
    logs = [log + ENTRY + ENTRY * i + half for i in range(len(targets)) for log in (LOG_A, LOG_B) for half in (0, WORD)]
    return [logs, [LOG_A, LOG_B], targets, [at + row for at in targets], [LOG_A, LOG_B]]


def wear():
    rows, cols, _ = 2, 2, 1
    ways = [allocated(SETUP), written(SETUP)]
    made = [parts(targets, rows * cols * PAGE) for targets in ways]
    counts = [len(targets) for targets in ways]
    lines = [
        f"| | a new set-up: allocate, n = {counts[0]} | a set-up written over: write, n = {counts[1]} |",
        "|---|---:|---:|",
    ]

    def row(name, of):
        lines.append(f"| {name} | {of(0)} | {of(1)} |")

    stores = [[at for part in commit for at in part] for commit in made]
    row("steps, 6n + 9", lambda w: 6 * counts[w] + 9)
    row("of these barriers", lambda w: 5)
    row("stores of 8 bytes", lambda w: len(stores[w]))
    for name, log in (("A", LOG_A), ("B", LOG_B)):
        for page in range(8):
            inside = lambda w: sum(log + page * PAGE <= at < log + (page + 1) * PAGE for at in stores[w])
            if inside(0):
                seal = " (the seal twice)" if page == 0 else ""
                row(f"into page {(log + page * PAGE) // PAGE}, log {name}{seal}", inside)
    row("into the data page", lambda w: len(made[w][2]))
    row("into the parity page", lambda w: len(made[w][3]))
    row("into the header pages", lambda w: sum(at < LOG_A for at in stores[w]))
    row(f"lines of {LINE} bytes written back, barrier by barrier", lambda w: " + ".join(str(len({at // LINE for at in part})) for part in made[w])
        + f" = {sum(len({at // LINE for at in part}) for part in made[w])}")
    for w in (0, 1):
        assert len(stores[w]) + 5 == 6 * counts[w] + 9
    return lines


def sizes():
    lines = ["| R | C | Z | bytes | cells | set-ups of 120 bytes |", "|---:|---:|---:|---:|---:|---:|"]
    for rows, cols, zones in SHAPES:
        size = (18 + zones * (rows + 1) * cols) * PAGE
        cells = 4 * rows * cols
        lines.append(f"| {rows} | {cols} | {zones} | {size:,} | {zones * cells:,} | {zones * (cells // cells_for(SETUP)):,} |")
    return lines


def tables():
    return ["\n".join(table) for table in (wear(), sizes())]


if __name__ == "__main__":
    print("\n\n".join(tables()))
