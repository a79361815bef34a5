#!/usr/bin/env python3
"""Holds README.md and docs/ to the repository: links lead somewhere, files and names exist, the crates' list is crates.txt's, the refusals are
include/pool.h's, tables and pictures are what the scripts make. Prints what is wrong; the last line is 'N passed, M failed', a check each."""
import re
import sys
from pathlib import Path

sys.dont_write_bytecode = True
sys.path.insert(0, str(Path(__file__).resolve().parent))
import figures
import pictures

ROOT = Path(__file__).resolve().parent.parent
# docs/PORT.md and docs/DESIGN-PASS.md are left out: they name what was.
DOCS = [ROOT / "README.md"] + sorted(doc for doc in (ROOT / "docs").glob("*.md") if doc.name not in ("PORT.md", "DESIGN-PASS.md"))
SOURCES = ["crates/**/*.rt", "crates/**/*.antt", "crates/**/*.edit", "crates.txt", "rust/**/*.rs", "rust/**/*.toml", "rust/*.sh", "include/*.h",
           "examples/*", "tools/*.sh", "tools/*.py", ".ci/run"]
ENDINGS = r"(?:md|svg|rt|antt|rs|h|c|txt|sh|py|a|toml)"
# Words between backquotes that are no names of this repository: the toolchain's and the system's commands, machine instructions, libraries.
ALLOWED = set("""
    rt check staticlib version dev prove must-fail fmt objdump cargo cc python3 bash git clone cd run release offline test table
    stdin snprintf clwb clflushopt sfence DC CVAP CVAC DSB SY fsync ud2 memcpy memset std c99 target bin uint16_t
    SAV RCL SYSTem ERRor IDN DMC EMC PCB read_to_end read_exact
""".split())
# Files that belong to others, and what the build makes.
ELSEWHERE = {"isa-l.h", "libpmemobj.h", "libpool_c.a"}
PATH = re.compile(rf"(?<![\w./*-])[\w.-]+(?:/[\w.-]+)*\.{ENDINGS}\b(?![\w(/])|(?<![\w./-])(?:crates|rust|docs|tools|include|examples)/[\w./-]*")
WORD = re.compile(r"[A-Za-z_][A-Za-z0-9_']*(?:-[A-Za-z0-9_']+)*")


def text(file):
    return file.read_text(encoding="utf-8")


def code(file):
    """A source without its comments."""
    comments = {".rt": r"//.*", ".rs": r"//.*", ".antt": r"--(?= |-).*", ".h": r"/\*.*?\*/", ".c": r"/\*.*?\*/", ".sh": r"^\s*#.*", ".py": r"^\s*#.*"}
    how = re.S if file.suffix in (".h", ".c") else re.M
    return re.sub(comments[file.suffix], "", text(file), flags=how) if file.suffix in comments else text(file)


def spans(doc):
    """What stands between backquotes, with its line number; code blocks are left out."""
    for at, line in enumerate(text(doc).splitlines(), 1):
        if not line.startswith("    "):
            for span in re.findall(r"`([^`]+)`", line):
                yield at, span


def where(doc, at):
    return f"{doc.relative_to(ROOT)}:{at}"


def slug(heading):
    return re.sub(r"[^\w\- ]", "", heading.strip().lower().replace("`", "")).replace(" ", "-")


def links():
    """Every link leads to a file, and to a heading of it."""
    for doc in DOCS:
        for at, line in enumerate(text(doc).splitlines(), 1):
            for target in re.findall(r"\]\(([^)]+)\)", line):
                if re.match(r"[a-z]+:", target):
                    continue
                path, _, anchor = target.partition("#")
                file = (doc.parent / path).resolve() if path else doc
                if not file.exists():
                    yield f"{where(doc, at)}: {target} leads nowhere"
                elif anchor and anchor not in [slug(h) for h in re.findall(r"^#+ (.*)$", text(file), re.M)]:
                    yield f"{where(doc, at)}: no heading #{anchor} in {path or doc.name}"


def files():
    """Every path that is named exists: from the root, beside the document, under crates/ or rust/; a bare file name somewhere."""
    names = {file.name for pattern in SOURCES + ["docs/*", "README.md"] for file in ROOT.glob(pattern) if "out" not in file.parts}
    for doc in DOCS:
        for at, line in enumerate(text(doc).splitlines(), 1):
            plain = re.sub(r"\]\([^)]*\)|https?://\S+", "]", line)
            for path in PATH.findall(plain):
                path = path.rstrip(".")
                if path.startswith("target/") or re.match(r"crates/[a-z_]+/out/", path) or path in ELSEWHERE:
                    continue
                bases = [ROOT, doc.parent, ROOT / "crates", ROOT / "rust"]
                if not (any((base / path).exists() for base in bases) or any(ROOT.glob(f"crates/*/{path}")) or path in names):
                    yield f"{where(doc, at)}: {path} does not exist"
    promises = text(ROOT / "docs/PROMISES.md").split("| document 01 | definition | file |")[1]
    for cell in re.findall(r"\| ([^|]+) \|$", promises, re.M):
        for name in cell.split(", "):
            if re.fullmatch(r"[A-Z]\w*", name) and not any((ROOT / f"crates/{crate}/specs/{name}.antt").exists() for crate in ("rules", "powercut", "setups", "lines", "errors", "commands", "arrangements")):
                yield f"docs/PROMISES.md: {name}.antt is in none of these specs/"


def names():
    """Every name between backquotes occurs in the sources, is a crate or a folder of one, or is allowed."""
    known = set(ALLOWED)
    for pattern in SOURCES:
        for file in (file for file in ROOT.glob(pattern) if "out" not in file.parts):
            parts = file.relative_to(ROOT).parts
            if file.is_file() and "target" not in parts:
                known.update(parts + (file.stem,))
                if file.name not in ("check_docs.py", "pictures.py"):
                    known.update(WORD.findall(code(file)))
    for doc in DOCS:
        for at, span in spans(doc):
            for name in WORD.findall(PATH.sub("", span)):
                if name not in known:
                    yield f"{where(doc, at)}: `{name}` is not in the sources"


def crates():
    """The crates' list is that of crates.txt, and no crate uses one of a layer above it; the way of a save is made of crates."""
    uses = dict((line.split(":")[0].split()[0], line.split(":")[1]) for line in text(ROOT / "crates.txt").splitlines() if ":" in line and not line.startswith("#"))
    layers, calls = pictures.tables()
    level = {crate: i for i, layer in enumerate(layers.values()) for crate in layer}
    listed = [crate for layer in layers.values() for crate in layer]
    for crate in sorted(set(uses) - set(listed)):
        yield f"docs/ARCHITECTURE.md: crate {crate} is not in the list"
    for crate in sorted(set(listed) - set(uses)):
        yield f"docs/ARCHITECTURE.md: {crate} is no crate of crates.txt"
    for crate in sorted(crate for crate in set(listed) if listed.count(crate) > 1):
        yield f"docs/ARCHITECTURE.md: {crate} is listed twice"
    for crate, used in uses.items():
        for other in used.split():
            if crate in level and level.get(other, 0) > level[crate]:
                yield f"docs/ARCHITECTURE.md: {crate} uses {other}, of a layer above it"
    for number, call, way in calls:
        for crate in way:
            if crate not in uses:
                yield f"docs/ARCHITECTURE.md: {crate}, in the way {number} of a save, is no crate"


def refusals():
    """Numbers and names in docs/REFUSALS.md are those of include/pool.h."""
    listed = re.findall(r"^\| (\d+) \| `(POOL_REFUSED_\w+)` \|", text(ROOT / "docs/REFUSALS.md"), re.M)
    header = re.findall(r"(POOL_REFUSED_\w+) = (\d+)", text(ROOT / "include/pool.h"))
    if [(int(number), name) for number, name in listed] != sorted((int(number), name) for name, number in header):
        yield "docs/REFUSALS.md: numbers and names are not those of include/pool.h"


def tables():
    """The tables of docs/DEVICE.md are what tools/figures.py prints."""
    for table in figures.tables():
        if table not in text(ROOT / "docs/DEVICE.md"):
            yield "docs/DEVICE.md lacks a table as tools/figures.py prints it, which begins " + table.splitlines()[0]


def drawn():
    """The pictures are what tools/pictures.py draws."""
    for name, draw in pictures.PICTURES.items():
        file = ROOT / "docs" / f"{name}.svg"
        if not file.exists() or text(file) != draw():
            yield f"docs/{name}.svg is not what tools/pictures.py draws"


def main():
    failed = 0
    checks = [links, files, names, crates, refusals, tables, drawn]
    for check in checks:
        wrong = list(check())
        print(f"{check.__name__}: {'ok' if not wrong else 'BAD'}")
        for line in wrong:
            print(f"  {line}")
        failed += bool(wrong)
    print(f"{len(checks) - failed} passed, {failed} failed")
    return int(failed > 0)


if __name__ == "__main__":
    sys.exit(main())
