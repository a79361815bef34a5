#!/usr/bin/env python3
"""The most stack that a call into an archive can take, worked out from its compiled code (x86-64, objdump).

  tools/stack.py crates/pool_c/out/libpool_c.a

Every way through each function is followed: push, pop and additions to %rsp give the depth at each instruction, which must be the same on
every way there. A function's own part is its greatest depth, with what it uses below the stack pointer (the red zone); a call adds 8 bytes for the return
address and the callee's part. A loop in the call graph, an indirect call, or another change of %rsp ends the program with an error. Functions that
the archive does not hold (memcpy, memset) count 8 bytes here: their own part comes on top.

Prints the bound in bytes, then the way that takes it, then each function of the boundary.
"""
import re
import subprocess
import sys


def functions(archive):
    """name -> list of (address, mnemonic, operands, relocation's target or None)."""
    text = subprocess.run(["objdump", "-dr", "--no-show-raw-insn", archive], capture_output=True, text=True, check=True).stdout
    found, code = {}, None
    for line in text.splitlines():
        if head := re.match(r"[0-9a-f]+ <(.+)>:$", line):
            if head[1] in found:
                sys.exit(f"two functions are named {head[1]}")
            code = found[head[1]] = []
        elif reloc := re.match(r"\s+[0-9a-f]+: R_X86_64_(\w+)\s+(?:\.text\.)?(.+?)(?:[-+]0x[0-9a-f]+)?$", line):
            code[-1] = code[-1][:3] + (reloc[2],)
        elif one := re.match(r"\s+([0-9a-f]+):\t(\S+)\s*(.*)$", line):
            name, operands = one[2], one[3].split("#")[0].strip()
            while name in ("data16", "cs", "rep", "repz", "lock", "bnd", "notrack"):
                name, _, operands = operands.partition(" ")
                operands = operands.strip()
            code.append((int(one[1], 16), name, operands, None))
    return found


def moved(name, operands, where):
    """By how much an instruction makes the stack deeper."""
    if name.startswith("push"):
        return 8
    if name.startswith("pop"):
        return -8
    if operands.endswith(",%rsp"):
        if by := re.fullmatch(r"\$(-?)0x([0-9a-f]+),%rsp", operands):
            by = int(by[1] + by[2], 16)
            if name in ("sub", "subq"):
                return by
            if name in ("add", "addq"):
                return -by
        if by := re.fullmatch(r"(-?)0x([0-9a-f]+)\(%rsp\),%rsp", operands):
            if name == "lea":
                return -int(by[1] + by[2], 16)
        if name not in ("cmp", "test"):
            sys.exit(f"{where}: {name} {operands} changes the stack pointer")
    if name in ("leave", "enter", "xchg") and "rsp" in operands:
        sys.exit(f"{where}: {name} {operands} changes the stack pointer")
    return 0


def own(function, code):
    """The function's own part, and for each call the depth there with its target."""
    index = {address: i for i, (address, *_) in enumerate(code)}
    depths, greatest, calls, open_ = {}, 0, [], [(0, 0)]

    def visit(start, depth):
        nonlocal greatest
        todo = [(start, depth)]
        while todo:
            i, depth = todo.pop()
            if i >= len(code):
                continue
            address, name, operands, target = code[i]
            where = f"{function}+{address:#x}"
            if i in depths:
                if depths[i] != depth:
                    sys.exit(f"{where}: {depths[i]} bytes deep on one way, {depth} on another")
                continue
            depths[i] = depth
            if below := re.search(r"-0x([0-9a-f]+)\(%rsp", operands):
                greatest = max(greatest, depth + (int(below[1], 16) if name != "lea" or not operands.endswith("%rsp") else 0))
            depth += moved(name, operands, where)
            greatest = max(greatest, depth)
            if name == "ret" or name == "ud2":
                continue
            if name.startswith("call"):
                if target is None:
                    sys.exit(f"{where}: an indirect call")
                calls.append((depth, target))
            elif name.startswith("j"):
                if target is not None and not operands.startswith("*"):
                    calls.append((depth - 8, target))
                elif operands.startswith("*"):
                    indirect.append(depth)
                else:
                    todo.append((index[int(operands.split()[0], 16)], depth))
                if name.startswith("jmp"):
                    continue
            todo.append((i + 1, depth))

    indirect = []
    visit(0, 0)
    # A table of jumps leads to instructions of the same function that no other way reaches, each from the depth of the jump.
    while indirect and len(depths) < len(code):
        missing = next((i for i in range(len(code)) if i not in depths and not code[i][1].startswith("nop") and code[i][1] != "xchg"), None)
        if missing is None:
            break
        visit(missing, indirect[0])
    return greatest, calls


def main(archive):
    parts = {name: own(name, code) for name, code in functions(archive).items()}
    bounds = {}

    def bound(name, way=()):
        """Bytes that a call of this function takes, its return address included, and the way that takes them."""
        if name in way:
            sys.exit("a loop of calls: " + " -> ".join(way + (name,)))
        if name not in parts:
            return 8, (name,)
        if name not in bounds:
            greatest, calls = parts[name]
            most, deepest = greatest, ()
            for depth, target in calls:
                more, further = bound(target, way + (name,))
                if depth + more > most:
                    most, deepest = depth + more, further
            bounds[name] = most + 8, (name,) + deepest
        return bounds[name]

    entries = sorted(((*bound(name), name) for name in parts if name.startswith("pool_")), reverse=True)
    most, way, _ = entries[0]
    print(f"{most} bytes")
    print(" -> ".join(f"{name} ({parts[name][0] if name in parts else 'not in the archive'})" for name in way))
    for size, _, name in entries:
        print(f"{size:6} {name}")
    others = sorted(set(target for _, calls in parts.values() for _, target in calls if target not in parts))
    print("not in the archive: " + ", ".join(others))


if __name__ == "__main__":
    main(sys.argv[1])
