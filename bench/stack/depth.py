#!/usr/bin/env python3
"""The stack that each exported call of the archives needs at most, out of their machine code.

    depth.py OBJDUMP ARCHIVE..         a line for each call: its name, and the bytes below the caller's stack pointer, return address included

Every path through each function is followed, and every call on it; there is no recursion, no call through a pointer and no frame of a size that is
not in the code, and where one should appear this program says so and fails. memcpy and memset are the C library's: they count with their return
address alone. No archive calls into another.
"""
import re
import subprocess
import sys

OUTSIDE = {"memcpy": 0, "memset": 0}
JUMP = re.compile(r"^(j\w+)\s+([0-9a-f]+)\b")


def shown(archive, objdump, *how):
    return subprocess.run([objdump, *how, archive], check=True, capture_output=True, text=True).stdout


def functions(archive, objdump):
    """name -> list of (address, instruction, relocation or None)"""
    text = shown(archive, objdump, "-d", "-r", "--no-show-raw-insn")
    found, code = {}, None
    for line in text.split("\n"):
        if m := re.match(r"^[0-9a-f]+ <(.+)>:$", line):
            code = found[m.group(1)] = []
        elif m := re.match(r"^\s+([0-9a-f]+):\s+R_X86_64_\S+\s+(\S+)", line):
            place, name = code[-1][:2]
            code[-1] = (place, name, m.group(2))
        elif m := re.match(r"^\s+([0-9a-f]+):\s+(\S.*?)\s*$", line):
            code.append((int(m.group(1), 16), m.group(2), None))
    return found


def tables(archive, objdump, code):
    """name -> the places in the function to which its tables of jumps lead

    An entry is the distance from its table's first byte: the relocation's value, less the entry's place in the table.
    """
    found, entries = {}, None
    for line in shown(archive, objdump, "-r").split("\n"):
        if m := re.match(r"^RELOCATION RECORDS FOR \[(.+)\]:$", line):
            name = m.group(1).removeprefix(".rodata.")
            entries = found.setdefault(name, []) if m.group(1).startswith(".rodata.") and name in code else None
        elif entries is not None and (m := re.match(r"^([0-9a-f]+)\s+R_X86_64_PC32\s+(\S+?)(?:\+0x([0-9a-f]+))?$", line)):
            entries.append((int(m.group(1), 16), m.group(2).removeprefix(".text."), int(m.group(3) or "0", 16)))
    led = {}
    for name, entries in found.items():
        starts = {int(m.group(1), 16) + 4 if m.group(1) else 0 for _, _, r in code[name] if r and (m := re.match(re.escape(f".rodata.{name}") + r"(?:-0x4|\+0x([0-9a-f]+))$", r))}
        led[name] = {value - (place - max(s for s in starts if s <= place)) for place, of, value in entries if of == name}
    return led


def callee(relocation):
    return re.sub(r"[+-]0x[0-9a-f]+$", "", relocation).removeprefix(".text.")


def moved(instruction):
    """By how many bytes an instruction moves the stack pointer down."""
    word, _, rest = instruction.partition(" ")
    rest = rest.strip()
    if word == "push":
        return 8
    if word == "pop":
        return -8
    if m := re.match(r"^\$0x([0-9a-f]+),%rsp$", rest):
        if word == "sub":
            return int(m.group(1), 16)
        if word == "add":
            return -int(m.group(1), 16)
    if rest.endswith(",%rsp") or rest == "%rsp" or word in ("leave", "enter"):
        sys.exit(f"depth: not understood: {instruction}")
    return 0


def depth(name, code, led, known, on_way):
    """The bytes that a function needs below the stack pointer with which it is entered."""
    if name in OUTSIDE:
        return OUTSIDE[name]
    if name in known:
        return known[name]
    if name in on_way:
        sys.exit(f"depth: {name} calls itself")
    if name not in code:
        sys.exit(f"depth: {name} is called, and stands not in the archive")
    body = code[name]
    index = {place: i for i, (place, _, _) in enumerate(body)}
    most, seen, todo = 0, {}, [(0, 0)]
    while todo:
        i, below = todo.pop()
        if i >= len(body):
            sys.exit(f"depth: {name} runs past its end")
        if i in seen:
            if seen[i] != below:
                sys.exit(f"depth: {name}: two frames meet at {body[i][0]:x}")
            continue
        seen[i] = below
        _, instruction, relocation = body[i]
        word = instruction.split()[0]
        below += moved(instruction)
        # the 128 bytes below the stack pointer that a function may use without moving it
        most = max(most, below + (128 if re.search(r"-0x[0-9a-f]+\(%rsp", instruction) else 0))
        if word == "ret":
            if below:
                sys.exit(f"depth: {name} returns with {below} bytes left")
            continue
        if word in ("ud2", "int3"):
            continue
        if word == "call":
            if relocation is None:
                sys.exit(f"depth: {name}: {instruction}")
            most = max(most, below + 8 + depth(callee(relocation), code, led, known, on_way | {name}))
        elif m := JUMP.match(instruction):
            if relocation is not None:
                # a call in the place of a return: the frame is gone
                most = max(most, below + depth(callee(relocation), code, led, known, on_way | {name}))
            else:
                todo.append((index[int(m.group(2), 16)], below))
            if word == "jmp":
                continue
        elif re.match(r"jmp\s+\*%r\w+$", instruction) and name in led:
            todo += [(index[place], below) for place in led[name]]
            continue
        elif word.startswith("j"):
            sys.exit(f"depth: {name}: {instruction}")
        todo.append((i + 1, below))
    known[name] = most
    return most


def main():
    objdump, *archives = sys.argv[1:]
    for archive in archives:
        code = functions(archive, objdump)
        led = tables(archive, objdump, code)
        known = {}
        for name in code:
            if name.startswith("lohitunga_"):
                print(name, 8 + depth(name, code, led, known, frozenset()))


if __name__ == "__main__":
    main()
