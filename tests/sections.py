#!/usr/bin/env python3
"""The sections that the gate judges and the loops that it walks over: what each is, and what document 01 says of it.

    tests/sections.py            writes crates/judging/stdin and crates/judging/stdout
    tests/sections.py --check    says whether the two are what this file says, and changes nothing

The answers are written by hand, from document 01 and its worked values; the CRC_32 here is a bit at a time. A loop is
put together from descriptors and what stands behind them, and the listing of its walk from the same pieces: no loop is read for it.
The judge here, by which samples/make.py accepts sections, is held to the answers: both ways they are checked.
"""
import functools
import sys
from pathlib import Path

HERE = Path(__file__).resolve().parent.parent / "crates" / "judging"


def crc(data):
    register = 0xFFFFFFFF
    for byte in data:
        for bit in range(7, -1, -1):
            out = (register >> 31) ^ (byte >> bit & 1)
            register = register << 1 & 0xFFFFFFFF
            if out:
                register ^= 0x04C11DB7
    return register


def closed(data):
    """The bytes with their CRC_32."""
    return data + crc(data).to_bytes(4, "big")


def section(table_id, rest, syntax=1, length=None):
    """A section with its CRC_32: rest is what stands between section_length and the CRC."""
    n = len(rest) + 4 if length is None else length
    return closed(bytes([table_id, syntax * 0x80 | 0x70 | n >> 8, n & 255]) + rest)


def loop(body, more=0):
    """A 12-bit length and a loop; `more` is what the length claims beyond it."""
    return (0xF000 | len(body) + more).to_bytes(2, "big") + body


HEAD = bytes.fromhex("0001 C1 00 00")
TDT = bytes.fromhex("70 70 05 C0 79 12 45 00")
TIME = TDT[3:]
NAME = bytes.fromhex("40 03 6F 6E 65")
LIST = bytes.fromhex("41 03 00 01 01")
STUFF = bytes.fromhex("42 00")


def nit(top=loop(b""), second=loop(b""), table_id=0x40, head=HEAD, **how):
    return section(table_id, head + top + second, **how)


def entry(body=b"", more=0):
    return bytes.fromhex("0001 0002") + loop(body, more)


def sdt(entries=b"", table_id=0x42, head=HEAD, **how):
    return section(table_id, head + bytes.fromhex("0002 FF") + entries, **how)


def service(body=b"", more=0):
    return bytes.fromhex("0001 FC") + bytes([0x80 | len(body) + more >> 8, len(body) + more & 255]) + body


def eit(events=b"", table_id=0x4E, head=HEAD, **how):
    return section(table_id, head + bytes.fromhex("0002 0003 00") + bytes([table_id]) + events, **how)


def event(body=b"", more=0):
    return bytes.fromhex("0001 C0791245 00 014530") + bytes([0x80 | len(body) + more >> 8, len(body) + more & 255]) + body


def tot(top=loop(b""), **how):
    return section(0x73, TIME + top, syntax=0, **how)


def filled(size):
    """Descriptors of just so many bytes."""
    out = b""
    while size:
        n = min(size, 257)
        n -= size - n == 1
        out += bytes([0x42, n - 2]) + bytes(n - 2)
        size -= n
    return out


# document 01, "Tables that are known": the ids, the syntax bit, the least and the most section_length, an entry's fixed bytes
ROWS = [
    ([0x40, 0x41, 0x4A], 1, 13, 1021, 6),
    ([0x42, 0x46], 1, 12, 1021, 5),
    (range(0x4E, 0x70), 1, 15, 4093, 12),
    ([0x70], 0, 5, 5, 0),
    ([0x73], 0, 11, 1021, 0),
]
ACCEPTED = (0, 0)


def twelve(data, at):
    return (data[at] & 15) << 8 | data[at + 1]


def judge_descriptors(data, at, end):
    while at < end:
        if end - at < 2 or at + 2 + data[at + 1] > end:
            return 9, at
        at += 2 + data[at + 1]
    return ACCEPTED


def judge_entries(data, at, end, fixed):
    while at < end:
        if end - at < fixed:
            return 10, at
        inside = at + fixed
        at = inside + twelve(data, inside - 2)
        if at > end:
            return 8, inside - 2
        verdict = judge_descriptors(data, inside, at)
        if verdict != ACCEPTED:
            return verdict
    return ACCEPTED


def judge_last_loop(data, at, end):
    """A loop that must end just there: 8 if beyond, 10 if short."""
    behind = at + 2 + twelve(data, at)
    return (8, at) if behind > end else (10, behind) if behind < end else ACCEPTED


def judge_loops(data, fixed):
    end, top = len(data) - 4, 10 + twelve(data, 8)
    if fixed in (5, 12):
        return judge_entries(data, {5: 11, 12: 14}[fixed], end, fixed)
    if fixed == 0:
        verdict = judge_last_loop(data, 8, end)
        return verdict if verdict != ACCEPTED else judge_descriptors(data, 10, end)
    if top > end - 2:
        return 8, 8
    for verdict in (judge_descriptors(data, 10, top), judge_last_loop(data, top, end)):
        if verdict != ACCEPTED:
            return verdict
    return judge_entries(data, top + 2, end, fixed)


@functools.lru_cache(None)
def judge(data):
    """The number of the refusal, 0 for a section that is accepted, and the place."""
    if len(data) < 3:
        return 1, 0
    row = next((row for row in ROWS if data[0] in row[0]), None)
    if row is None:
        return 2, 0
    _, syntax, least, most, fixed = row
    faults = [(3, data[1] >> 7 != syntax), (4, not least <= twelve(data, 1) <= most), (5, len(data) != 3 + twelve(data, 1))]
    number = next((number for number, holds in faults if holds), 0)
    if number or data[0] == 0x70:
        return number, 0
    if crc(data):
        return 6, 0
    if fixed and data[6] > data[7]:
        return 7, 0
    return judge_loops(data, fixed)


ABOVE = bytes.fromhex("0001 C1 01 00")

CASES = [
    # document 01, "Worked values"
    ("refused 1 0", 0x40, b""),
    ("accepted, none", 0x40, TDT),
    ("refused 5 0", 0x40, TDT[:7]),
    ("refused 2 0", 0x40, b"\x71" + TDT[1:]),
    ("refused 3 0", 0x40, b"\x70\xF0" + TDT[2:]),
    ("refused 4 0", 0x40, b"\x70\x70\x04" + TDT[3:]),
    ("accepted, none", 0x40, nit(top=loop(filled(1021 - 13)))),
    ("refused 4 0", 0x40, nit(top=loop(filled(1022 - 13)))),
    ("refused 4 0", 0x40, closed(bytes.fromhex("73 70 0A") + TIME + b"\xF0")),
    # the smallest sections, whole as they are on air
    ("accepted, none", 0x40, bytes.fromhex("40F00D0001C10000F000F0003B858402")),
    ("accepted, none", 0x40, bytes.fromhex("4AF00D0001C10000F000F0000BDF5A3E")),
    ("accepted, none", 0x40, bytes.fromhex("42F00C0001C100000002FF769AF410")),
    ("accepted, none", 0x40, bytes.fromhex("4EF00F0001C1000000020003004EC6844C11")),
    ("accepted, none", 0x40, bytes.fromhex("73700BC079124500F0004EED8455")),
    ("accepted, found 0 12 13", 0x58, bytes.fromhex("73701AC079124500F00F580D4742520200 00C0791245000100C20BC361")),
    # 1 to 7
    ("refused 1 0", 0x40, b"\x70\xF0"),
    ("refused 5 0", 0x40, bytes.fromhex("4E F0 0F")),
    ("refused 2 0", 0x40, nit(table_id=0x43)),
    ("refused 2 0", 0x40, bytes.fromhex("00 B0 0D")),
    ("refused 3 0", 0x40, nit(syntax=0)),
    ("refused 3 0", 0x40, section(0x73, TIME + loop(b""), syntax=1)),
    ("refused 4 0", 0x40, eit(length=4094)),
    ("refused 4 0", 0x40, sdt(length=11)),
    ("refused 5 0", 0x40, TDT + b"\x00"),
    ("refused 6 0", 0x40, bytes.fromhex("40F00D0001C10000F000F0003B858403")),
    ("refused 6 0", 0x40, bytes.fromhex("73700BC079124500F0004EED8454")),
    ("refused 7 0", 0x40, nit(head=ABOVE)),
    ("refused 7 0", 0x40, eit(head=ABOVE)),
    # 8 to 10 in NIT and BAT
    ("refused 8 8", 0x40, nit(top=loop(b"", 1))),
    ("refused 8 8", 0x40, nit(top=loop(b"", 2))),
    ("refused 8 10", 0x40, nit(second=loop(b"", 1))),
    ("refused 10 12", 0x40, nit(second=loop(b"") + b"\x00")),
    ("refused 9 10", 0x40, nit(top=loop(b"\x42"))),
    ("refused 9 12", 0x40, nit(top=loop(STUFF + b"\x42\x01"))),
    ("refused 9 10", 0x40, nit(top=loop(b"\x42"), second=loop(b"", 1))),
    ("refused 10 12", 0x40, nit(second=loop(entry(b"\x42")[:5]))),
    ("refused 8 16", 0x40, nit(second=loop(entry(b"", 40)))),
    ("refused 8 16", 0x40, nit(second=loop(entry(STUFF, 40) + entry(NAME)), table_id=0x4A)),
    ("refused 9 18", 0x40, nit(second=loop(entry(b"\x42") + entry(b"\x42")))),
    ("refused 9 18", 0x40, nit(second=loop(entry(b"\x42\x01") + entry()))),
    ("refused 9 26", 0x40, nit(second=loop(entry(STUFF) + entry(b"\x41")))),
    ("refused 10 18", 0x40, nit(second=loop(entry() + b"\x00"))),
    # 10 and 8 in SDT and EIT
    ("refused 10 11", 0x40, sdt(b"\x00")),
    ("refused 10 16", 0x40, sdt(service() + b"\x00" * 4)),
    ("refused 8 14", 0x40, sdt(service(b"", 1))),
    ("refused 9 18", 0x40, sdt(service(b"\x48\x00\x48"))),
    ("refused 10 14", 0x40, eit(b"\x00" * 11)),
    ("refused 8 24", 0x40, eit(event(b"", 1))),
    ("refused 9 26", 0x40, eit(event(b"\x4D\x01") + event())),
    # 8 to 10 in TOT
    ("refused 8 8", 0x40, tot(loop(b"", 1))),
    ("refused 10 10", 0x40, tot(loop(b"") + b"\x00")),
    ("refused 10 10", 0x40, tot(loop(b"") + b"\x42")),
    ("refused 9 10", 0x40, tot(loop(b"\x42"))),
    # the first hit in reading order: the top loop is number 0, entries count from 1
    ("accepted, found 0 12 3", 0x40, nit(top=loop(NAME))),
    ("accepted, found 0 14 3", 0x40, nit(top=loop(STUFF + NAME), second=loop(entry(NAME)))),
    ("accepted, found 1 20 3", 0x41, nit(second=loop(entry(LIST)))),
    ("accepted, found 2 28 3", 0x41, nit(top=loop(STUFF), second=loop(entry() + entry(LIST) + entry(LIST)))),
    ("accepted, found 1 22 3", 0x41, nit(second=loop(entry(STUFF + LIST + LIST)))),
    ("accepted, found 1 18 0", 0x42, sdt(service(STUFF))),
    ("accepted, found 2 23 3", 0x40, sdt(service() + service(NAME))),
    ("accepted, found 1 28 3", 0x40, eit(event(NAME))),
    ("accepted, none", 0x43, eit(event(NAME) + event(LIST))),
    ("accepted, found 0 12 0", 0x42, tot(loop(STUFF))),
    # the largest
    ("accepted, found 1 28 255", 0x42, eit(event(filled(4093 - 15 - 12)))),
]


def descriptor(tag, body):
    """A descriptor as broadcast: tag, length, body."""
    return bytes([tag, len(body)]) + body


def walk(descriptors, rest=b"", skipped=0):
    """A loop of descriptors and of a rest in which none can be read; the place where the walk over it begins, behind as many
    descriptors as are skipped; and the lines of the walk. Each descriptor is handed out as it was put in, then comes the end or 9."""
    at = sum(len(d) for d in descriptors[:skipped])
    start, lines = at, []
    for d in descriptors[skipped:]:
        at += len(d)
        lines.append(f"descriptor, then at {at}: " + " ".join(str(byte) for byte in d))
    lines.append(f"refused 9 {at}, at {at}" if rest else f"end, at {at}")
    return start, b"".join(descriptors) + rest, lines


EMPTY = descriptor(0x42, b"")
LONG = descriptor(0x42, bytes(range(255)))
LAST = descriptor(0xFF, b"\xFF")

WALKS = [
    # document 01, "Worked values": loop 42 00, one descriptor; loop 42, 9
    walk([EMPTY]),
    walk([], b"\x42"),
    # each in turn, then the end
    walk([]),
    walk([NAME]),
    walk([NAME, LIST, EMPTY]),
    walk([EMPTY, EMPTY, NAME, LAST]),
    walk([LONG, NAME]),
    walk([LIST, LONG]),
    # from a place behind the first ones
    walk([NAME, LIST, EMPTY], skipped=1),
    walk([NAME, LIST, EMPTY], skipped=2),
    walk([NAME, LIST, EMPTY], skipped=3),
    # a fault behind some
    walk([NAME], b"\x41"),
    walk([NAME, EMPTY], b"\x41\x01"),
    walk([LIST, NAME], b"\x41\x03\x00\x01"),
    walk([EMPTY, LIST, NAME], b"\x41\xFF" + bytes(254), skipped=1),
    # a place beyond the end: none can be read there
    (6, NAME, ["refused 9 6, at 6"]),
    (255, b"", ["refused 9 255, at 255"]),
    # a place within a descriptor: what stands there is read as one, 03 6F of 40 03 6F 6E 65 as a tag and a length that goes past
    (1, NAME, ["refused 9 1, at 1"]),
    (3, bytes.fromhex("41 03 00 01 00"), ["descriptor, then at 5: 1 0", "end, at 5"]),
]


def record(kind, byte, data):
    """A record of the program's input: 0 for a section and a tag, 1 for a loop and a place."""
    return bytes([kind, byte]) + len(data).to_bytes(2, "big") + data


def wrongly_judged():
    """The first case whose answer is not that of the judge here."""
    for line, _, data in CASES:
        number, place = judge(data)
        if line.split(",")[0] != (f"refused {number} {place}" if number else "accepted"):
            return f"{data.hex()}: {line}, but the judge here says {number} at {place}"


def main():
    if wrongly_judged():
        sys.exit("sections: " + wrongly_judged())
    stdin = b"".join(record(0, tag, data) for _, tag, data in CASES) + b"".join(record(1, at, data) for at, data, _ in WALKS)
    said = [line for line, _, _ in CASES] + [line for _, _, lines in WALKS for line in lines]
    stdout = "".join(line + "\n" for line in said).encode()
    if "--check" not in sys.argv:
        (HERE / "stdin").write_bytes(stdin)
        (HERE / "stdout").write_bytes(stdout)
    elif (HERE / "stdin").read_bytes() != stdin or (HERE / "stdout").read_bytes() != stdout:
        sys.exit("sections: crates/judging/stdin and stdout are not what tests/sections.py says: run it")
    print(f"sections: {len(CASES)} cases, {len(WALKS)} walks")


if __name__ == "__main__":
    main()
