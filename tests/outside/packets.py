#!/usr/bin/env python3
"""The C example examples/packets.c on the sections of the samples: packets.py PROGRAM..

Its stream is the one that samples/make.py packs, which has its own way of it; and ./account, whose listing is the one that
samples/make.py keeps by its own rules, accepts each section that the judge of tests/sections.py accepts, rejects the others, and says
broken 0, skipped 0, in hand 0.
"""
import random
import subprocess
import sys
import tempfile
from pathlib import Path

TOP = Path(__file__).resolve().parent.parent.parent
sys.path.insert(0, str(TOP / "samples"))
import make  # noqa: E402
import services  # noqa: E402

PROGRAM = sys.argv[1:]


def tables():
    """A section of each table, and the service tables of samples/services.ts."""
    made = make.made
    news, hotel, many = (services.whole(some) for some in (services.NEWS, services.HOTEL, services.MANY))
    return [
        made.nit(top=made.loop(made.NAME), second=made.loop(made.entry(made.LIST) * 20)),
        made.nit(table_id=0x4A, top=made.loop(made.NAME)),
        made.eit(made.event(made.filled(200)) * 19),
        made.eit(made.event(made.filled(60)) * 3, table_id=0x50),
        made.TDT,
        made.tot(),
        make.LONG,
        services.table(0, news),
        services.table(1, hotel),
        services.table(2, many),
    ]


def stuffing(size):
    """A section of a stuffing table, which may have any length, and which the judge rejects."""
    return bytes([0x72, 0x70 | size - 3 >> 8, size - 3 & 255]) + bytes(size - 3)


def lists():
    """Each list by name."""
    rng = random.Random(188)
    some = tables()
    yield "each table", some
    yield "400 sections", [rng.choice(some) for _ in range(400)]
    yield "no section", []
    yield "183 bytes left, and a section waits", [stuffing(366), stuffing(20)]
    yield "two sections that begin with a last byte", [stuffing(182), stuffing(367), stuffing(3)]
    yield "a section of 4,096 bytes", [stuffing(4096), make.made.TDT]
    yield "one of 4,096 bytes that is accepted", [make.made.eit(make.made.event(make.made.filled(4093 - 15 - 12))), make.made.TDT]


def run(*words):
    done = subprocess.run(words, stdout=subprocess.PIPE, stderr=subprocess.PIPE)
    return done.returncode, done.stdout.decode(), done.stderr.decode()


def bad(name, what):
    sys.exit(f"packets: {name}: {what}")


def written(name, room, sections, pid=0x0011):
    """The stream of these sections."""
    file, out = room / "sections", room / "stream"
    file.write_bytes(b"".join(sections))
    ran = run(*PROGRAM, file, f"{pid:04X}", out)
    stream, _ = make.packed(sections, 0, pid)
    said = f"{len(sections)} sections of {sum(map(len, sections))} bytes in {len(stream)} packets\n"
    if ran != (0, said, ""):
        bad(name, f"it ended with {ran}, expected {said!r}")
    if out.read_bytes() != b"".join(stream):
        bad(name, "the stream is not the one that samples/make.py packs")
    return out


def accounted(name, out, sections):
    status, account, said = run(TOP / "account", out)
    if (status, account, said) != (0, make.account(out.read_bytes()), ""):
        bad(name, f"account: status {status}, it wrote {account!r} and said {said!r}")
    told = dict(line.rsplit(" ", 1) for line in account.splitlines())
    if sections:
        wanted = dict.fromkeys(["repeated", "refused", "broken", "skipped", "in hand"], 0)
        accepted = [s for s in sections if make.made.judge(s) == make.made.ACCEPTED]
        of = sum(map(len, accepted))
        wanted.update({"PID": "0011", "accepted": of, "rejected": sum(map(len, sections)) - of, "sections": len(accepted)})
        wrong = {key: told.get(key) for key, value in wanted.items() if told.get(key) != str(value)}
        if wrong:
            bad(name, f"account says {wrong}")
    print(f"packets: {name}: as expected")


def refused(name, room, data, number, pid="0011"):
    """The program tells the number, and writes no stream."""
    file, out = room / "sections", room / "none"
    file.write_bytes(data)
    status, told, said = run(*PROGRAM, file, pid, out)
    if status != 1 or told or not said.startswith(f"packets: refused with {number}: ") or out.exists():
        bad(name, f"status {status}, it wrote {told!r} and said {said!r}")
    print(f"packets: {name}: refused with {number}")


def main():
    with tempfile.TemporaryDirectory() as folder:
        room = Path(folder)
        for name, sections in lists():
            accounted(name, written(name, room, sections), sections)
        data = b"".join(tables())
        refused("a PID above 8,191", room, data, 101, "2000")
        refused("a file that is cut", room, data[:-1], 102)
        refused("bytes behind the last section", room, data + b"\x72\x70", 102)
        refused("filler behind the last section", room, data + b"\xFF" * 4, 102)
        refused("a section of 4,097 bytes", room, stuffing(4097), 102)
        status, _, said = run(*PROGRAM, room / "nowhere", "0011", room / "none")
        if status != 1 or "nowhere" not in said:
            bad("no such file", f"status {status}, it said {said!r}")


if __name__ == "__main__":
    main()
