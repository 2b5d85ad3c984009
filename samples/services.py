#!/usr/bin/env python3
"""Makes samples/services.ts, a stream with a service table on PID 0x0011, and samples/services.txt, what is to be listed of it.

    samples/services.py            writes both
    samples/services.py --check    says whether the two are what this file says, and changes nothing

The table of the actual stream has three sections. Before the last of them come: packets of other PIDs, a table that is not current, one of another
stream, a section that is repeated, one that a gap breaks, one with a wrong CRC_32, and one whose loop claims forty bytes more than the section
holds, under a right CRC_32. The listing is made from what the sections were made of, and not read out of them.
"""
import sys
from pathlib import Path

HERE = Path(__file__).resolve().parent
sys.path.insert(0, str(HERE))
import make  # noqa: E402
from make import made  # noqa: E402

PID = 0x0011
STREAM, NETWORK, LAST, VERSION = 1043, 133, 2, 9


def text(s):
    return bytes([len(s)]) + s


def described(kind, provider, name):
    body = bytes([kind]) + text(provider) + text(name)
    return bytes([0x48, len(body)]) + body


def entry(service_id, loop, more=0):
    return service_id.to_bytes(2, "big") + b"\xFC" + (0x8000 | len(loop) + more).to_bytes(2, "big") + loop


def table(number, entries, stream=STREAM, current=1, table_id=0x42):
    head = stream.to_bytes(2, "big") + bytes([0xC0 | VERSION << 1 | current, number, LAST])
    return made.section(table_id, head + NETWORK.to_bytes(2, "big") + b"\xFF" + entries)


# service_id, type, provider, name
NEWS = [(4001, 1, b"Lift", b"Roof News"), (4002, 1, b"Lift", b"Shaft Sport"), (4003, 25, b"", b"Cab HD")]
HOTEL = [(4101, 2, b"Hotel", b"Lobby Radio"), (4102, 1, b"H\xF4tel", b"\x05Caf\xE9")]
MANY = [(5000 + i, 1, b"Floor %d" % i, b"Room %d" % i) for i in range(24)]


def whole(services):
    return b"".join(entry(i, made.STUFF + described(t, p, n)) for i, t, p, n in services)


def shown(name):
    return "".join(chr(b) if 0x20 <= b <= 0x7E else "\\x%02X" % b for b in name)


def listed(number, lines):
    head = f"transport_stream_id {STREAM} original_network_id {NETWORK} version {VERSION} section {number} of {LAST}"
    return [head] + lines


def lines_of(services):
    return [f"service {i} type {t} provider '{shown(p)}' name '{shown(n)}'" for i, t, p, n in services]


def stream():
    """The packets, and the listing."""
    news = table(0, whole(NEWS))
    bare = entry(4103, made.NAME) + entry(4104, bytes.fromhex("48 02 01 00"))
    hotel = table(1, whole(HOTEL) + bare)
    many = table(2, whole(MANY))
    damaged = many[:-1] + bytes([many[-1] ^ 1])
    long = table(2, entry(6001, described(1, b"Lift", b"Dead"), more=40))
    first, counter = make.packed([table(0, whole(MANY), current=0), table(0, whole(NEWS), stream=7, table_id=0x46), news, hotel], 3, PID)
    again, counter = make.packed([news, damaged, long], counter, PID)
    broken, counter = make.packed([many], counter, PID)
    last, _ = make.packed([many, news], counter, PID)
    other = [make.packet((b"\x00" + made.TDT + b"\xFF" * 184)[:184], i, 1, 0x0014) for i in range(4)]
    lost = broken[:1] + broken[2:]
    packets = other[:1] + first + other[1:2] + [first[-1]] + again + other[2:3] + lost + last + other[3:]
    lines = listed(0, lines_of(NEWS))
    lines += listed(1, lines_of(HOTEL) + ["service 4103 without a service descriptor", "service 4104 with a service descriptor that is refused: 62"])
    lines += [f"{len(bad)} bytes are rejected, the last section with {number}" for bad, number in ((damaged, 6), (long, 8))]
    lines += listed(2, lines_of(MANY)) + ["complete"]
    return b"".join(packets), "\n".join(lines) + "\n"


def main():
    data, listing = stream()
    if "--check" not in sys.argv:
        (HERE / "services.ts").write_bytes(data)
        (HERE / "services.txt").write_text(listing)
    elif (HERE / "services.ts").read_bytes() != data or (HERE / "services.txt").read_text() != listing:
        sys.exit("samples: services.ts and services.txt are not what samples/services.py says: run it")
    print(f"samples: {len(data) // 188} packets with a service table")


if __name__ == "__main__":
    main()
