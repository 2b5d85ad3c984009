#!/usr/bin/env python3
"""Makes samples/stream.ts, a short stream of one PID, and samples/stream.txt, its account.

    samples/make.py            writes both
    samples/make.py --check    says whether the two are what this file says, and changes nothing

NIT, BAT, SDT, EIT, TDT and TOT sections, packed end to end; and what happens to streams: a gap, repeated packets, a splice, splices that the
sender marks, packets that document 01 refuses, adaptation fields, sections that the judge rejects, a section whose length no section can have, a
last piece that is cut. The account is kept here by rules of its own, byte by byte from document 01 and requests (viii) and (ix) of document 02,
with the judge of tests/sections.py, and not by the library.
"""
import random
import sys
from pathlib import Path

sys.path.insert(0, str(Path(__file__).resolve().parent.parent / "tests"))
import sections as made  # noqa: E402

HERE = Path(__file__).resolve().parent
PID = 0x0014


def packet(payload, counter, start, pid=PID, sync=0x47, error=0, scrambling=0, flags=0):
    """A packet with this payload; what is short of 184 bytes an adaptation field with these flags fills."""
    head = bytes([sync, error << 7 | start << 6 | pid >> 8, pid & 255])
    room = 184 - len(payload)
    if room == 0:
        return head + bytes([scrambling << 6 | 0x10 | counter]) + payload
    field = b"" if room == 1 else bytes([flags]) + b"\xFF" * (room - 2)
    return head + bytes([scrambling << 6 | (0x30 if payload else 0x20) | counter, room - 1]) + field + payload


def packed(sections, counter, pid=PID):
    """Packets that carry the sections end to end."""
    out, rest, waiting = [], b"", list(sections)
    while rest or waiting:
        left = len(rest)
        if left >= 184 or not waiting or left == 183:
            body = (rest[:184] + b"\xFF" * 184)[:184]
            rest = rest[184:]
            start = 0
            if left == 0:
                body, start = b"\x00" + waiting[0][:183], 1
                rest = waiting.pop(0)[183:]
                body = (body + b"\xFF" * 184)[:184] if not waiting else body
        else:
            body, start = bytes([left]) + rest, 1
            rest = b""
        while start and len(body) < 184 and waiting:
            piece = waiting.pop(0)
            space = 184 - len(body)
            body, rest = body + piece[:space], piece[space:]
        out.append(packet((body + b"\xFF" * 184)[:184], counter % 16, start, pid))
        counter += 1
    return out, counter


MARK = 0x80  # discontinuity_indicator
LONG = made.sdt(made.service(made.NAME) * 30)  # byte 183, with which the second of its packets begins, is above 127


def marked(counter):
    """Packets from this counter on: splices that the sender marks inside a section, and a field that marks none."""
    begun, rest = b"\x00" + LONG[:183], LONG[183:]
    whole = b"\x00" + made.TDT
    out = [
        (begun, 0, 1, 0),
        (whole + b"\xFF" * (100 - len(whole)), 0, 1, MARK),  # the counter of the packet before: not repeated
        (begun, 1, 1, 0),
        (rest, 2, 0, MARK),  # the next counter: the section does not go on
        (begun, 3, 1, 0),
        (b"", 3, 0, MARK),  # no payload: the section does not go on in the packet behind
        ((rest + b"\xFF" * 184)[:184], 4, 0, 0),
        (begun, 5, 1, 0),
        ((rest + b"\xFF" * 184)[:183], 6, 0, 0),  # no mark: the field is empty, and the byte above 127 is payload
    ]
    return [packet(payload, (counter + more) % 16, start, flags=flags) for payload, more, start, flags in out]


def stream(count=60):
    """Each table once and then so many sections chosen among them, as packets with what happens to streams."""
    rng = random.Random(412)
    tables = [
        made.nit(top=made.loop(made.NAME), second=made.loop(made.entry(made.LIST) * 20)),
        made.sdt(made.service(made.NAME) * 12),
        made.nit(table_id=0x4A, top=made.loop(made.NAME)),
        made.eit(made.event(made.filled(200)) * 14),
        made.eit(made.event(made.filled(60)) * 3, table_id=0x50),
        made.TDT,
        made.tot(made.loop(bytes.fromhex("580D4742520200 00C0791245000100"))),
    ]
    rejected = [
        b"\x72\x70\x02\x00\x00",  # a stuffing table
        made.section(0x73, made.TIME + made.loop(b""), syntax=1),
        made.nit(top=made.loop(made.filled(1022 - 13))),
        tables[1][:-1] + bytes([tables[1][-1] ^ 1]),  # a wrong CRC_32
        made.nit(head=made.ABOVE),
        made.eit(made.event(made.filled(60), 40)),  # a loop that claims forty bytes more than its section has, under a right CRC_32
        made.sdt(made.service(made.NAME + b"\x48")),
        made.sdt(made.service(made.NAME) + b"\x00"),
    ]
    chosen = [rejected[i // 7 % len(rejected)] if i % 7 == 3 else rng.choice(tables) for i in range(count)]
    packets, _ = packed(tables + chosen, 0)
    out = []
    for i, p in enumerate(packets):
        if i % 41 == 40:
            continue  # a gap
        out.append(p)
        if i % 37 == 20:
            out += [p, p]  # repeated
        if i % 53 == 30:
            out.append(packet(b"", p[3] % 16, 0, flags=0x40))  # no payload, and another flag than the mark
        if i % 61 == 10:  # refused: another sync, an error, another PID, scrambled, no adaptation control, a pointer past the payload
            out += [b"\x00" + p[1:], packet(p[4:], p[3] % 16, 0, error=1), packet(p[4:], p[3] % 16, 0, pid=0x11), packet(p[4:], p[3] % 16, 0, scrambling=2)]
            out += [p[:3] + bytes([p[3] % 16]) + p[4:], packet(b"\xB7" + p[5:], (p[3] + 1) % 16, 1)]
        if i % 89 == 50:
            out.append(packet(p[4:104], (p[3] + 9) % 16, 0))  # a splice
        if i % 97 == 70:
            out += marked(p[3] + 1)
    last = out[-1][3] % 16
    out.append(packet(b"\x00\x42\xFF\xFF" + b"\x00" * 180, (last + 1) % 16, 1))  # a section_length of 4,095
    out.append(packet(b"\x00" + b"\xFF" * 183, (last + 2) % 16, 1))
    out.append(packet(b"\x00" + tables[0][:183], (last + 3) % 16, 1))  # a section that stays in hand
    return b"".join(out) + out[0][:100]


def account(data, pid=None):
    """Document 01's rules and requests (viii) and (ix), a byte at a time; the PID is that of the first packet, or another."""
    if len(data) < 188:
        return "no packets\n"
    if pid is None:
        pid = (data[1] & 31) << 8 | data[2]
    n = dict.fromkeys(["taken", "repeated", "refused", "pointer", "accepted", "rejected", "broken", "filler", "skipped"], 0)
    hand, last, sections, mark = b"", None, 0, False

    def stretch(payload, begin):
        """The bytes of one stretch; begin: sections may begin in it. The bytes in hand after it."""
        nonlocal hand, sections
        lost = "filler" if hand else "skipped"
        for i, byte in enumerate(payload):
            if not hand and (not begin or byte == 0xFF):
                n[lost if not begin else "filler"] += len(payload) - i
                return
            hand += bytes([byte])
            if len(hand) < 3:
                continue
            size = 3 + ((hand[1] & 15) << 8 | hand[2])
            if size > 4096:
                n["broken"] += len(hand) + len(payload) - i - 1
                hand = b""
                return
            if len(hand) == size:
                accepted = made.judge(hand) == made.ACCEPTED
                n["accepted" if accepted else "rejected"] += size
                sections += accepted
                hand = b""

    for at in range(0, len(data), 188):
        p = data[at : at + 188]
        if len(p) < 188 or p[0] != 0x47 or p[1] & 0x80 or (p[1] & 31) << 8 | p[2] != pid or p[3] & 0xC0:
            n["refused"] += 1
            continue
        control, counter, start = p[3] >> 4 & 3, p[3] & 15, p[1] >> 6 & 1
        if control == 0 or control == 3 and p[4] > 182 or control == 2 and p[4] != 183:
            n["refused"] += 1
            continue
        payload = b"" if control == 2 else p[4:] if control == 1 else p[5 + p[4] :]
        if control != 2 and start and (len(payload) < 2 or payload[0] > len(payload) - 2):
            n["refused"] += 1
            continue
        if control != 1 and p[4] > 0 and p[5] >= 0x80:
            mark = True
        if control == 2:
            n["taken"] += 1
            continue
        if counter == last and not mark:
            n["repeated"] += 1
            continue
        n["taken"] += 1
        if mark or last is not None and counter != (last + 1) % 16:
            n["broken"] += len(hand)
            hand = b""
        last, mark = counter, False
        if not start:
            stretch(payload, False)
            continue
        n["pointer"] += 1
        target = 1 + payload[0]
        stretch(payload[1:target], False)
        n["broken"] += len(hand)
        hand = b""
        stretch(payload[target:], True)
    lines = [f"PID {pid:04X}"] + [f"{k} {v % 2**32 if k not in ('taken', 'repeated', 'refused') else v}" for k, v in n.items()]
    return "\n".join(lines + [f"in hand {len(hand)}", f"sections {sections}"]) + "\n"


def main():
    data = stream()
    text = account(data)
    if "--check" not in sys.argv:
        (HERE / "stream.ts").write_bytes(data)
        (HERE / "stream.txt").write_text(text)
    elif (HERE / "stream.ts").read_bytes() != data or (HERE / "stream.txt").read_text() != text:
        sys.exit("samples: stream.ts and stream.txt are not what samples/make.py says: run it")
    print(f"samples: {len(data) // 188} packets")


if __name__ == "__main__":
    main()
