#!/usr/bin/env python3
"""The command ./account as a user meets it: its words, files that cannot be read, a full disk, a symbolic link, a
program that is older than its sources; and --why and --pid, whose account is the one that samples/make.py keeps and
whose refusals are told here by rules of their own.
"""
import os
import shutil
import subprocess
import sys
import tempfile
from pathlib import Path

TOP = Path(__file__).resolve().parent.parent.parent
sys.path.insert(0, str(TOP / "samples"))
import make  # noqa: E402

ACCOUNT = TOP / "account"
STREAM = TOP / "samples/stream.ts"


def run(*words, account=ACCOUNT, folder=TOP, data=None, out=subprocess.PIPE):
    done = subprocess.run([account, *words], cwd=folder, input=data, stdout=out, stderr=subprocess.PIPE)
    return done.returncode, (done.stdout or b"").decode(), done.stderr.decode()


def expect(name, ran, status, out, *said):
    """This status and standard output, and these words on standard error; nothing there where none are named."""
    missing = [word for word in said if word not in ran[2]]
    if ran[:2] != (status, out) or missing or (not said and ran[2]):
        met = f"status {ran[0]}, it wrote {ran[1]!r} and said {ran[2]!r}"
        sys.exit(f"account: {name}: {met}; expected {status}, {out!r}, {said}")
    print(f"account: {name}: as expected")


def words():
    status, out, said = run("--help")
    if status or said or not out.startswith("usage: account "):
        sys.exit(f"account: --help: status {status}, it wrote {out!r} and said {said!r}")
    for wrong in (["--all"], ["-w"], ["a", "b"], ["--pid"], ["--pid", "2000"], ["--pid", "0x"], ["--pid", "SDT"]):
        expect(" ".join(wrong), run(*wrong), 2, "", "account: ", "usage: account ")


def files(room):
    text = make.account(STREAM.read_bytes())
    expect("no such file", run("nowhere"), 1, "", "nowhere: there is no such file")
    expect("a directory", run("samples"), 1, "", "samples: it is a directory")
    for word in ([], ["--why"]):
        with open("/dev/full", "wb") as full:
            ran = run(*word, STREAM, out=full)
        expect(" ".join(["a full disk"] + word), ran, 1, "", "standard output: ", "No space left on device")
    spaced = room / "a stream.ts"
    shutil.copy(STREAM, spaced)
    link = room / "linked"
    link.symlink_to(ACCOUNT)
    expect("a symbolic link, from another folder", run("a stream.ts", account=link, folder=room), 0, text)
    expect("standard input as -", run("-", data=STREAM.read_bytes()), 0, text)


def sources(room):
    """A copy of what the program rests on, with all that was proved of it."""
    copy = room / "a copy"
    lines = (TOP / "crates.txt").read_text().split("\n")
    rests = ["account"]
    for line in reversed(lines):  # each names crates above it
        if line.split(":")[0] in rests:
            rests += [crate for crate in line.split(":")[1].split() if (TOP / "crates" / crate).is_dir() and crate not in rests]
    for crate in rests:
        shutil.copytree(TOP / "crates" / crate, copy / "crates" / crate)
    for name in ("account", "tools/x86-64", "target/bin/account"):
        (copy / name).parent.mkdir(parents=True, exist_ok=True)
        shutil.copy2(TOP / name, copy / name)
    listed = [line for line in lines if line.split(":")[0] in rests]
    (copy / "crates.txt").write_text("\n".join(listed) + "\n")
    account = copy / "account"
    text = make.account(STREAM.read_bytes())
    expect("sources that are newer", run(STREAM, account=account), 0, text, "proved and compiled after")
    expect("the same again", run(STREAM, account=account), 0, text)
    with open(copy / "crates/account/src/listing.rt", "a") as file:
        file.write("fn not a function\n")
    expect("sources that are newer and wrong", run(STREAM, account=account), 1, "", "only a proved crate is built")


def refused(data, pid):
    """number -> how many packets, where the first begins"""
    found = {}
    for at in range(0, len(data), 188):
        p = data[at : at + 188]
        control = p[3] >> 4 & 3 if len(p) == 188 else 0
        payload = 184 if control == 1 else 183 - p[4] if control == 3 else 0
        rules = [(41, len(p) < 188), (44, p[0] != 0x47), (45, p[1] & 0x80)]
        rules += [(46, (p[1] & 31) << 8 | p[2] != pid), (47, p[3] & 0xC0)]
        rules += [(48, control == 0 or control == 3 and p[4] > 182 or control == 2 and p[4] != 183)]
        rules += [(49, payload and p[1] & 0x40 and p[188 - payload] > payload - 2)]
        number = next((number for number, holds in rules if holds), 0)
        count, first = found.get(number, (0, at))
        found[number] = (count + 1, first)
    found.pop(0, None)
    return sorted(found.items())


def told(data, pid):
    return [
        f"{number}: {count} packet{'s' if count > 1 else ''}, the first at byte {first}. "
        for number, (count, first) in refused(data, pid)
    ]


def why():
    data = STREAM.read_bytes()
    hint = "1 other PID, which --pid chooses: 0011 (SDT, BAT) 4\n"
    expect("--why", run("--why", STREAM), 0, make.account(data), *told(data, 0x14), hint)
    services = (TOP / "samples/services.ts").read_bytes()
    for pid in (0x11, 0x12, 0x1234):
        words = ("--why", "--pid", f"{pid:04X}")
        ran = run(*words, data=services)
        expect(" ".join(words), ran, 0, make.account(services, pid), *told(services, pid), "which --pid chooses:")
    packets = [data[at : at + 188] for at in range(0, 188 * 40, 188)]
    long = b"".join(p + bytes(range(16)) for p in packets)
    stamped = b"".join(bytes(4) + p for p in packets)
    for name, stream, hint in (
        ("packets of 204 bytes", long, "0x47 stands at every 204 bytes from byte 0 on: packets of 204 bytes"),
        ("packets of 192 bytes", stamped, "0x47 stands at every 192 bytes from byte 4 on: packets of 192 bytes"),
        ("half a packet first", b"".join(packets[:20])[100:], "0x47 stands at every 188 bytes from byte 88 on: leave"),
    ):
        pid = (stream[1] & 31) << 8 | stream[2]
        expect(name, run("--why", data=stream), 0, make.account(stream), *told(stream, pid), hint)
    worked = TOP / "crates/account"
    text = (worked / "stdout").read_text()
    expect("--why, nothing refused", run("--why", worked / "stdin"), 0, text, "no packet was refused")
    expect("--why, no packets", run("--why", data=data[:187]), 0, "no packets\n")


def main():
    with tempfile.TemporaryDirectory() as folder:
        words()
        files(Path(folder))
        sources(Path(folder))
    why()


if __name__ == "__main__":
    main()
