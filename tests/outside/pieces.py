#!/usr/bin/env python3
"""The account program on a stream of some megabytes, as a file and through a pipe in pieces of odd sizes, and on reads that fail.

Each account is the one that samples/make.py keeps by its own rules. A pipe in packet mode hands out one write at a read, so the
program meets reads of just these sizes: a packet is cut at every place, and what is left over goes to the front again and again.
"""
import os
import subprocess
import sys
import tempfile
from pathlib import Path

TOP = Path(__file__).resolve().parent.parent.parent
sys.path.insert(0, str(TOP / "samples"))
import make  # noqa: E402


def said(stdin, feed=None):
    """Status, standard output and standard error of ./account on this input, while feed writes it."""
    run = subprocess.Popen([TOP / "account"], stdin=stdin, stdout=subprocess.PIPE, stderr=subprocess.PIPE)
    if feed:
        os.close(stdin)
        feed()
    out, error = run.communicate()
    return run.returncode, out.decode(), error.decode()


def piped(data, size):
    packets = size <= 4096  # a longer write is no one packet
    out, into = os.pipe2(os.O_DIRECT) if packets else os.pipe()

    def feed():
        for at in range(0, len(data), size):
            piece = data[at : at + size]
            while piece:
                piece = piece[os.write(into, piece) :]
        os.close(into)

    return said(out, feed)


def fails(name, ran, word):
    status, out, error = ran
    if status == 0 or out or word not in error:
        sys.exit(f"account: {name}: status {status}, it wrote {out!r} and said {error!r}")
    print(f"account: {name}: told on standard error, status {status}")


def fits(name, account, ran):
    status, out, error = ran
    if (status, out, error) != (0, account, ""):
        sys.exit(f"account: {name}: status {status}, not what is expected:\n{out}{error}expected:\n{account}")
    print(f"account: {name}: as expected")


def main():
    whole = make.stream(9000)
    account = make.account(whole)
    with tempfile.TemporaryFile() as file:
        file.write(whole)
        file.seek(0)
        fits(f"a file of {len(whole):,} bytes", account, said(file))
    for size in (101, 187, 189, 65537):
        fits(f"{len(whole):,} bytes through a pipe, {size:,} at a time", account, piped(whole, size))
    short = whole[: 188 * 150 + 77]
    fits(f"{len(short):,} bytes through a pipe, one at a time", make.account(short), piped(short, 1))

    folder = os.open("/", os.O_RDONLY)
    fails("a folder for the input", said(folder), "standard input: ")
    out, into = os.pipe()
    os.set_blocking(out, False)
    os.write(into, whole[: 188 * 3 + 5])
    fails("a read that fails behind three packets", said(out), "standard input: ")


if __name__ == "__main__":
    main()
