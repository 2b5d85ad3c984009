#!/usr/bin/env python3
"""The two lists of bytes of stack side by side: table.py CODE USED [--check]. With --check they are held to what README.md and the header state."""
import re
import sys
from pathlib import Path

TOP = Path(__file__).resolve().parent.parent.parent
LIMIT, LIMIT_OF_WRITERS = 65536, 512
# a row of README.md, and a line of the header
STATED = {
    "README.md": re.compile(r"^\| `?(lohitunga_\w+|every other)`? \| ([\d,]+) \|", re.M),
    "include/lohitunga.h": re.compile(r"^ \*   (lohitunga_\w+|every other)\s+([\d,]+)$", re.M),
}


def listed(path):
    return {name: int(n) for name, n in (line.split() for line in Path(path).read_text().splitlines())}


def main():
    code, used = listed(sys.argv[1]), listed(sys.argv[2])
    bad = []
    if code.keys() != used.keys():
        bad.append(f"measured and exported differ: {sorted(code.keys() ^ used.keys())}")
    for name in sorted(code, key=lambda n: (-code[n], n)):
        print(f"{name:36} {code[name]:6,} {used.get(name, 0):6,}")
        if used.get(name, 0) > code[name]:
            bad.append(f"{name} used {used[name]} bytes")
        limit = LIMIT_OF_WRITERS if name.startswith("lohitunga_write_") else LIMIT
        if code[name] > limit:
            bad.append(f"{name} needs more than {limit} bytes")
    if "--check" in sys.argv:
        for where, row in STATED.items():
            stated = {name: int(n.replace(",", "")) for name, n in row.findall((TOP / where).read_text())}
            bad += [f"{where} says too little of {name}" for name in code if code[name] > stated.get(name, stated.get("every other", 0))]
            bad += [f"{where} names {name}, which is not exported" for name in stated if name not in code and name != "every other"]
    if bad:
        sys.exit("stack: " + "; ".join(bad))


if __name__ == "__main__":
    main()
