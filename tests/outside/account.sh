#!/bin/sh
# The account program on the shipped stream, on the worked packet, on nothing, on 187 bytes, on a stream with a cut last piece; by pieces.py on a stream
# of some megabytes as a file and through a pipe in pieces of odd sizes, and on reads that fail; on streams from a fresh seed, whose accounts the second
# implementation keeps.
set -eu
cd "$(dirname "$0")/../.."
room=$(mktemp -d)
trap 'rm -rf "$room"' EXIT

python3 samples/make.py --check

says() { # NAME INPUT LISTING
    ./account "$2" >"$room/said"
    cmp -s "$room/said" "$3" || { echo "account: $1: not what is expected:"; diff "$3" "$room/said"; exit 1; }
    echo "account: $1: as expected"
}
echo "no packets" >"$room/none"
: >"$room/empty"
head -c 187 samples/stream.ts >"$room/187"
{ cat crates/account/stdin; head -c 100 samples/stream.ts; } >"$room/cut"
sed 's/^refused 0$/refused 1/' crates/account/stdout >"$room/cut.txt"
says 'the shipped stream' samples/stream.ts samples/stream.txt
says 'the worked packet' crates/account/stdin crates/account/stdout
says 'no input' "$room/empty" "$room/none"
says '187 bytes' "$room/187" "$room/none"
says 'a cut last piece' "$room/cut" "$room/cut.txt"
python3 tests/outside/pieces.py
seed=$(od -An -N4 -tu4 /dev/urandom | tr -d ' ')
tests/outside/second/streams "$seed" 120
