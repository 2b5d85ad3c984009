#!/bin/sh
# The C example over the archive: the services of the shipped streams, held to stored listings.
set -eu
cd "$(dirname "$0")/../.."
room=$(mktemp -d)
trap 'rm -rf "$room"' EXIT

python3 samples/services.py --check

says() { # NAME LISTING WORDS
    name=$1 listing=$2
    shift 2
    examples/run "$@" >"$room/said"
    cmp -s "$room/said" "$listing" || { echo "services: $name: not what is expected:"; diff "$listing" "$room/said"; exit 1; }
    echo "services: $name: as expected"
}
echo "no service table" >"$room/none"
: >"$room/empty"
head -c 3000 samples/services.ts >"$room/cut"
{ sed '/section 2 of 2/,$d' samples/services.txt; echo "the next section that is missing: 2"; } >"$room/cut.txt"
says 'the shipped table' samples/services.txt samples/services.ts
says 'a stream that ends before the last section' "$room/cut.txt" "$room/cut"
says 'another PID' "$room/none" samples/services.ts 0014
says 'no input' "$room/none" "$room/empty"
