#!/bin/sh
# The stack that the calls for C need: no more than README.md and the header say.
set -eu
cd "$(dirname "$0")/../.."
room=$(mktemp -d)
trap 'rm -rf "$room"' EXIT
bench/stack/run --check >"$room/said" || { cat "$room/said"; exit 1; }
echo "stack: $(wc -l <"$room/said") calls, at most $(awk 'NR == 1 { print $2 }' "$room/said") bytes, as stated"
