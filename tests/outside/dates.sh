#!/bin/sh
# docs/DATES.md: its twelve numbers are the list's, its dates and its steps the library's.
set -eu
cd "$(dirname "$0")/../.."
. tools/x86-64
archive cabinet
compiler
emulator
out=target/dates
mkdir -p "$out"
$cc -std=c11 -O2 -Wall -Wextra -Werror -Iinclude $static tests/outside/documents/date.c target/staticlib/libcabinet.a -o "$out/date"
seq 15078 65535 | $before "$out/date" >"$out/dates"
python3 tests/outside/documents/dates.py docs/DATES.md crates/calendar/src/lib.rt "$out/dates"
