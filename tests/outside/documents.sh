#!/bin/sh
# What the documents show is what the library says: the sheets and sections of docs/SHEETS.md, each turned into the other, and the refused bytes of
# docs/REFUSALS.md, each with its place.
set -eu
cd "$(dirname "$0")/../.."
. tools/x86-64
archive cabinet
compiler
emulator
out=target/documents
mkdir -p "$out"
for program in turn told; do
    $cc -std=gnu11 -O2 -Wall -Wextra -Werror -Iinclude $static "tests/outside/documents/$program.c" target/staticlib/libcabinet.a -o "$out/$program"
done
grep -E '^(sheet|section) ' docs/SHEETS.md | tr -s ' ' >"$out/shown"
sheets=$(grep -c '^sheet ' "$out/shown")
[ "$sheets" -ge 6 ] || { echo "documents: docs/SHEETS.md shows $sheets sheets"; exit 1; }
# every sheet is followed by its section: turned, the lines change places two by two
awk 'NR % 2 { held = $0; next } { print; print held }' "$out/shown" >"$out/wanted"
$before "$out/turn" <"$out/shown" >"$out/turned"
cmp -s "$out/turned" "$out/wanted" || { echo "documents: docs/SHEETS.md shows what the library does not say:"; diff "$out/wanted" "$out/turned"; exit 1; }
echo "documents: the $sheets sheets of docs/SHEETS.md and their sections are turned into each other"

grep -E ': ([0-9A-F]{2} )+ *gives [0-9]+ at place' docs/REFUSALS.md | tr -s ' ' | sed 's/^ //' >"$out/wanted"
refused=$(wc -l <"$out/wanted")
[ "$refused" -ge 5 ] || { echo "documents: docs/REFUSALS.md shows $refused refusals with their bytes"; exit 1; }
$before "$out/told" <"$out/wanted" >"$out/told.out"
cmp -s "$out/told.out" "$out/wanted" || { echo "documents: docs/REFUSALS.md shows what the library does not say:"; diff "$out/wanted" "$out/told.out"; exit 1; }
echo "documents: the $refused refusals that docs/REFUSALS.md shows in bytes are the library's"
