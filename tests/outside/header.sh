#!/bin/sh
# The header for C: it declares what the source has, field by field; sizes and places; its constants and texts; what may
# be lent; C++.
set -eu
cd "$(dirname "$0")/../.."
. tools/x86-64
archive cabinet
archive desk
compiler
emulator
need "${cc%gcc}g++" $cxx_from
here=tests/outside/header
out=target/header
library="target/staticlib/libcabinet.a target/staticlib/libdesk.a"
mkdir -p "$out"

python3 $here/agree.py
python3 $here/agree.py --layout >"$out/layout"
sed '1,/^$/d' $here/layout.c | cmp -s - "$out/layout" || {
    echo "header: the layout of a struct is not that of $here/layout.c."
    echo "Where that is meant, LOHITUNGA_INTERFACE goes up, and layout.c is written anew:"
    sed '1,/^$/d' $here/layout.c | diff - "$out/layout"
    exit 1
}
flags="-Wall -Wextra -Werror -pedantic -O2 -Iinclude $static"
$cc -std=c11 $flags -c $here/layout.c -o "$out/layout.o"
${cc%gcc}g++ -std=c++11 $flags -x c++ -c $here/layout.c -o "$out/layout.o"
$cc -std=c99 $flags $here/lent.c $library -o "$out/lent"
$cc -std=c99 $flags $here/names.c $library -o "$out/names"
# linked as C: the static libm that Debian's cross packages name is not where they say
${cc%gcc}g++ -std=c++11 $flags -c $here/plus.cc -o "$out/plus.o"
$cc $static "$out/plus.o" $library -o "$out/plus"
$before "$out/lent"
$before "$out/names" >"$out/texts"
python3 $here/agree.py --texts "$out/texts"
echo "header: the names of table ids, tags and refusals are the library's"
echo "header: $(wc -l <"$out/texts") texts, in the words of docs/REFUSALS.md"
$before "$out/plus"
