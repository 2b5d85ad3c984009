#!/bin/sh
# The library as a user of C gets it: installed, and out of the tar file, with the header's own first program against
# the static and the shared library.
set -eu
cd "$(dirname "$0")/../.."
. tools/x86-64
compiler
emulator
need make make
need pkg-config pkgconf
room=$(mktemp -d)
trap 'rm -rf "$room"' EXIT
quiet() { "$@" >"$room/log" 2>&1 || { cat "$room/log"; exit 1; }; }
bad() { echo "install: $*"; exit 1; }

quiet make install PREFIX="$room/usr"
quiet make dist
version=$(sed -n 's/^#define LOHITUNGA_VERSION "\(.*\)"$/\1/p' include/lohitunga.h)
interface=$(sed -n 's/^#define LOHITUNGA_INTERFACE //p' include/lohitunga.h)
tar xzf "target/lohitunga-$version-x86_64-linux.tar.gz" -C "$room"

# the program at the head of the header, as it stands there
sed -n '/^ \*     #include/,/^ \*     }$/s/^ \*     //p' include/lohitunga.h >"$room/first.c"
lines=$(wc -l <"$room/first.c")
[ "$lines" -ge 8 ] || bad "the header's first program has $lines lines"
# samples/services.py packs four, three and two whole sections, two of which are rejected, and one that loses a packet
sections=7 rejected=676

says() { # WHAT WORDS: the program says how many good sections the shipped stream has, and how many bytes of others
    what=$1
    shift
    "$@" <samples/services.ts >"$room/said" || bad "$what: the program fails"
    grep -q "^$sections sections of .*, $rejected bytes rejected\$" "$room/said" || bad "$what: the program says $(cat "$room/said")"
}
for place in "$room/usr" "$room/lohitunga-$version-x86_64-linux"; do
    # nothing of this folder and no kit: the user has the installed files alone
    asked() { (cd / && env -i PATH=/usr/bin:/bin PKG_CONFIG_PATH="$place/lib/pkgconfig" pkg-config "$@" lohitunga); }
    [ "$(asked --modversion)" = "$version" ] || bad "pkg-config says $(asked --modversion)"
    words="-std=c99 -Wall -Wextra -Werror -pedantic $(asked --cflags)"
    $cc $words $static "$room/first.c" "$(asked --variable=libdir)/liblohitunga.a" -o "$room/static"
    says "static, $place" $before "$room/static"
    $cc $words "$room/first.c" $(asked --libs) -o "$room/shared"
    $objdump -p "$room/shared" >"$room/parts"
    grep -q "NEEDED *liblohitunga.so.$interface\$" "$room/parts" || bad "the program names no liblohitunga.so.$interface"
    # where programs are emulated there is no C library to share
    [ -n "$static" ] || says "shared, $place" env LD_LIBRARY_PATH="$place/lib" "$room/shared"
done
# the program that comes with the library, as `./account --pid` makes it
for place in "$room/usr" "$room/lohitunga-$version-x86_64-linux"; do
    $before "$place/bin/lohitunga-account" <samples/stream.ts >"$room/said" || bad "lohitunga-account fails"
    cmp -s "$room/said" samples/stream.txt || bad "lohitunga-account says $(cat "$room/said")"
done
[ -e "$room/usr/share/doc/lohitunga/LICENSE" ] || bad "no LICENSE among the documents"

# the shared library has the header's calls and no other name
sed -n '/^static inline/!s/^[a-z].* \(lohitunga_[a-z0-9_]*\)(.*/\1/p' include/lohitunga.h | sort >"$room/declared"
"${objdump%objdump}nm" -D --defined-only "$room/usr/lib/liblohitunga.so" | sed 's/.* //' | sort >"$room/exported"
cmp -s "$room/declared" "$room/exported" || bad "declared and exported differ: $(diff "$room/declared" "$room/exported")"
echo "install: the header's first program, $lines lines, runs with the installed library and that of the tar file"
