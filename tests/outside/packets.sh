#!/bin/sh
# The C example that puts a file of sections into packets: its streams, and what ./account says of them.
set -eu
cd "$(dirname "$0")/../.."
mkdir -p target/examples
examples/build examples/packets.c target/examples/packets
. tools/x86-64
python3 tests/outside/packets.py $before target/examples/packets
