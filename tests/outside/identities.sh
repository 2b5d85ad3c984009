#!/bin/sh
# The identities that the head of crates/crc/src/lib.rt prints.
set -eu
cd "$(dirname "$0")/../.."
python3 tests/identities.py
