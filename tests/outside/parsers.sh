#!/bin/sh
# The library, through its C interface, against five parsers that nobody here wrote. The seed is one for all time: they may have faults that nobody
# has met yet.
set -eu
cd "$(dirname "$0")/../.."
tests/outside/second/parsers 300468 100000
