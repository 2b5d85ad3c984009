#!/bin/sh
# The library, through its C interface, against values that the documents print and against a second implementation of document 01, on cases from a
# fresh seed: a difference is a fault on one side or the other.
set -eu
cd "$(dirname "$0")/../.."
seed=$(od -An -N4 -tu4 /dev/urandom | tr -d ' ')
tests/outside/second/run "$seed" 100000
echo "second: all as it should be, with seed $seed"
