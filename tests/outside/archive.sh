#!/bin/sh
# What several of the tests run is made here once: the archive, and the programs over it.
set -eu
cd "$(dirname "$0")/../.."
tests/outside/second/build
make >target/make.log 2>&1 || { cat target/make.log; exit 1; }
