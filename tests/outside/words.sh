#!/bin/sh
# The command ./account as a user meets it: its words, --why and --pid.
set -eu
cd "$(dirname "$0")/../.."
python3 tests/outside/words.py
