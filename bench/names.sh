#!/bin/sh
# Prints how the time to read a Liberty file grows with its cells and pins.
set -eu
cd "$(dirname "$0")/.."
program=crates/library_count/out/library_count
[ -x "$program" ] || (cd crates/library_count && rt run > /dev/null)
exec python3 bench/names.py "$program"
