#!/bin/sh
# Prints how many times as fast as sha256sum reads a LEF file of 100 MB the proved reader reads it, and what memory it takes.
set -eu
cd "$(dirname "$0")/.."
program=crates/lef_count/out/lef_count
[ -x "$program" ] || (cd crates/lef_count && rt run > /dev/null)
file=$(mktemp)
trap 'rm -f "$file"' EXIT
python3 bench/make_lef.py "${1:-100}" "$file"
python3 bench/verilog.py "$program" "$file"
python3 bench/peak.py "$program" "$file"
