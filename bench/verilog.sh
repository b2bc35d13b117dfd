#!/bin/sh
# Prints how many times as fast as sha256sum reads a Verilog file of 20 MB the proved reader reads it.
set -eu
cd "$(dirname "$0")/.."
program=crates/source_count/out/source_count
[ -x "$program" ] || (cd crates/source_count && rt run > /dev/null)
file=$(mktemp)
trap 'rm -f "$file"' EXIT
python3 bench/make_verilog.py "${1:-20}" "$file"
python3 bench/verilog.py "$program" "$file"
