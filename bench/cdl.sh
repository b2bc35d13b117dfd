#!/bin/sh
# Prints how many times as fast as sha256sum reads a CDL netlist of 50 MB the proved reader reads it.
set -eu
cd "$(dirname "$0")/.."
program=crates/cdl_count/out/cdl_count
[ -x "$program" ] || (cd crates/cdl_count && rt run > /dev/null)
file=$(mktemp)
trap 'rm -f "$file"' EXIT
for kind in extracted transistors short; do
    echo "$kind:"
    python3 bench/make_cdl.py "${1:-50}" "$kind" "$file"
    python3 bench/verilog.py "$program" "$file"
done
