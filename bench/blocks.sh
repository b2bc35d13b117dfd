#!/bin/sh
# How many blocks a second are written and read: that of an inverter that is qualified, and that of a cell with findings.
set -eu
cd "$(dirname "$0")/.."
program=crates/block_bench/out/block_bench
[ -x "$program" ] || (cd crates/block_bench && rt run -- neither data/inverter.txt 1 > /dev/null)
python3 bench/blocks.py "$program" crates/block_bench/data/inverter.txt crates/block_bench/data/findings.txt
