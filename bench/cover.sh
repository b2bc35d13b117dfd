#!/bin/sh
# How long it takes to ask which row covers, of 16,384 rows against 1,024; and the memory that reading 128 MB of tables takes.
set -eu
cd "$(dirname "$0")/.."
program=crates/cover_bench/out/cover_bench
[ -x "$program" ] || (cd crates/cover_bench && rt run > /dev/null)
room=$(mktemp -d)
trap 'rm -rf "$room"' EXIT
python3 bench/make_tables.py "$room/small" 1024
python3 bench/make_tables.py "$room/large" 16384
python3 bench/make_tables.py "$room/many" 54 600 128
python3 bench/make_tables.py "$room/long" 16384 600 128
python3 bench/cover.py "$program" "$room/small" "$room/large" "$room/many" "$room/long"
