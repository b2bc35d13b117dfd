#!/bin/sh
# Writes a Liberty file and measures a program on it: on_liberty.sh CRATE MEASURE.py MEGABYTES
set -eu
cd "$(dirname "$0")/.."
program=crates/$1/out/$1
[ -x "$program" ] || (cd "crates/$1" && rt run > /dev/null)
file=$(mktemp)
trap 'rm -f "$file"' EXIT
python3 bench/make_liberty.py "$3" "$file"
python3 "bench/$2" "$program" "$file"
