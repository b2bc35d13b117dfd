#!/bin/sh
# Appends a second on a real file and how much of their time is the disk's syncing, and the bytes that opening a full journal
# reads: journal.sh [FOLDER], where FOLDER is on the disk to be measured.
set -eu
folder=$(realpath "${1:-.}")
cd "$(dirname "$0")/.."
program=$PWD/crates/journal_bench/out/journal_bench
[ -x "$program" ] || (cd crates/journal_bench && rt run -- 3 5 kept > /dev/null)
python3 bench/journal.py "$program" "$folder"
