#!/bin/sh
# How long the 4,096 vectors of a function of 12 inputs and 200 tokens take on the proved program, against sha256sum of as
# many bytes as tokens are worked, and against a function of 50 tokens, in one run.
set -eu
cd "$(dirname "$0")/.."
program=crates/meaning_count/out/meaning_count
[ -x "$program" ] || (cd crates/meaning_count && rt run > /dev/null)
room=$(mktemp -d)
trap 'rm -rf "$room"' EXIT
for tokens in 50 200; do python3 bench/make_function.py "$tokens" "$room/$tokens.lib" > /dev/null; done
python3 bench/functions.py "$program" "$room"
