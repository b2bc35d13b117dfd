#!/bin/sh
# Prints how many times as fast as sha256sum reads a Liberty file of 100 MB the proved tokenizer cuts it into tokens.
exec "$(dirname "$0")/on_liberty.sh" token_count tokens.py "${1:-100}"
