#!/bin/sh
# Prints how many times as fast as sha256sum reads a Liberty file of 100 MB the proved reader reads it.
exec "$(dirname "$0")/on_liberty.sh" library_count liberty.py "${1:-100}"
