#!/bin/sh
# Times of responses and waits of transistor networks, and how a chain of 512 compares with one of 64, in one run.
set -e
cd "$(dirname "$0")/../crates/switch_bench"
rt run -- measure | awk '
  /^(chain|inverters) / { print }
  $1 == "chain" { time[$2, $4] = $6 }
  END {
    for (against = 0; against < 2; against++) {
      word = against ? "true" : "false"
      if (time[64, word] > 0) printf "chain against %s: 512 costs %.1f times 64\n", word, time[512, word] / time[64, word]
    }
  }'
