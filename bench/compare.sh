#!/usr/bin/env bash
# All 4,096 vectors of a cell with 12 inputs, by 64 and by 512 gates, on the proved program: prints ratios measured in this run.
set -eu
top=$(cd "$(dirname "$0")/.." && pwd)
room=$(mktemp -d)
trap 'rm -rf "$room"' EXIT
"$top/qual" compare >/dev/null || true
seconds() {
  python3 - "$@" <<'PY'
import subprocess, sys, time
best = None
for _ in range(5):
    start = time.perf_counter()
    subprocess.run(sys.argv[1:], stdout=subprocess.DEVNULL, check=False)
    took = time.perf_counter() - start
    best = took if best is None else min(best, took)
print(f"{best:.4f}")
PY
}
for gates in 64 512; do
  mkdir "$room/$gates"
  python3 "$top/bench/make_cell.py" "$room/$gates" "$gates"
done
head -c 100000000 /dev/zero >"$room/zeros"
small=$(seconds "$top/qual" compare --liberty "$room/64/cell.lib" --verilog "$room/64/cell.v")
large=$(seconds "$top/qual" compare --liberty "$room/512/cell.lib" --verilog "$room/512/cell.v")
digest=$(seconds sha256sum "$room/zeros")
"$top/qual" compare --liberty "$room/512/cell.lib" --verilog "$room/512/cell.v" | sed -n '2,4p'
python3 -c "print(f'512 gates $large s, 64 gates $small s, ratio {$large/$small:.1f} (gates 8.0); sha256sum of 100 MB $digest s, ratio {$large/$digest:.2f}')"
