#!/usr/bin/env bash
# Whole libraries on the proved program: 4,096 small cells against 512, and 2,000 mixed cells against the tools that are
# installed (Icarus Verilog with two testbenches of all vectors, Yosys by SAT). Prints ratios measured in this run.
set -eu
top=$(cd "$(dirname "$0")/.." && pwd)
room=$(mktemp -d)
trap 'rm -rf "$room"' EXIT
"$top/qual" compare >/dev/null || true
program=$top/crates/qual_cli/out/qual_cli
# The mean processor time of so many runs. A run of few cells takes some milliseconds, of which the least is no steady
# measure.
seconds() {
  python3 - "$@" <<'PY'
import resource, subprocess, sys
runs = int(sys.argv[1])
before = resource.getrusage(resource.RUSAGE_CHILDREN)
for _ in range(runs):
    subprocess.run(sys.argv[2:], stdout=subprocess.DEVNULL, check=False)
after = resource.getrusage(resource.RUSAGE_CHILDREN)
took = after.ru_utime - before.ru_utime + after.ru_stime - before.ru_stime
print(f"{took / runs:.4f}")
PY
}
for cells in 512 4096; do
  mkdir "$room/$cells"
  python3 "$top/bench/make_cells.py" "$room/$cells" "$cells" small
done
few=$(seconds 40 "$program" compare --liberty "$room/512/cells.lib" --verilog "$room/512/cells.v")
many=$(seconds 20 "$program" compare --liberty "$room/4096/cells.lib" --verilog "$room/4096/cells.v")
python3 -c "print(f'4,096 cells $many s, 512 cells $few s, ratio {$many/$few:.2f}')"

mkdir "$room/mixed"
python3 "$top/bench/make_cells.py" "$room/mixed" 2000 mixed
"$program" compare --liberty "$room/mixed/cells.lib" --verilog "$room/mixed/cells.v" >"$room/report" || true
tail -2 "$room/report" | head -1
awk '/^vectors /{n+=$2} END{print n " vectors"}' "$room/report"
ours=$(seconds 20 "$program" compare --liberty "$room/mixed/cells.lib" --verilog "$room/mixed/cells.v")
echo "2,000 mixed cells $ours s"
cd "$room/mixed"
if command -v iverilog >/dev/null; then
  for form in looped listed; do
    icarus=$(seconds 3 sh -c "iverilog -o $form.vvp $form.v cells.v && vvp $form.vvp")
    python3 -c "print(f'Icarus Verilog, vectors $form, $icarus s, {$icarus/$ours:.0f} times as long')"
  done
fi
if command -v yosys >/dev/null; then
  # One run, and at most five minutes of it.
  yosys=$(seconds 1 timeout 300 yosys -q cells.ys)
  python3 -c "print(f'Yosys $yosys s, {$yosys/$ours:.0f} times as long')"
fi
