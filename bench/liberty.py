"""Against sha256sum, and against Yosys' read_liberty where that is there."""
import shutil
import sys
from fastest import fastest, printed

program, path = sys.argv[1:]
print(printed([program, path]))
sha, read = fastest(["sha256sum", path], 3), fastest([program, path], 3)
print(f"sha256sum {sha:.3f} s, reading {read:.3f} s, ratio {sha / read:.2f}")
if shutil.which("yosys"):
    yosys = fastest(["yosys", "-q", "-p", f"read_liberty {path}"], 1)
    print(f"yosys read_liberty {yosys:.3f} s, ratio {yosys / read:.2f}")
