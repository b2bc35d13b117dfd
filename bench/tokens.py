"""Once for the whole program, which reads the file first, and once for the cutting alone, by ten passes more in one run."""
import sys
from fastest import fastest, printed

program, path = sys.argv[1:]
print(printed([program, path]))
sha, once, eleven = fastest(["sha256sum", path], 5), fastest([program, path], 5), fastest([program, path, "11"], 3)
cut = (eleven - once) / 10
print(f"sha256sum {sha:.3f} s")
print(f"reading and cutting {once:.3f} s, ratio {sha / once:.2f}")
print(f"cutting alone {cut:.3f} s, ratio {sha / cut:.2f}")
