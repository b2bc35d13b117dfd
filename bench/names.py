"""Processor time of reading against the size of the file: many cells, and many pins in one cell."""
import os
import resource
import subprocess
import sys
import tempfile
from fastest import printed

program = sys.argv[1]
make = os.path.join(os.path.dirname(__file__), "make_names.py")


def spent(command):
    before = resource.getrusage(resource.RUSAGE_CHILDREN)
    subprocess.run(command, check=True, stdout=subprocess.DEVNULL)
    after = resource.getrusage(resource.RUSAGE_CHILDREN)
    return after.ru_utime - before.ru_utime + after.ru_stime - before.ru_stime


def measured(cells, pins):
    with tempfile.NamedTemporaryFile() as file:
        subprocess.run([sys.executable, make, str(cells), str(pins), file.name], check=True)
        command = [program, file.name]
        size, least = os.path.getsize(file.name), min(spent(command) for _ in range(7))
        print(f"{printed(command)}: {size / 1e6:.1f} MB in {least:.3f} s")
        return size, least


for small, large in (((512, 64), (4096, 64)), ((1, 8192), (1, 65536))):
    (bytes_of_small, small_time), (bytes_of_large, large_time) = measured(*small), measured(*large)
    print(f"{bytes_of_large / bytes_of_small:.2f} times the bytes in {large_time / small_time:.2f} times the time")
