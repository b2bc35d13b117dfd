"""Prints how much memory one run of a program on a file takes at most, beside the file's size: peak.py PROGRAM FILE."""
import resource
import subprocess
import sys
from pathlib import Path

program, path = sys.argv[1:]
subprocess.run([program, path], check=True, stdout=subprocess.DEVNULL)
peak = resource.getrusage(resource.RUSAGE_CHILDREN).ru_maxrss * 1024
print(f"peak memory: {peak / 1e6:.1f} MB, for a file of {Path(path).stat().st_size / 1e6:.1f} MB")
