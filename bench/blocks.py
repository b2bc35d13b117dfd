"""Blocks a second by user time, written and read: blocks.py PROGRAM FILE.. The least of some runs, without what a run costs
besides."""
import resource
import subprocess
import sys

program, *files = sys.argv[1:]
RUNS, TIMES = 7, 500_000


def user_time(*words):
    before = resource.getrusage(resource.RUSAGE_CHILDREN).ru_utime
    subprocess.run([program, *words], check=True, stdout=subprocess.DEVNULL)
    return resource.getrusage(resource.RUSAGE_CHILDREN).ru_utime - before


for file in files:
    besides = min(user_time("neither", file, "1") for _ in range(RUNS))
    for what, done in [("write", "written"), ("read", "read")]:
        seconds = min(user_time(what, file, str(TIMES)) for _ in range(RUNS)) - besides
        print(f"{file}: {TIMES / seconds / 1e3:,.0f} thousand blocks a second {done}")
