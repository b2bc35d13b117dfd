"""User time of asking which row covers, and memory of reading: cover.py PROGRAM SMALL LARGE FILE.. It makes the indexes of the
small tables and of the large ones and asks them, without what reading takes, and reads each of the other files."""
import os
import resource
import subprocess
import sys

program, small, large, *files = sys.argv[1:]
RUNS = 7


def user_time(*words):
    before = resource.getrusage(resource.RUSAGE_CHILDREN).ru_utime
    told = subprocess.run([program, *words], check=True, stdout=subprocess.PIPE, text=True).stdout
    return resource.getrusage(resource.RUSAGE_CHILDREN).ru_utime - before, told


def asking(path, times):
    """The least user time of making the index and asking it once, without that of reading."""
    reading = min(user_time(path, "0")[0] for _ in range(RUNS))
    runs = [user_time(path, str(times)) for _ in range(RUNS)]
    once = (min(run[0] for run in runs) - reading) / times
    told = ", ".join(runs[0][1].split("\n")[:2])
    print(f"{told}: {once * 1e3:.2f} ms, reading {reading * 1e3:.1f} ms")
    return once


less, more = asking(small, 320), asking(large, 20)
print(f"{more / less:.1f} times as long")


def peak(path):
    """Greatest memory of reading, with the file itself, and the time of it."""
    child = subprocess.Popen([program, path, "0"], stdout=subprocess.PIPE)
    child.stdout.read()
    _, _, usage = os.wait4(child.pid, 0)
    return usage.ru_maxrss * 1024, usage.ru_utime + usage.ru_stime


for file in files:
    size = os.path.getsize(file)
    memory, seconds = peak(file)
    print(user_time(file, "0")[1].strip())
    times = (memory - size) / size
    print(f"reading {size / 1e6:.1f} MB took {seconds:.2f} s and {memory / 1e6:.1f} MB, {times:.2f} times the file's size beyond the file")
