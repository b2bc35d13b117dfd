"""How long a command takes at its fastest, and what it prints."""
import subprocess
import time


def fastest(command, times):
    results = []
    for _ in range(times):
        begin = time.perf_counter()
        subprocess.run(command, check=True, stdout=subprocess.DEVNULL)
        results.append(time.perf_counter() - begin)
    return min(results)


def printed(command):
    return subprocess.run(command, check=True, capture_output=True, text=True).stdout.strip()
