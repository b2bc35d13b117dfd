"""What `journal.sh` prints: journal.py PROGRAM FOLDER. The time of the syncs is that of as many writes and syncs of the same
bytes to another file of the folder, made here."""
import os
import subprocess
import sys
import tempfile
import time

program, folder = sys.argv[1:]
COUNT = 4_096


def run(place, *words):
    started = time.monotonic()
    told = subprocess.run([program, *map(str, words)], cwd=place, check=True, capture_output=True, text=True).stdout
    return time.monotonic() - started, told.split("\n")


def synced(place, size):
    """The time of two writes and two syncs a block, as an append makes them."""
    file = os.open(os.path.join(place, "beside"), os.O_RDWR | os.O_CREAT)
    started = time.monotonic()
    for block in range(COUNT):
        os.pwrite(file, bytes(size + 5), block * (size + 5))
        os.fdatasync(file)
        os.pwrite(file, b"\1", block * (size + 5) + size + 4)
        os.fdatasync(file)
    seconds = time.monotonic() - started
    os.close(file)
    return seconds


for size in [54, 4_096]:
    with tempfile.TemporaryDirectory(dir=folder) as place:
        seconds, _ = run(place, COUNT, size)
        journals = [name for name in os.listdir(place) if name != "beside"]
        length = max(os.path.getsize(os.path.join(place, name)) for name in journals)
        opening, told = run(place, COUNT, size)
        kept, _ = run(place, COUNT, size, "kept")
        beside = synced(place, size)
        print(
            f"{COUNT} blocks of {size} bytes: {COUNT / seconds:,.0f} appends a second, {100 * beside / seconds:.0f} % of it as long as"
            f" their writes and syncs alone; opening reads {told[1].split()[0]} bytes of {length} in {1e3 * opening:.1f} ms with the"
            f" program's start; reading all blocks back takes {kept:.2f} s"
        )
