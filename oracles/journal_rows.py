"""Writes the disks that `journal_rows` opens and appends to, and the lines that it must print: journal_rows.py FOLDER. What a
disk is answered with, and what it holds after each call, is worked out by a reader of its own, which follows the rules of
`docs/FORMATS-journal.md` one by one; what a crash leaves is drawn from its rule on torn writes."""
import random
import sys
from pathlib import Path

DIGEST = b"0123456789abcdef0123456789ABCDEF"
MAGIC = b"QUALJRN1"
MOST_BLOCK, MOST_BLOCKS, MOST_SIZE = 1048576, 4096, 4294987818
CELL = b"cell S0\ncheck full\nrows 2\ndefined 2\nverdict qualified\n"


def record(block):
    return b"\x01" + len(block).to_bytes(4, "big") + block


def journal(*blocks, gate=0, digest=DIGEST, magic=MAGIC):
    return b"\x01" + magic + digest + b"".join(map(record, blocks)) + bytes([gate])


# ---- what opening answers


class Refused(Exception):
    pass


def no_journal_yet(image):
    return len(image) < 42 or (len(image) == 42 and image[0] != 1)


def read(image):
    """The blocks of an image that is a journal, and the place of the gate behind them."""
    if len(image) > MOST_SIZE:
        raise Refused(f"too long {len(image)}")
    if image[0] != 1 or image[1:9] != MAGIC:
        raise Refused(f"not a journal {image[:8].hex()}")
    if image[9:41] != DIGEST:
        raise Refused(f"other inputs {image[9:41].hex()}")
    blocks, place = [], 41
    while True:
        broken = Refused(f"broken record {len(blocks)}")
        if place >= len(image):
            raise broken
        if image[place] != 1:
            return blocks, place
        if place + 5 > len(image) or len(blocks) == MOST_BLOCKS:
            raise broken
        size = int.from_bytes(image[place + 1:place + 5], "big")
        if not 1 <= size <= MOST_BLOCK or place + 5 + size > len(image):
            raise broken
        blocks.append(image[place + 5:place + 5 + size])
        place += 5 + size


# ---- a disk that stops


class Stopped(Exception):
    pass


class Disk:
    def __init__(self, image, stop=None):
        self.image, self.stop, self.calls = bytearray(image), stop, 0

    def call(self):
        self.calls += 1
        if self.calls - 1 == self.stop:
            raise Stopped

    def write(self, place, piece):
        self.call()
        self.image[place:place + len(piece)] = piece
        self.call()


def opened(disk):
    """The blocks and the gate's place."""
    for _ in ("sync", "size", "read"):
        disk.call()
    image = bytes(disk.image)
    if no_journal_yet(image):
        if not image or image[0] == 1:
            disk.write(0, b"\x00")
        disk.write(1, MAGIC + DIGEST + b"\x00")
        disk.write(0, b"\x01")
        return [], 41
    blocks, place = read(image)
    for _ in range(len(blocks) + 1):
        disk.call()
    return blocks, place


def run(disk, blocks):
    """How far a run came that appends what isn't there yet."""
    opened_it, appended = False, 0
    try:
        kept, place = opened(disk)
        opened_it = True
        for block in blocks[len(kept):]:
            disk.write(place + 1, record(block)[1:] + b"\x00")
            disk.write(place, b"\x01")
            place += 5 + len(block)
            appended += 1
    except Stopped:
        return opened_it, appended, True
    return opened_it, appended, False


# ---- the lines


def shown(data):
    return data.hex() if len(data) <= 128 else f"{data[:48].hex()}..{data[-16:].hex()}"


def disk_line(image):
    return f"  disk of {len(image)} bytes {shown(bytes(image))}"


def open_lines(image):
    disk = Disk(image)
    try:
        blocks, _ = opened(disk)
    except Refused as refusal:
        return [f" {refusal}", disk_line(image)]
    count = len(blocks)
    told = [index for index in range(count) if index == 0 or index >= count - 3]
    return [f" {count} blocks by {disk.calls} calls",
            *(f"  block {index} of {len(blocks[index])} bytes {shown(blocks[index])}" for index in told), disk_line(disk.image)]


def stop_lines(image, blocks):
    lines, stop, stopped = [], 0, True
    while stopped:
        disk = Disk(image, stop)
        opened_it, appended, stopped = run(disk, blocks)
        lines += [f" {'opened' if opened_it else 'not opened'}, {appended} appended, {'stopped' if stopped else 'ended'} after {disk.calls} calls",
                  disk_line(disk.image), *open_lines(bytes(disk.image))]
        stop += 1
    return lines


# ---- writing bytes as the program reads them: words, and words so many times


def repeated(data, place):
    """The shortest word that stands here eight times or more, and how often."""
    for size in range(1, 9):
        word, count = data[place:place + size], 1
        while data[place + count * size:place + (count + 1) * size] == word:
            count += 1
        if count >= 8:
            return word, count
    return None


def written(data):
    words, place, start = [], 0, 0
    while place <= len(data):
        found = repeated(data, place) if place < len(data) else None
        if (found or place == len(data)) and start < place:
            words.append(data[start:place].hex())
        if found:
            words.append(f"{found[0].hex()}*{found[1]}")
            place += len(found[0]) * found[1]
            start = place
        else:
            place += 1
    return " ".join(words)


# ---- torn writes: any bytes in the range and past the old end, and a size between


def torn(draw, image, place, size):
    length = draw.randint(len(image), max(len(image), place + size))
    new = bytearray(image) + bytes(length - len(image))
    for at in range(min(len(image), place), length):
        if place <= at < place + size or at >= len(image):
            new[at] = draw.choice([0, 1, 1, draw.randrange(256)])
    return bytes(new)


def crashes(image, block, seed):
    """Images that a crash may leave of an append, during each of its two writes: they stand for the blocks or for one more."""
    draw = random.Random(seed)
    blocks, place = read(image)
    frame = record(block)[1:] + b"\x00"
    staged = bytearray(image)
    staged[place + 1:place + 1 + len(frame)] = frame
    images = [torn(draw, image, place + 1, len(frame)) for _ in range(4)] + [torn(draw, bytes(staged), place, 1) for _ in range(4)]
    if any(read(each)[0] not in (blocks, [*blocks, block]) for each in images):
        sys.exit("a crash leaves something else")
    return images


# ---- cases

S0, S1 = journal(CELL), journal(CELL, b"two")
OPEN = [
    ("an empty disk", b""),
    ("41 bytes of something else", b"x" * 41),
    ("42 bytes of something else", b"x" * 42),
    ("43 bytes of something else", b"x" * 43),
    ("42 zeros", bytes(42)),
    ("42 bytes that begin with 1", b"\x01" * 42),
    ("41 bytes of a header", journal()[:41]),
    ("a header", journal()),
    ("a header whose gate is shut by another byte", b"\x02" + journal()[1:]),
    ("a shut header and a byte", b"\x00" + journal()[1:] + b"\x00"),
    ("a header with a gate of 2 behind it", journal(gate=2)),
    ("a header with an open gate behind it", journal(gate=1)),
    ("one byte", b"\x01"),
    ("a block of 54 bytes", S0),
    ("two blocks", S1),
    ("a block, a gate of 2 and more", S0[:-1] + b"\x02more"),
    ("a block and no gate", S0[:-1]),
    ("a block that is cut", S0[:61]),
    ("a size that is cut", S0[:44]),
    ("a gate that is open at the end", S0[:-1] + b"\x01"),
    ("another digest", journal(CELL, digest=DIGEST[:31] + b"G")),
    ("another digest and a broken record", journal(digest=DIGEST[::-1], gate=1)),
    ("another magic", journal(CELL, magic=b"QUALJRN2")),
    ("a file that isn't a journal", b"hello, this is not a journal of this program at all"),
    ("a journal and what a longer one left behind it", S0 + b"\x01\x00\x00\x00\x02ab\x01"),
    ("a size of 0", journal(CELL)[:-1] + b"\x01\x00\x00\x00\x00\x00"),
    ("a size of 4,294,967,295", journal(CELL)[:-1] + b"\x01\xff\xff\xff\xff" + bytes(20)),
    ("a block of one byte", journal(b"a")),
    ("a block of 1,048,576 bytes", journal(b"b" * MOST_BLOCK)),
    ("a block of 1,048,577 bytes", journal(b"b" * (MOST_BLOCK + 1))),
    ("4,096 blocks", journal(*[b"\xaa"] * MOST_BLOCKS)),
    ("4,097 blocks", journal(*[b"\xaa"] * (MOST_BLOCKS + 1))),
    ("4,096 blocks and an open gate", journal(*[b"\xaa"] * MOST_BLOCKS, gate=1)),
    ("4,096 blocks and no gate", journal(*[b"\xaa"] * MOST_BLOCKS)[:-1]),
]
# each byte of the journal of one block as something else
BYTES = [(f"byte {at} is {value}", S0[:at] + bytes([value]) + S0[at + 1:]) for at in range(len(S0)) for value in (0, 1, 2, 255)]
STOPS = [
    ("blocks on an empty disk", b"", [CELL, b"two"]),
    ("a block on a disk that begins with 1", b"\x01\x02\x03", [b"one"]),
    ("a block on a disk of zeros", bytes(42), [b"one"]),
    ("one more block", S0, [CELL, b"two"]),
    ("over what a longer journal left", S0 + b"\x01\x00\x00\x00\x02ab\x01\x00\x00\x00\x01c\x00", [CELL, b"xy"]),
    ("no more blocks", S1, [CELL, b"two"]),
]
CRASHES = [
    (f"a crash in append {number} of {title}", image)
    for title, old, block in (("a block", S0, b"two"), ("a header", journal(), CELL), ("a block with more behind it", S0 + b"\x01\x00\x00\x00\x02ab\x01", b"wxyz"))
    for number, image in enumerate(crashes(old, block, len(old)))
]


def main():
    folder = Path(sys.argv[1])
    (folder / "data").mkdir(exist_ok=True)
    cases, lines = {"open.txt": [], "bytes.txt": [], "crashes.txt": [], "stops.txt": []}, []
    for name, rows in (("open.txt", OPEN), ("bytes.txt", BYTES), ("crashes.txt", CRASHES)):
        for title, image in rows:
            cases[name].append(f"open|{title}|{written(image)}")
            lines += [title, *open_lines(image)]
    for title, image, blocks in STOPS:
        cases["stops.txt"].append(f"stops|{title}|{written(image)}|{','.join(map(written, blocks))}")
        lines += [title, *stop_lines(image, blocks)]
    for name, rows in cases.items():
        (folder / "data" / name).write_text("".join(f"{row}\n" for row in rows))
    (folder / "stdout").write_text("".join(f"{line}\n" for line in lines))
    (folder / "args").write_text("".join(f"{name}\n" for name in cases))


main()
