"""Writes the texts that `waiver_rows` reads, and the lines that it must print: waiver_rows.py FOLDER. What a text must be
answered with is worked out here by the rules of `docs/FORMATS-waivers.md`, with Python's own dates and records; where a text
has its lines beside it, they must be those."""
import csv
import datetime
import io
import re
import sys
from pathlib import Path

CODES = ["P1", "P2", "P3", "P4", "H1", "H2", "H3", "H4", "H5", "M1", "M2", "Z1", "Z2"]
MOST_RECORDS, MOST_NAME, MOST_REASON, MOST_SHOWN = 65_536, 128, 1_000, 8


class Refused(Exception):
    pass


# ---- days


def leaps_before(year):
    """The leap years from 0 up to this year, without it."""
    return (year + 3) // 4 - (year + 99) // 100 + (year + 399) // 400


def day_of(text):
    """The day's number; Python's dates begin with the year 1, so years are counted by hand, days of a year by `datetime`."""
    found = re.fullmatch(r"([0-9]{4})-([0-9]{2})-([0-9]{2})", text, re.ASCII)
    if not found:
        return None
    year, month, day = map(int, found.groups())
    alike = 2000 if leaps_before(year + 1) > leaps_before(year) else 2001
    try:
        of_year = datetime.date(alike, month, day).timetuple().tm_yday
    except ValueError:
        return None
    before = 365 * year + leaps_before(year)
    return before + of_year - 1 - (365 * 1970 + leaps_before(1970))


# ---- records


def is_name(word):
    return word not in ("-", "*") and all(33 <= ord(byte) <= 126 and byte not in "(){};,\"='\\" for byte in word) and word != ""


def check_name(word, number, column):
    if len(word) > MOST_NAME:
        raise Refused(f"too many name {MOST_NAME}")
    if not is_name(word):
        raise Refused(f"syntax line {number} column {column}")


def waiver_of(number, row):
    if len(row) != 5:
        raise Refused(f"syntax line {number} column 0")
    cell, code, pin, day, reason = row
    if cell != "*":
        check_name(cell, number, 1)
    if code not in CODES:
        raise Refused(f"syntax line {number} column 2")
    if pin not in ("*", "-"):
        check_name(pin, number, 3)
    if day_of(day) is None:
        raise Refused(f"syntax line {number} column 4")
    if len(reason) > MOST_REASON or not all(32 <= ord(byte) <= 126 for byte in reason):
        raise Refused(f"syntax line {number} column 5")
    return cell, code, pin, day_of(day), reason


def waivers_of(records):
    waivers = []
    for number, row in enumerate((row for row in csv.reader(io.StringIO(records, newline="")) if row), 1):
        if number > MOST_RECORDS:
            raise Refused(f"too many records {MOST_RECORDS}")
        waivers.append(waiver_of(number, row))
    return waivers


def covered(waivers, line):
    cell, code, pin, date = line.split(" ")
    for number, (of, rule, at, last, _) in enumerate(waivers, 1):
        if of in ("*", cell) and rule == code and at in ("*", pin) and day_of(date) <= last:
            return f"waived {number}"
    return "not waived"


def spread(lines):
    for line in lines:
        found = re.fullmatch(r"@([0-9]+) (.*)", line)
        yield from [found.group(2)] * int(found.group(1)) if found else [line]


def answers(text):
    lines = text.split("\n")
    told = []
    for line in lines:
        if line.startswith("= "):
            day = day_of(line[2:])
            told.append("no day" if day is None else f"day {day}")
    records = "\n".join(spread(line for line in lines if line[:2] not in ("= ", "? ")))
    try:
        waivers = waivers_of(records)
    except Refused as refused:
        return told + [str(refused)]
    told.append(f"{len(waivers)} waivers")
    if len(waivers) <= MOST_SHOWN:
        told += [f" {cell} {code} {pin} {last} [{reason}]" for cell, code, pin, last, reason in waivers]
    return told + [covered(waivers, line[2:]) for line in lines if line.startswith("? ")]


# ---- cases: a text, or a text and its lines

DATES = """1970-01-01 1969-12-31 2024-02-29 2023-02-29 1900-02-28 1900-02-29 1900-03-01 2000-02-29 2100-02-29 0000-01-01
0000-02-29 0001-01-01 9999-12-31 2024-00-10 2024-13-01 2024-01-00 2024-01-31 2024-01-32 2024-04-30 2024-04-31 2024-1-01
2024-01-1 024-01-01 02024-01-01 +024-01-01 -024-01-01 2024/01/01 2024-01/01 2024-01-1x 20x4-01-01 2024-01-01T00 24-02-29
2026-03-31 2026-04-01 10000-01-01""".split()
DAYS = [
    ("= 2024-02-29\n= 2023-02-29\n= 24-02-29\n= ", ["day 19782", "no day", "no day", "no day", "0 waivers"]),
    "\n".join(f"= {date}" for date in DATES + ["2024-01-01 ", " 2024-01-01"]),
]

ND2 = "ND2,P3,A,2026-03-31,fixed in next drop"
RIGHT = ["C", "P3", "A", "2026-03-31", "why"]


def with_field(place, field):
    return ",".join(RIGHT[:place] + [field] + RIGHT[place + 1:])


def asked(*lines):
    return "".join(f"\n? {line}" for line in lines)


WRONG = [
    with_field(0, field) for field in ["", "-", "a b", "a(b", "a=b", "a'b", "\x7f", "x" * 128, "x" * 129, "**"]
] + [
    with_field(1, field) for field in ["", "p3", "P0", "P5", "P33", "H5", "H6", "M3", "Z1", " P3", "*"]
] + [
    with_field(2, field) for field in ["", "a;b", "\t", "y" * 128, "y" * 129, "--", "*-"]
] + [
    with_field(3, field) for field in ["", "*", "2026-02-29", "2028-02-29", "26-03-31", "0000-01-01", "9999-12-31"]
] + [
    with_field(4, field) for field in ["", " ", "~", "z" * 1000, "z" * 1001, "\x1f", "\x7f", '"a, b"', '"say ""so"""']
]
WAIVERS = [
    (ND2 + asked("ND2 P3 A 2026-03-31", "ND2 P3 A 2026-04-01"), ["1 waivers", " ND2 P3 A 20543 [fixed in next drop]", "waived 1", "not waived"]),
    ("", ["0 waivers"]),
    "\n\n" + ND2 + "\n\n",
    ND2 + asked("ND2 P3 B 2026-01-01", "ND2 P3 - 2026-01-01", "ND2 P4 A 2026-01-01", "ND3 P3 A 2026-01-01", "nd2 P3 A 2026-01-01", "ND2 P3 A 2026-03-30"),
    "*,P3,A,2026-03-31,x" + asked("ND2 P3 A 2026-01-01", "X P3 A 2026-01-01", "X P3 - 2026-01-01"),
    "C,P3,*,2026-03-31,x" + asked("C P3 A 2026-01-01", "C P3 - 2026-01-01", "D P3 A 2026-01-01"),
    "C,P1,-,2026-03-31,x" + asked("C P1 - 2026-01-01", "C P1 A 2026-01-01"),
    "*,P3,*,2026-03-31,x" + asked("C P3 A 2026-01-01", "C P3 - 2026-03-31", "C P3 - 2026-04-01"),
    "D,P3,A,2026-03-31,x\nC,P3,A,2026-03-31,x\n*,P3,*,2026-03-31,x" + asked("C P3 A 2026-01-01", "D P3 A 2026-01-01", "E P3 A 2026-01-01", "C P3 B 2026-01-01"),
    "*,P3,*,2026-03-31,x\nC,P3,A,2026-05-31,x" + asked("C P3 A 2026-01-01", "C P3 A 2026-04-01", "C P3 A 2026-06-01"),
    "C,P3,*,2026-03-31,x\n*,P3,A,2026-04-30,x\nC,P3,A,2026-02-28,x" + asked(*[f"C P3 A {day}" for day in ["2026-02-28", "2026-03-01", "2026-04-01", "2026-05-01"]]),
    "C,P3,A,2026-01-31,x\nC,P3,A,2026-03-31,x\nC,P3,A,2026-02-28,x" + asked(*[f"C P3 A {day}" for day in ["2026-01-01", "2026-02-01", "2026-03-01", "2026-04-01"]]),
    ND2 + "," + "\n" + ND2,
    ND2 + "\nND2,P3,A,2026-03-31",
    "ND2\n" + ND2,
    with_field(0, "") + "\n" + with_field(1, ""),
    "x" * 129 + ",,,,",
    ",,,,",
    "-,p,x y,z,\x01",
] + WRONG

LATE = "C,P3,A,2026-03-31,x"
EARLY = "C,P3,A,2025-03-31,x"
MANY = [
    f"@65535 {EARLY}\n{LATE}" + asked("C P3 A 2026-01-01", "C P3 A 2025-01-01", "C P3 B 2025-01-01", "C P3 A 2026-04-01"),
    f"@65536 {EARLY}\nC,P3,A,2026-03-31",
    f"@65537 {EARLY}",
    "\n".join(f"C{i % 700},P{i % 4 + 1},A{i % 11},2026-{i % 12 + 1:02}-{i % 28 + 1:02},x" for i in range(3000))
    + asked(*[f"C{i} P{i % 4 + 1} A{i % 11} 2026-{i % 9 + 1:02}-15" for i in range(0, 700, 7)], "C1 P2 A1 2026-01-01", "C8 P1 A8 2027-01-01"),
]


def lines_of(cases):
    told = []
    for case in cases:
        text, expected = case if isinstance(case, tuple) else (case, None)
        found = answers(text)
        assert expected in (None, found), (text, expected, found)
        told += found
    return told


folder = Path(sys.argv[1])
(folder / "data").mkdir(exist_ok=True)
told = []
for name, cases in [("days", DAYS), ("waivers", WAIVERS), ("many", MANY)]:
    texts = [case[0] if isinstance(case, tuple) else case for case in cases]
    assert not any("%" in text for text in texts)
    (folder / "data" / f"{name}.txt").write_bytes("%".join(texts).encode("latin-1"))
    told += lines_of(cases)
(folder / "stdout").write_bytes("".join(line + "\n" for line in told).encode("latin-1"))
