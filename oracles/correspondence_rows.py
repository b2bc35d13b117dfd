"""Writes the texts that `correspondence_rows` reads, and the lines that it must print: correspondence_rows.py FOLDER. What a
text must be answered with is worked out by a reader of its own, which follows the rules of `docs/FORMATS-tables.md` one by
one; where a text has its lines beside it, they must be those."""
import re
import sys
from pathlib import Path

MOST_CELLS, MOST_NAME = 4096, 128
LISTS = [b"pins", b"xpins", b"state", b"udps", b"nodes"]


class Refused(Exception):
    pass


def syntax_at(place):
    return Refused(f"syntax at line {place[0]} column {place[1]}")


# ---- lines: the words with their places, and the place of the line's end


def lines_of(text):
    lines = []
    for number, line in enumerate(text.split(b"\n"), 1):
        words = [(found.group(), (number, found.start() + 1)) for found in re.finditer(rb"[^ \t\r]+", line)]
        lines.append((words, (number, len(line) + 1)))
    kept = [line for line in lines if line[0] and not line[0][0][0].startswith(b"#")]
    return kept, lines[-1][1]


# ---- what words may be


def name_of(word, place):
    if len(word) > MOST_NAME:
        raise Refused(f"too many name, {MOST_NAME}")
    if word in (b"-", b"*") or not all(33 <= byte <= 126 and byte not in b"(){};,\"='\\" for byte in word):
        raise syntax_at(place)
    return word.decode()


def values_of(word, place):
    if word == b"-":
        return ""
    if not all(byte in b"01X" for byte in word):
        raise syntax_at(place)
    return word.decode()


def no_more(words):
    if words:
        raise syntax_at(words[0][1])


# ---- tables


def cell_of(line, tables):
    words, end = line
    if len(tables) == MOST_CELLS:
        raise Refused(f"too many cells, {MOST_CELLS}")
    if len(words) < 2:
        raise syntax_at(end)
    cell = name_of(*words[1])
    if cell in [table["cell"] for table in tables]:
        raise Refused(f"{cell} again at line {words[1][1][0]}")
    no_more(words[2:])
    return cell


def row_of(line):
    words, end = line
    values = [values_of(*word) for word in words[1:5]]
    if len(values) < 4:
        raise syntax_at(end)
    no_more(words[5:])
    return words[0][1][0], values


def tables_of(text):
    lines, end = lines_of(text)
    lines.reverse()

    def first():
        return lines[-1][0][0][0] if lines else None

    def take(kind):
        if not lines:
            raise syntax_at(end)
        if first() != kind:
            raise syntax_at(lines[-1][0][0][1])
        return lines.pop()

    tables = []
    while lines:
        line = take(b"table")
        table = {"cell": cell_of(line, tables), "line": line[0][0][1][0], "rows": []}
        for kind in LISTS:
            if kind != b"xpins" or first() == b"xpins":
                words = take(kind)[0]
                table[kind] = words[0][1][0], [name_of(*word) for word in words[1:]]
        while first() == b"row":
            table["rows"].append(row_of(lines.pop()))
        no_more(take(b"end")[0][1:])
        tables.append(table)
    return tables


# ---- what is printed


def covers(row, values):
    """Whether the row's first three words are these, and its nodes at most as known."""
    ours, theirs = row[3], values[3]
    return row[:3] == values[:3] and len(ours) == len(theirs) and all(a in ("X", b) for a, b in zip(ours, theirs))


def first_cover(rows, values):
    return next((str(number) for number, (_, row) in enumerate(rows, 1) if covers(row, values)), "none")


def shown(table):
    yield f" {table['cell']} at line {table['line']}"
    for kind in LISTS:
        if kind in table:
            line, names = table[kind]
            yield " ".join([f"  {kind.decode()} at line {line}:", *names])
    for line, values in table["rows"]:
        known = [*values[:3], values[3].replace("X", "1")]
        by = first_cover(table["rows"], values), first_cover(table["rows"], known)
        yield " ".join([f"  row at line {line}:", *(word or "-" for word in values), "covered by", *by])


def answer(text):
    try:
        tables = tables_of(text)
    except Refused as refusal:
        return [str(refusal)]
    return ["tables", *(line for table in tables for line in shown(table))]


def beginnings(text):
    accepted = at_ends = 0
    for length in range(len(text)):
        told, *_ = answer(text[:length])
        if told == "tables":
            accepted += 1
        elif told == str(syntax_at(lines_of(text[:length])[1])):
            at_ends += 1
        else:
            yield f"{length} bytes: {told if told.startswith('syntax') else 'another answer'}"
    yield f"{accepted} beginnings: accepted"
    yield f"{at_ends} beginnings: syntax at their ends"


# ---- texts

FLIP_FLOP = """table DFF
pins D CK
state IQ IQN
udps Q
nodes ckn ckb m1 m2 s1 s2 Q
row 00 01 0 1001100
row 00 10 1 1001011
row 00 XX X 1001XXX
row 01 01 0 0101100
row 01 10 1 0110011
row 01 XX X 01XXXXX
row 10 01 0 1010100
row 10 10 1 1010011
row 10 XX X 1010XXX
row 11 01 0 0101100
row 11 10 1 0110011
row 11 XX X 01XXXXX
end
"""
TWO_LATCHES = ["00", "01", "0X", "00", "11", "XX", "10", "11", "1X", "00", "11", "XX"]


def two_latches():
    """The flip-flop's table for a model of two latches, whose outputs are mq and Q."""
    lines = FLIP_FLOP.replace("udps Q\n", "udps mq Q\n").split("\n")
    rows = [place for place, line in enumerate(lines) if line.startswith("row")]
    for place, word in zip(rows, TWO_LATCHES):
        pins, state, _, nodes = lines[place].split()[1:]
        lines[place] = f"row {pins} {state} {word} {nodes}"
    return "\n".join(lines)


TABLE = ["table A", "pins p q", "state s", "udps u", "nodes n m", "row 00 0 1 1X", "row 11 X - 0", "end"]


def with_line(place, line, *more):
    """The table with a line more before this place."""
    return "\n".join([*TABLE[:place], line, *TABLE[place:], *more, ""])


def with_row(row):
    return f"table A\npins p\nstate s\nudps u\nnodes n\nrow 0 0 0 0\nrow {row}\nend\n"


def table(cell, *rows, lists=("pins", "state", "udps", "nodes")):
    return "".join(f"{line}\n" for line in (f"table {cell}", *lists, *(f"row {row}" for row in rows), "end"))


def at(line, column):
    return str(syntax_at((line, column)))


LONG, FULL = "L" * 129, "F" * 128
TOO_LONG = f"too many name, {MOST_NAME}"

XPINS = [
    (with_line(2, "xpins q"), "tables", " A at line 1", "  pins at line 2: p q", "  xpins at line 3: q", "  state at line 4: s", "  udps at line 5: u",
     "  nodes at line 6: n m", "  row at line 7: 00 0 1 1X covered by 1 1", "  row at line 8: 11 X - 0 covered by 2 2"),
    (with_line(2, "xpins"),),
    (with_line(2, "xpins q q p"),),
    *((with_line(place, " xpins q"), at(place + 1, 2)) for place in (0, 1, 3, 4, 5, 6, 7, 8)),
    (with_line(2, "xpins q\nxpins p"), at(4, 1)),
    (with_line(2, "xpins q\npins p"), at(4, 1)),
    (with_line(2, "xpins q -"), at(3, 9)),
    (with_line(2, f"xpins {LONG}"), TOO_LONG),
    (with_line(2, "Xpins q"), at(3, 1)),
    ("table S0\npins A\nxpins A\nstate\nudps\nnodes Y\nrow 0 - - 1\nrow 1 - - 0\nrow X - - X\nend\n",),
]

ORDER = [
    # a line at each wrong place, and one that lacks
    *((with_line(place, line),) for line in ("pins p", "state s", "udps u", "nodes n", "row 0 0 0 0", "end", "table B", "other") for place in range(len(TABLE) + 1)),
    *(("\n".join([*TABLE[:place], *TABLE[place + 1:], ""]),) for place in range(len(TABLE))),
    ("", "tables"),
    ("\n \t\r\n# table A\n", "tables"),
    ("end\n", at(1, 1)),
    ("Table A\n", at(1, 1)),
    ("table A\npins\nstate\nudps\nnodes\n\n  # no end\n", at(8, 1)),
    ("table A\npins\nstate\nudps\nnodes\n\n  # no end", at(7, 11)),
]

WORDS = [
    # the table's cell
    ("table\n", at(1, 6)),
    ("table", at(1, 6)),
    ("table  # A\n", at(1, 10)),
    ("table \t \n", at(1, 9)),
    ("table A B\npins\n", at(1, 9)),
    ("table - B\n", at(1, 7)),
    ("table * B\n", at(1, 7)),
    ("table A=1\n", at(1, 7)),
    (f"table {LONG}\n", TOO_LONG),
    (f"table {LONG}( B\n", TOO_LONG),
    (f"table ({'L' * 127}\n", at(1, 7)),
    (table(FULL),),
    (table("#A"),),
    (table("A") + table("A"), "A again at line 7"),
    (table("A") + "table A B\n", "A again at line 7"),
    (table("A") + table("B") + "\ntable\tB", "B again at line 14"),
    (table("A") + table("a"),),
    (table("A") + f"table A{LONG}\n", TOO_LONG),
    # names of lists
    (table("A", lists=("pins a a", "state a", "udps a b a", "nodes a")),),
    (table("A", lists=("pins a$b a[0] a/b <&> a:b @", "state !", "udps |", "nodes n#")),),
    *((table("A", lists=("pins", "state", "udps", f"nodes n {word} m")),) for word in ("-", "*", "a;", "(a)", "a,b", '"a"', "a'", "{", "\\a", "\x7f", "\x00", "\xe9")),
    (table("A", lists=(f"pins {FULL} {LONG}", "state", "udps", "nodes")), TOO_LONG),
    (table("A", lists=(f"pins ( {LONG}", "state", "udps", "nodes")), at(2, 6)),
    (table("A", lists=("pins", "state", f"udps {LONG} (", "nodes")), TOO_LONG),
    # values of rows
    *((with_row(row),) for row in (
        "X 1 0 X", "- - - -", "01X 1X0 - 0", "x 0 0 0", "0 0x 0 0", "0 0 2 0", "0 0 0 Z", "- 0- 0 0", "0 0 -1 0", "0 -- 0 0", "0 0 0 0-1", "0 0 0", "0 0", "0", "",
        "0 0 0 0 0", "- - - - -", "0 0 0 0 #", "0 0 0 # 0", "0 0 0 0 x", "0 x 2 -0", "0 0 0 0\t\r", "0 0 \xff 0", f"{'01X' * 200} {'X' * 300} {'1' * 129} {'0' * 513}",
    )),
    (with_row("0 0 0\n0"), at(7, 10)),
    # the end
    (table("A") + "end\n", at(7, 1)),
    ("table A\npins\nstate\nudps\nnodes\nend A\n", at(6, 5)),
    ("table A\npins\nstate\nudps\nnodes\nend #\n", at(6, 5)),
    ("table A\npins\nstate\nudps\nnodes\nend",),
    ("table A\npins\nstate\nudps\nnodes\nended\n", at(6, 1)),
]

BETWEEN = [
    ("\n\n# two tables\n  table A\r\n\tpins\tp q\n#\n\nstate\n  #state s\nudps\n\r\nnodes n # m\n# row 0\nrow 00 - - 1\n\n # end\nrow 1X - - X\n\n\nend\n\n# more\ntable B\n"
     "pins\nstate\nudps\nnodes\nend\n# no more",
     "tables", " A at line 4", "  pins at line 5: p q", "  state at line 8:", "  udps at line 10:", "  nodes at line 12: n # m",
     "  row at line 14: 00 - - 1 covered by 1 1", "  row at line 17: 1X - - X covered by 2 2", " B at line 23", "  pins at line 24:", "  state at line 25:", "  udps at line 26:",
     "  nodes at line 27:"),
    ("table A\n#pins q\npins p\n##\nstate\nudps\nnodes\n#row\nend",),
    ("table A \x0b\npins\n",),
]

COVER = [
    # the first of several rows; each word of another; nodes of another length
    (table("A", "0 1 0 1X", "0 1 0 X1", "0 1 0 11", "0 1 0 XX", "0 1 0 X", "0 1 0 -", "0 1 0 1X"),
     "tables", " A at line 1", "  pins at line 2:", "  state at line 3:", "  udps at line 4:", "  nodes at line 5:", "  row at line 6: 0 1 0 1X covered by 1 1",
     "  row at line 7: 0 1 0 X1 covered by 2 1", "  row at line 8: 0 1 0 11 covered by 1 1", "  row at line 9: 0 1 0 XX covered by 4 1", "  row at line 10: 0 1 0 X covered by 5 5",
     "  row at line 11: 0 1 0 - covered by 6 6", "  row at line 12: 0 1 0 1X covered by 1 1"),
    (table("A", "X X X X", "0 X X 0", "X 0 X 0", "X X 0 0", "X X X 0", "X X X 1", "1 X X 0", "X 1 X 0", "X X 1 0"),),
    # words that are the same only together
    (table("A", "01 0 - 1", "0 10 - 1", "0 1 0 1", "- 01 0 1", "010 - - 1", "- - 010 1", "01 - 0 1"),),
    (table("A", "X 0 0 0", "1 0 0 0", "0 0 0 0", "X 0 0 X", "1 0 0 X", "0 0 0 X", "X 0 0 0"),),
    (table("A", *(f"{n % 3}{n % 2} {n % 2} {n % 5 % 2} {n % 2}X".replace("2", "X") for n in range(60))),),
]

# 4,097 tables, the last of which begins without a name, with one that is there, and with a word too much
CELLS = "".join(f"table c{number}\npins\nstate\nudps\nnodes\nend\n" for number in range(MOST_CELLS))
MANY = [("", "tables"), *((CELLS + line, f"too many cells, {MOST_CELLS}") for line in ("table\n", "table c0\n", "table c0 b\n"))]


def told_of(texts):
    for place, (text, *wanted) in enumerate(texts):
        text = text.encode("latin-1")
        lines = answer(text)
        if wanted and lines != wanted:
            sys.exit(f"{text!r}: {lines} in place of {wanted}")
        yield from lines
        if place == 0:
            yield from beginnings(text)


def main():
    folder = Path(sys.argv[1])
    (folder / "data").mkdir(exist_ok=True)
    files = {
        "flip_flop.txt": [(FLIP_FLOP,), (FLIP_FLOP.replace("pins D CK", "pins CK D"),), *XPINS],
        "two_latches.txt": [(two_latches(),), *ORDER],
        "words.txt": [("",), *WORDS, *BETWEEN],
        "cover.txt": [("",), *COVER],
        "many.txt": MANY,
    }
    lines = []
    for name, texts in files.items():
        (folder / "data" / name).write_bytes(b"%".join(text.encode("latin-1") for text, *_ in texts))
        lines += told_of(texts)
    (folder / "stdout").write_text("".join(f"{line}\n" for line in lines), encoding="utf-8")
    (folder / "args").write_text("".join(f"{name}\n" for name in files))


main()
