"""Writes the texts that `block_rows` reads, and the lines that it must print: block_rows.py FOLDER. Whether a text is a cell's
block is worked out here by the lines of `docs/FORMATS.md`, one expression for each; where a text has its line beside it, it
must be that."""
import re
import sys
from pathlib import Path

NAME = rb"(?!(?:-|\*)(?: |=|$))(?:(?![(){};,\"='\\])[!-~]){1,128}"
NUMBER = rb"(?:0|[1-9][0-9]*)"
VIEW = rb"(?:liberty|verilog|cdl|lef)"
VALUE = rb"[01X]"
CHANGE = NAME + rb"=" + VALUE
KIND = rb"(?:inputs|gates|transistors|nodes|rows|pins|udp_inputs|cells|name|nesting|records|rects)"

# A reason's line behind `refused `: `N` counts from 1, `M` may be 0.
REASONS = [
    rb"construct VIEW line N SHOWN", rb"unknown name NAME", rb"function NAME place M", rb"state row N", rb"udp NAME row N",
    rb"udp NAME rows N N", rb"loop NAME", rb"two drivers NAME", rb"unknown udp NAME", rb"port count NAME",
    rb"unknown model NAME", rb"short NAME", rb"float read NAME", rb"shape NAME M", rb"limit KIND M", rb"no table",
    rb"empty table", rb"table line N", rb"not at rest row N NAME", rb"not closed row N change CHANGE",
    rb"moving row N change CHANGE node NAME",
]
PARTS = {
    b"VIEW": VIEW, b"SHOWN": rb"[!-~]{1,128}", b"NAME": NAME, b"KIND": KIND, b"CHANGE": CHANGE,
    b"N": rb"(?P<n%d>[1-9][0-9]*)", b"M": rb"(?P<m%d>" + NUMBER + rb")",
}
ABOUT_PINS, ABOUT_VALUES = rb"(?:P[1-4]|H[1-5])", rb"(?:M[12]|Z[12])"
PLACE = rb"(?:-|" + NAME + rb") " + VIEW
WAIVED = rb"(?: waived (?P<n9>[1-9][0-9]*))?"
FINDINGS = [
    re.compile(rb"finding " + ABOUT_PINS + rb" " + PLACE + WAIVED),
    re.compile(
        rb"finding " + ABOUT_VALUES + rb" " + PLACE + rb" row (?P<n0>[1-9][0-9]*) change (?:-|" + CHANGE + rb") liberty " + VALUE
        + rb" view " + VALUE + WAIVED
    ),
]


def expression(words):
    parts = []
    for number, word in enumerate(words.split(b" ")):
        part = PARTS.get(word, re.escape(word))
        parts.append(part % number if word in (b"N", b"M") else part)
    return re.compile(b"refused " + b" ".join(parts))


REASON_LINES = [expression(words) for words in REASONS]


def is_line(expressions, line):
    """Whether the line is one of these, all of its numbers below 2 ^ 32."""
    for one in expressions:
        found = one.fullmatch(line)
        if found and all(int(number) < 2**32 for number in found.groupdict().values() if number):
            return True
    return False


def count_of(word, line):
    found = re.fullmatch(word + rb" (" + NUMBER + rb")", line)
    return int(found[1]) if found and int(found[1]) < 2**32 else None


def word_of(findings):
    if not findings:
        return "qualified"
    return "waived" if all(b" waived " in line for line in findings) else "failed"


def answer(text):
    """What is told of a text, none where it is no block."""
    if len(text) > 1_048_576 or not text.endswith(b"\n"):
        return None
    lines = text[:-1].split(b"\n")
    if len(lines) < 3 or not re.fullmatch(rb"cell " + NAME, lines[0]):
        return None
    first, inner, last = lines[1], lines[2:-1], lines[-1].decode("latin-1")
    if first == b"check full":
        if len(inner) < 2:
            return None
        rows, defined, findings = count_of(b"rows", inner[0]), count_of(b"defined", inner[1]), inner[2:]
        if rows is None or defined is None:
            return None
        told = f"checked, {rows} rows, {defined} defined, {len(findings)} findings"
    elif first == b"check none":
        findings = inner
        if not findings:
            return None
        told = f"unchecked, {len(findings)} findings"
    elif inner or not is_line(REASON_LINES, first):
        return None
    else:
        return "not checked, refused" if last == "verdict refused" else None
    if len(findings) > 2500 or not all(is_line(FINDINGS, line) for line in findings):
        return None
    word = word_of(findings)
    return f"{told}, {word}" if last == f"verdict {word}" else None


def spread(text):
    lines = []
    for line in text.split(b"\n"):
        found = re.fullmatch(rb"@([0-9]+) (.*)", line, re.S)
        lines += [found[2]] * int(found[1]) if found else [line]
    return b"\n".join(lines)


# ---- texts

CHECKED = "cell S0\ncheck full\nrows 2\ndefined 2\nverdict qualified\n"
UNCHECKED = "cell S0\ncheck none\nfinding P1 A verilog\nverdict failed\n"
MISMATCH = "finding M2 Y cdl row 2 change A=1 liberty 0 view X"
NO = "no block"
MOST, MORE = 2**32 - 1, 2**32
LONG, LONGER = "n" * 128, "n" * 129


def findings(*lines, verdict="failed", check="none"):
    return "\n".join(["cell S0", f"check {check}", *lines, f"verdict {verdict}", ""])


def refused(words):
    return f"cell S0\nrefused {words}\nverdict refused\n"


def one_each():
    """Each reason, each code and each value once."""
    words = {"VIEW": "cdl", "SHOWN": "(", "NAME": "u1", "KIND": "udp_inputs", "CHANGE": "CK=X", "N": "1", "M": "0"}
    for reason in REASONS:
        yield refused(" ".join(words.get(word, word) for word in reason.decode().split())), "not checked, refused"
    for code in ["P1", "P2", "P3", "P4", "H1", "H2", "H3", "H4", "H5"]:
        for view in ["liberty", "verilog", "cdl", "lef"]:
            yield findings(f"finding {code} - {view}"), "unchecked, 1 findings, failed"
    for code in ["M1", "M2", "Z1", "Z2"]:
        for change, liberty, other in [("-", 0, 1), ("A=0", 1, "X"), ("A=1", "X", 0)]:
            line = f"finding {code} Y verilog row 1 change {change} liberty {liberty} view {other}"
            yield findings("rows 1", "defined 1", line, check="full"), "checked, 1 rows, 1 defined, 1 findings, failed"
    for kind in KIND[3:-1].decode().split("|"):
        yield refused(f"limit {kind} 7"), "not checked, refused"


def lines_and_words():
    """What lines may be, and what they may not."""
    yield UNCHECKED, "unchecked, 1 findings, failed"
    yield UNCHECKED.replace("cell ", "cell  "), NO
    yield UNCHECKED[:-1], NO
    yield UNCHECKED + "\n", NO
    yield UNCHECKED + "end\n", NO
    yield UNCHECKED.replace("\n", "\r\n"), NO
    yield UNCHECKED.replace("cell S0", "cell S0 "), NO
    yield UNCHECKED.replace("cell S0", " cell S0"), NO
    yield UNCHECKED.replace("cell S0", "cell"), NO
    yield UNCHECKED.replace("cell S0", "cell S0 S1"), NO
    yield UNCHECKED.replace("cell S0", "Cell S0"), NO
    yield UNCHECKED + UNCHECKED, NO
    yield "", NO
    yield "\n", NO
    yield "cell S0\n", NO
    yield "cell S0\nverdict qualified\n", NO
    yield findings(verdict="qualified"), NO
    yield findings("rows 1", "finding P1 - cdl", check="full"), NO
    yield findings("defined 1", "rows 1", verdict="qualified", check="full"), NO
    yield findings("rows 1", "defined 1", "rows 1", verdict="qualified", check="full"), NO
    yield findings("rows 1", "defined 1", verdict="qualified"), NO
    yield findings("finding P1 A cdl", verdict="qualified"), NO
    yield findings("finding P1 A cdl", verdict="waived"), NO
    yield findings("finding P1 A cdl waived 1", verdict="waived"), "unchecked, 1 findings, waived"
    yield findings("finding P1 A cdl waived 1", verdict="failed"), NO
    yield findings("finding P1 A cdl waived 1", "finding P2 A cdl"), "unchecked, 2 findings, failed"
    yield findings("finding P1 A cdl waived 1", "finding P2 A cdl", verdict="waived"), NO
    yield findings("finding P2 A cdl", "finding P1 A cdl waived 1"), "unchecked, 2 findings, failed"
    yield refused("no table").replace("verdict refused", "verdict failed"), NO
    yield refused("no table").replace("verdict refused", "finding P1 A cdl\nverdict refused"), NO
    yield refused("no tables"), NO
    yield refused("table"), NO
    yield refused("loop"), NO
    yield refused("loop a b"), NO
    yield refused("unknown cell a"), NO
    yield refused("limit file 3"), NO
    yield refused("construct CDL line 1 x"), NO
    yield "cell S0\nrefused\nverdict refused\n", NO
    yield "cell S0\nno table\nverdict refused\n", NO


def names_and_numbers():
    yield findings(MISMATCH), "unchecked, 1 findings, failed"
    for name in ["-", "*", "a(b", "a=b", "a;b", "a'b", 'a"b', "a\\b", "a,b", "\x80", "\x1f", "\x7f", "a\tb", LONGER]:
        yield refused(f"loop {name}"), NO
    for name in ["--", "**", "-*", "[0]", "a.b/c:d", "~", "!", "0", "place", LONG]:
        yield refused(f"loop {name}"), "not checked, refused"
    yield refused(f"construct lef line 1 {LONG}"), "not checked, refused"
    yield refused(f"construct lef line 1 {LONGER}"), NO
    yield refused("construct lef line 1 -"), "not checked, refused"
    yield refused("construct lef line 0 x"), NO
    yield findings(f"finding P2 {LONG} lef"), "unchecked, 1 findings, failed"
    yield findings(f"finding P2 {LONGER} lef"), NO
    yield findings("finding P5 A lef"), NO
    yield findings("finding P2 * lef"), NO
    yield findings("finding P2 A spice"), NO
    yield findings("finding P2 lef"), NO
    yield findings("finding M1 A lef"), NO
    yield findings("finding P1 A lef row 1 change - liberty 0 view 1"), NO
    yield findings(MISMATCH.replace("A=1", "A=x")), NO
    yield findings(MISMATCH.replace("A=1", "-=1")), NO
    yield findings(MISMATCH.replace("A=1", "=1")), NO
    yield findings(MISMATCH.replace("A=1", "A=1=1")), NO
    yield findings(MISMATCH.replace("A=1", "A")), NO
    yield findings(MISMATCH.replace("view X", "view 01")), NO
    for number in [1, 10, MOST]:
        yield findings(MISMATCH.replace("row 2", f"row {number}")), "unchecked, 1 findings, failed"
        yield findings(f"{MISMATCH} waived {number}", verdict="waived"), "unchecked, 1 findings, waived"
        yield refused(f"udp u rows 1 {number}"), "not checked, refused"
    for number in ["0", "01", "-1", "+1", "1_0", "0x1", "a", MORE, 10**20, ""]:
        yield findings(MISMATCH.replace("row 2", f"row {number}")), NO
        yield findings(f"{MISMATCH} waived {number}", verdict="waived"), NO
        yield refused(f"udp u rows 1 {number}"), NO
    for number in [0, 7, MOST]:
        told = f"checked, {number} rows, {number} defined, 0 findings, qualified"
        yield findings(f"rows {number}", f"defined {number}", verdict="qualified", check="full"), told
        yield refused(f"function Y place {number}"), "not checked, refused"
    for number in ["00", "07", MORE, "1 "]:
        yield findings(f"rows {number}", "defined 1", verdict="qualified", check="full"), NO
        yield refused(f"function Y place {number}"), NO
        yield refused(f"limit pins {number}"), NO


def many():
    yield CHECKED, "checked, 2 rows, 2 defined, 0 findings, qualified"
    finding = "finding P1 - cdl"
    yield findings(f"@2500 {finding}"), "unchecked, 2500 findings, failed"
    yield findings(f"@2501 {finding}"), NO
    yield findings("rows 1", "defined 1", f"@2500 {MISMATCH} waived {MOST}", verdict="waived", check="full"), (
        "checked, 1 rows, 1 defined, 2500 findings, waived"
    )
    longest = f"finding M1 {LONG} verilog row {MOST} change {LONG}=X liberty 1 view X waived {MOST}"
    yield findings(f"@2500 {longest}", verdict="waived"), "unchecked, 2500 findings, waived"
    # one byte more than a block may have: it ends as one
    front, end = "cell S0\ncheck none\n", "finding P1 - cdl\nverdict failed\n"
    yield f"{front}@{1_048_577 - len(front) - len(end)} \n{end}", NO


FILES = {"each.txt": one_each, "lines.txt": lines_and_words, "words.txt": names_and_numbers, "many.txt": many}
OTHERS = b" \n-=01XZa"


def counts(text):
    neighbours = sum(
        other != text[place] and answer(text[:place] + bytes([other]) + text[place + 1 :]) is not None
        for place in range(len(text))
        for other in OTHERS
    )
    beginnings = sum(answer(text[:length]) is not None for length in range(len(text)))
    return [f"{beginnings} beginnings are blocks", f"{neighbours} neighbours are blocks"]


def main(folder):
    told = []
    (folder / "data").mkdir(parents=True, exist_ok=True)
    for file, texts in FILES.items():
        cases = [(text.encode("latin-1"), expected) for text, expected in texts()]
        (folder / "data" / file).write_bytes(b"%".join(text for text, _ in cases))
        for number, (text, expected) in enumerate(cases):
            whole = spread(text)
            found = answer(whole)
            assert (found or NO) == expected, (file, text, found, expected)
            told.append(f"{found}, the same when written" if found else NO)
            told += [] if number else counts(whole)
    (folder / "args").write_text("".join(f"{file}\n" for file in FILES))
    (folder / "stdout").write_text("".join(f"{line}\n" for line in told))


main(Path(sys.argv[1]))
