"""Writes the netlists that `cdl_rows` reads, and the lines that it must print: cdl_rows.py FOLDER. Each expectation is
worked out from `docs/FORMATS-cdl.md`, and none from the program."""
import sys
from pathlib import Path

LONG = "L" * 129
FULL = "F" * 128
TOO_LONG = "too many name, 128"


def transistor(card):
    """The line of a transistor's card: its name, and of its five further words the three nodes and the model."""
    name, drain, gate, source, _bulk, model = card.split()[:6]
    return f"  {name} drain {drain} gate {gate} source {source} model {model}"


def subcircuit(name, pins, *cards):
    told = [pin if "=" in pin else f"{pin}=Absent" for pin in pins.split()]
    return [" ".join([f" {name}", *told]), *map(transistor, cards)]


def netlist(*parts):
    return ["netlist", *(line for part in parts for line in part)]


def refused(name, card, line):
    return [f" {name} refused: {card} at line {line}"]


def syntax(line, column):
    return [f"syntax at line {line} column {column}"]


def again(name, line):
    return [f"{name} again at line {line}"]


# The first text is also read cut short. Up to `.SUBCK` its first word is another card, which is passed over; the bytes
# before the last `S` of `.ENDS` lack the end; with it the netlist is whole.
FIRST = ".SUBCKT I A\nM1 Y A V V n\n.ENDS\n"
ROWS = [
    (FIRST, netlist(subcircuit("I", "A", "M1 Y A V V n")) + ["8 beginnings: accepted", "23 beginnings: syntax at their ends"]),
    # as libraries have it
    (".SUBCKT ND2 A B Y VDD VSS\n*.PININFO A:I B:I Y:O VDD:P VSS:G\nMP1 Y A VDD VDD p w=0.5u l=0.06u $X=1\nMP2 Y B VDD VDD p w=0.5u\n+ l=0.06u $X=1 $Y=2\n"
     "MN1 Y A m VSS n\n+w=0.5u\n* the lower one\nMN2 m B VSS VSS n m=2\nC1 Y VSS 1f\n.ENDS ND2\n",
     netlist(subcircuit("ND2", "A=Input B=Input Y=Output VDD VSS", "MP1 Y A VDD VDD p", "MP2 Y B VDD VDD p", "MN1 Y A m VSS n", "MN2 m B VSS VSS n"))),
    # lines that go on
    ("+ A B\n.SUBCKT I\n.ENDS\n", syntax(1, 1)),
    ("* c\n\n  +X\n.SUBCKT I\n.ENDS\n", syntax(3, 3)),
    ("$ c\n+\n", syntax(2, 1)),
    ("* c\n.X\n+Y\n.SUBCKT I\n.ENDS\n", netlist(subcircuit("I", ""))),
    (".SUBCKT\n+I\n+ A\n* note\n\n+B\n.ENDS", netlist(subcircuit("I", "A B"))),
    (".SUBCKT\n+(I) A\n.ENDS", syntax(2, 2)),
    (".SUBCKT I A\n* comment\n+ B\n.ENDS", netlist(subcircuit("I", "A B"))),
    (".SUBCKT I A\n+$X B\n+C\n.ENDS", netlist(subcircuit("I", "A C"))),
    (".SUBCKT I A\n++B\n.ENDS", netlist(subcircuit("I", "A +B"))),
    (".SUBCKT I A\n+\n+ B\n.ENDS", netlist(subcircuit("I", "A B"))),
    ("  .SUBCKT I A\n\t+ B\n  * note\n  .ENDS", netlist(subcircuit("I", "A B"))),
    (".SUBCKT\tI A\r\n+\tB\r\n.ENDS\r\n", netlist(subcircuit("I", "A B"))),
    # what a $ hides
    ("$.SUBCKT I\n.SUBCKT J A $ B\n.ENDS $ J K\n", netlist(subcircuit("J", "A"))),
    (".SUBCKT J A$B\n.ENDS", netlist(subcircuit("J", "A$B"))),
    (".SUBCKT J\nM1 a b c d $ e\n.ENDS", netlist(refused("J", "M1", 2))),
    # the case of letters
    (".subckt i a\nm1 a b c d e\n.Ends i\n", netlist(subcircuit("i", "a", "m1 a b c d e"))),
    (".SubCkt i A\n*.PinInfo A:i\nc1 A b\n.ENDS", netlist(subcircuit("i", "A=Input"))),
    (".SUBCKTX I\n.SUBCKT J\n.ENDS", netlist(subcircuit("J", ""))),
    (".SUBCKT J\n.ENDSX\n.ENDS", netlist(refused("J", ".ENDSX", 2))),
    # how subcircuits begin and end
    (".SUBCKT I A\n.SUBCKT J B\n.ENDS\n.ENDS", syntax(2, 1)),
    (".SUBCKT I A\nR1 a b 5\n .SUBCKT J\n.ENDS", syntax(3, 2)),
    (".SUBCKT I A\nM1 a b c d e\n", syntax(3, 1)),
    (".SUBCKT I A", syntax(1, 12)),
    ("M1 a b c d e\n.ENDS", syntax(2, 1)),
    (".SUBCKT\nM1 a b c d e\n.ENDS", syntax(2, 1)),
    (".SUBCKT W=1\n* c\n", syntax(3, 1)),
    (".SUBCKT $I\n.ENDS", syntax(2, 1)),
    (".SUBCKT -\n.ENDS", syntax(1, 9)),
    (".SUBCKT I\n.ENDS I J", syntax(2, 9)),
    (".SUBCKT I\n.ENDS W=1", syntax(2, 7)),
    (".SUBCKT I\n.ENDS\n+J\n+K", syntax(4, 2)),
    (".SUBCKT I\nR1\n.ENDS I J", syntax(3, 9)),
    (".SUBCKT I\n.ENDS J\nX1 a\n", netlist(subcircuit("I", ""))),
    ("", ["netlist"]),
    ("M1 a b\n*.PININFO a\n", ["netlist"]),
    # what is told of pins
    (".SUBCKT I A Y\n*.PININFO A:O Y:I\nM1 Y A V V n\n*.pininfo A:I Y:x\n+Y:o Z:I A:P\n.ENDS", netlist(subcircuit("I", "A=Input Y=Output", "M1 Y A V V n"))),
    (".SUBCKT I A Y A\n*.PININFO A:B\n.ENDS", netlist(subcircuit("I", "A=Inout Y A=Inout"))),
    (".SUBCKT I A:B A\n*.PININFO A:B:I A:\n*.PININFO :O A:II A:B:P A\n.ENDS", netlist(subcircuit("I", "A:B=Input A"))),
    ("*.PININFO A:I\n.SUBCKT I A\n.ENDS\n*.PININFO A:I", netlist(subcircuit("I", "A"))),
    (".SUBCKT I A\n*.PININFOX A:I\n* .PININFO A:I\n.ENDS", netlist(subcircuit("I", "A"))),
    (f".SUBCKT I A\n*.PININFO {LONG}:I ( A:O\n.ENDS", netlist(subcircuit("I", "A=Output"))),
    # cards that refuse their subcircuit
    (".SUBCKT I A\nM1 a b c d\n.ENDS\n.SUBCKT J\n.ENDS", netlist(refused("I", "M1", 2), subcircuit("J", ""))),
    (".SUBCKT I\nM1 a b=1 c\n.ENDS", netlist(refused("I", "b=1", 2))),
    (".SUBCKT I\nM1 a\n+ b (c)\n.ENDS", netlist(refused("I", "(c)", 3))),
    (".SUBCKT I\nM1 a b c - e\n.ENDS", netlist(refused("I", "-", 2))),
    (".SUBCKT I\nM(1 a\n.ENDS", netlist(refused("I", "M(1", 2))),
    (".SUBCKT I\nM a b c d e (\n.ENDS", netlist(subcircuit("I", "", "M a b c d e"))),
    (".SUBCKT I A\nC1 A ( 1f\nR1 A B 5\nM1 (\n.ENDS", netlist(refused("I", "R1", 3))),
    (".SUBCKT I A\nX1 A / J\n.ENDS", netlist(refused("I", "X1", 2))),
    (".SUBCKT I A\n\n.PARAM w=1\nX1\n.ENDS", netlist(refused("I", ".PARAM", 3))),
    (".SUBCKT I A (B C\n.ENDS", netlist(refused("I", "(B", 1))),
    (".SUBCKT X=1 I A W=(1 B\n.ENDS", netlist(subcircuit("I", "A B"))),
    (".SUBCKT I\nR\u00e9 a\n.ENDS", netlist(refused("I", "wide", 2))),
    (f".SUBCKT I\nR{LONG}\n.ENDS\n.SUBCKT J\n.{FULL[1:]}\n.ENDS", netlist(refused("I", "wide", 2), refused("J", "." + FULL[1:], 5))),
    # long names
    (f".SUBCKT {LONG}\n.ENDS", [TOO_LONG]),
    (f".SUBCKT {FULL}\n.ENDS", netlist(subcircuit(FULL, ""))),
    (f".SUBCKT I A {LONG}(\n.ENDS", [TOO_LONG]),
    (f".SUBCKT I (A {LONG}\n.ENDS", netlist(refused("I", "(A", 1))),
    (f".SUBCKT I\nM1 a b c {LONG} e\n.ENDS", [TOO_LONG]),
    (f".SUBCKT I\nM1 a b (c {LONG} e\n.ENDS", netlist(refused("I", "(c", 2))),
    (f".SUBCKT I\nR1\nM1 {LONG}\n.ENDS", netlist(refused("I", "R1", 2))),
    (f".SUBCKT I W={LONG}\nC{LONG} a\nM1 a b c d e {LONG}\n.ENDS", netlist(subcircuit("I", "", "M1 a b c d e"))),
    (f".SUBCKT I\n.ENDS {LONG}", [TOO_LONG]),
    # names that stand twice
    (".SUBCKT I\n.ENDS\n.SUBCKT I\n.ENDS", again("I", 3)),
    (".SUBCKT I\nR1\n.ENDS\n.SUBCKT\n+ I\n.ENDS", again("I", 5)),
    (".SUBCKT I\n.ENDS\n.SUBCKT i\n.ENDS", netlist(subcircuit("I", ""), subcircuit("i", ""))),
    (".SUBCKT I\n.ENDS\n.ENDS\n.SUBCKT I\n.ENDS", syntax(3, 1)),
    (".SUBCKT I\n.ENDS\n.SUBCKT I\n.SUBCKT", again("I", 3)),
    (f".SUBCKT I\n.ENDS\n.SUBCKT I {LONG}\n.ENDS", again("I", 3)),
]

MX = """MP1 sn S VDD VDD p
MN1 sn S VSS VSS n
MN2 D0 sn m VSS n
MP2 D0 S m VDD p
MN3 D1 S m VSS n
MP3 D1 sn m VDD p
MP4 qn m VDD VDD p
MN4 qn m VSS VSS n
MP5 m qn VDD VDD pw
MN5 m qn VSS VSS nw
MP6 Y qn VDD VDD p
MN6 Y qn VSS VSS n"""
RING = """MP1 r1 EN VDD VDD p
MP2 r1 Y VDD VDD p
MN1 r1 EN r4 VSS n
MN2 r4 Y VSS VSS n
MP3 r2 r1 VDD VDD p
MN3 r2 r1 VSS VSS n
MP4 Y r2 VDD VDD p
MN4 Y r2 VSS VSS n"""
FLIP_FLOP = """MP1 ckn CK VDD VDD p
MN1 ckn CK VSS VSS n
MP2 ckb ckn VDD VDD p
MN2 ckb ckn VSS VSS n
MN3 D ckn m1 VSS n
MP3 D ckb m1 VDD p
MP4 m2 m1 VDD VDD p
MN4 m2 m1 VSS VSS n
MP5 ta m2 VDD VDD pw
MP6 m1 ckn ta VDD pw
MN5 m1 ckb tb VSS nw
MN6 tb m2 VSS VSS nw
MN7 m2 ckb s1 VSS n
MP7 m2 ckn s1 VDD p
MP8 s2 s1 VDD VDD p
MN8 s2 s1 VSS VSS n
MP9 tc s2 VDD VDD pw
MP10 s1 ckb tc VDD pw
MN9 s1 ckn td VSS nw
MN10 td s2 VSS VSS nw
MP11 Q s1 VDD VDD p
MN11 Q s1 VSS VSS n"""
CELLS = [
    ("S0", "A Y VDD VSS", "MP1 Y A VDD VDD p\nMN1 Y A VSS VSS n"),
    ("S1", "A B Y VDD VSS", "MP1 Y A VDD VDD p\nMP2 Y B VDD VDD p\nMN1 Y A m VSS n\nMN2 m B VSS VSS n"),
    ("S2", "A B Y VDD VSS", "MP1 m A VDD VDD p\nMP2 Y B m VDD p\nMN1 Y A VSS VSS n\nMN2 Y B VSS VSS n"),
    ("S3", "A B Y VDD VSS", "MP1 Y A VDD VDD p\nMP2 Y B VDD VDD p\nMN1 Y A VSS VSS n\nMN2 Y B VSS VSS n"),
    ("MX", "D0 D1 S Y VDD VSS", MX),
    ("RNG", "EN Y VDD VSS", RING),
    ("DFF", "D CK Q VDD VSS", FLIP_FLOP),
]

# 4,097 subcircuits, the last of which begins without a name and as one that is there
MANY = "".join(f".SUBCKT c{number}\n.ENDS\n" for number in range(4096))


def samples():
    text = "".join(f".SUBCKT {name} {pins}\n{cards}\n.ENDS\n" for name, pins, cards in CELLS)
    return text, netlist(*(subcircuit(name, pins, *cards.split("\n")) for name, pins, cards in CELLS))


def main():
    folder = Path(sys.argv[1])
    (folder / "data").mkdir(exist_ok=True)
    files = {
        "rows.txt": ROWS,
        "samples.txt": [("", ["netlist", "0 beginnings: accepted", "0 beginnings: syntax at their ends"]), samples()],
        "many.txt": [("", ["netlist", "0 beginnings: accepted", "0 beginnings: syntax at their ends"]),
                     (MANY + ".SUBCKT\n", ["too many cells, 4096"]), (MANY + ".SUBCKT c0\n", ["too many cells, 4096"])],
    }
    lines = []
    for name, texts in files.items():
        (folder / "data" / name).write_text("%".join(text for text, _ in texts), encoding="utf-8", newline="")
        lines += [line for _, told in texts for line in told]
    (folder / "stdout").write_text("".join(f"{line}\n" for line in lines), encoding="utf-8")
    (folder / "args").write_text("".join(f"{name}\n" for name in files))


main()
