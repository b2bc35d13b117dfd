"""Writes what pin_rows reads and what it must print: a library, a source text, a netlist, a LEF file, the cases and the
expected lines.

The expected lines come from the rules as this script has them ("Pin tables and their findings" of docs/MEANING.md), and
from nothing that the program prints. Beside some cases stand findings that were found by hand; the script stops where they
differ.

    python3 oracles/pins.py crates/pin_rows
"""
import sys
from pathlib import Path

LIBERTY_WORDS = {"i": "input", "o": "output", "n": "internal", "+": "primary_power", "-": "primary_ground"}
VERILOG_WORDS = {"i": "input", "o": "output", "b": "inout"}
CDL_WORDS = {"i": "I", "o": "O", "b": "B"}
LEF_WORDS = {"i": "INPUT", "o": "OUTPUT", "t": "OUTPUT TRISTATE", "b": "INOUT", "f": "FEEDTHRU"}
LEF_USES = {"": "SIGNAL", "+": "POWER", "-": "GROUND"}
VIEWS = ["verilog", "cdl", "lef"]


class Pin:
    """A pin of a view: `NAME:D`, with a `+` or a `-` behind it for a supply."""

    def __init__(self, word):
        self.word = word
        self.name, said = word.split(":")
        self.direction, self.kind = said[0], said[1:]


def pins(words):
    return [Pin(word) for word in words.replace(",", " ").split() if word != "."]


# Cells, modules, subcircuits and macros: their pins in the order of the file. `a` is a pin that no direction is given to,
# `t` a three-state output.
CELLS = {
    "LENT": "IQ:n A:i",
    "OWN": "GND:a- A:i",
    "OWN_LAST": "A:i Y:o VPWR:a+",
    "NAMED_LIKE_SUPPLIES": "VDD:i VSS:o",
    "BARE": ".",
    "FLIP_FLOP": "D:i CK:i IQ:n IQN:n Q:o QN:o VDD:a+ VSS:a-",
}
MODULES = {
    "LENT": "A:i",
    "PORTS": "VDD:o Y:o B:o",
    "OWN": "A:i GND:b",
    "NAMED_LIKE_SUPPLIES": "VSS:i VDD:i",
    "FLIP_FLOP": "Q:o D:i CK:o IQ:o VSS:b nowell:b",
}
SUBCIRCUITS = {
    "OWN": "A:o GND:b",
    "PORTS": "VDD:i Y:a",
    "FLIP_FLOP": "VSS:b VDD:a Q:i D:a CK:i QN:o IQ:o",
}
MACROS = {
    "OWN": "GND:b A:f-",
    "FLIP_FLOP": "Q:t D:i CK:o IQ:o VSS:b- nowell:b",
}


def cell(name):
    groups = [f"pg_pin ({p.name}) {{ pg_type : {LIBERTY_WORDS[p.kind]}; }}" if p.kind else f"pin ({p.name}) {{ direction : {LIBERTY_WORDS[p.direction]}; }}"
              for p in pins(CELLS[name])]
    return "\n".join([f"cell ({name}) {{", *groups, "}"])


def module(name):
    ports = ", ".join(f"{VERILOG_WORDS[p.direction]} {p.name}" for p in pins(MODULES[name]))
    return f"module {name} ({ports});\nendmodule"


def subcircuit(name):
    told = [f"*.PININFO {p.name}:{CDL_WORDS[p.direction]}" for p in pins(SUBCIRCUITS[name]) if p.direction != "a"]
    return "\n".join([" ".join([".SUBCKT", name, *(p.name for p in pins(SUBCIRCUITS[name]))]), *told, ".ENDS"])


def macro(name):
    stands = [f"PIN {p.name}\nDIRECTION {LEF_WORDS[p.direction]} ;\nUSE {LEF_USES[p.kind]} ;\nEND {p.name}" for p in pins(MACROS[name])]
    return "\n".join([f"MACRO {name}", *stands, f"END {name}"])


def liberty_table(name, supplies):
    own = pins(CELLS[name])
    table = [pin for pin in own if pin.direction != "n"]
    if not any(pin.kind for pin in own):
        table += [Pin(f"{s.name}:a{s.kind}") for s in pins(supplies) if s.name not in [pin.name for pin in own]]
    return table


def beside(words, liberty):
    """Pins of another view, each of the kind that Liberty's table gives its name at its first place."""
    kinds = {pin.name: pin.kind for pin in reversed(liberty)}
    return [Pin(pin.word + kinds.get(pin.name, "")) for pin in pins(words)]


def view_table(view, name, liberty):
    """The table of what has this name in the view's file."""
    if view == "lef":
        return pins(MACROS[name].replace(":t", ":o")) if name in MACROS else None
    words = (MODULES if view == "verilog" else SUBCIRCUITS).get(name)
    return None if words is None else beside(words, liberty)


def first_of(table, name):
    return next((pin for pin in table if pin.name == name), None)


def code(view, wanted, table):
    """What the view breaks at a pin of Liberty's."""
    said = first_of(table, wanted.name)
    if said is None:
        return None if view == "verilog" and wanted.kind else "P2"
    if not wanted.kind and said.direction not in ("a", wanted.direction):
        return "P3"
    return "P4" if view == "lef" and said.kind != wanted.kind else None


def findings(liberty, others):
    told = [f"P1 - {view}" for view in VIEWS if others[view] is None]
    there = {view: table for view, table in others.items() if table is not None}
    for place, pin in enumerate(liberty):
        if first_of(liberty[:place], pin.name):
            continue
        broken = [(view, code(view, pin, table)) for view, table in there.items()]
        told += [f"{broke} {pin.name} {view}" for view, broke in broken if broke]
    lacking = {pin.name for table in there.values() for pin in table} - {pin.name for pin in liberty}
    return told + [f"P2 {name} liberty" for name in sorted(lacking, key=str.encode)]


class Case:
    """The technology's supplies and the views' words, `@NAME` for the files', and findings that were found by hand."""

    def __init__(self, liberty, verilog="-", cdl="-", lef="-", supplies=".", found=None):
        self.words, self.found = [word.replace(" ", ",") for word in (supplies, liberty, verilog, cdl, lef)], found

    def lines(self):
        supplies, word, *words = self.words
        liberty = liberty_table(word[1:], supplies) if word[0] == "@" else pins(word)
        others = {view: self.table(view, other, liberty) for view, other in zip(VIEWS, words)}
        told = findings(liberty, others)
        assert self.found is None or self.found.split(", ") == told, (self.words, told)
        shown = [self.shown(view, others[view], other) for view, other in zip(VIEWS, words)]
        return [self.shown("liberty", liberty, word), *shown, *(f"finding {line}" for line in told)]

    def table(self, view, word, liberty):
        if word == "-":
            return None
        return view_table(view, word[1:], liberty) if word[0] == "@" else pins(word)

    def shown(self, view, table, word):
        if table is None:
            return f"{view} absent"
        return " ".join([view, word[1:] if word[0] == "@" else "CELL", *(pin.word for pin in table)])


def views():
    yield Case("A:i", cdl=".", found="P1 - verilog, P1 - lef, P2 A cdl")
    yield Case(".", found="P1 - verilog, P1 - cdl, P1 - lef")
    yield Case("A:i Y:o VDD:a+ VSS:a-", "A:i Y:o", "A:i Y:o VSS:a-", "A:i Y:o VDD:a+ VSS:a-", found="P2 VDD cdl")
    yield Case("A:i VDD:a+", "A:o VDD:b+", "A:a VDD:b+", "A:o VDD:b+", found="P3 A verilog, P3 A lef")
    yield Case("A:i VDD:a+", *["A:i+ VDD:b-"] * 3, found="P4 A lef, P4 VDD lef")
    yield Case("Y:o", "B9:i", "B10:i Y:o B9:i", "B:i Y:o B:i", found="P2 Y verilog, P2 B liberty, P2 B10 liberty, P2 B9 liberty")
    yield Case("A:i Y:o A:o", "A:i A:o Y:o", "A:o A:i Y:o", "A:i Y:o", found="P3 A cdl")
    # of a direction and a kind that both differ the direction is told
    yield Case("A:i", *["A:o+"] * 3, found="P3 A verilog, P3 A cdl, P3 A lef")
    yield Case("B:i A:i", *["a:i"] * 3, found="P2 B verilog, P2 B cdl, P2 B lef, P2 A verilog, P2 A cdl, P2 A lef, P2 a liberty")


def pairs():
    """Each direction and each kind in Liberty against each in the others."""
    letters, signs = "iobfna", ["", "+", "-"]
    for mine in letters:
        liberty = " ".join(f"p{k}:{mine}" for k in range(len(letters)))
        yield Case(liberty, *[" ".join(f"p{k}:{letter}" for k, letter in enumerate(letters))] * 3)
    for sign in signs:
        liberty = " ".join(f"p{k}:i{sign}" for k in range(len(signs)))
        yield Case(liberty, *[" ".join(f"p{k}:i{other}" for k, other in enumerate(signs))] * 3)
        yield Case(liberty, *[" ".join(f"p{k}:o{other}" for k, other in enumerate(signs))] * 3)
        yield Case(f"p:i{sign}", ".", ".", ".")


def files():
    yield Case("@LENT", "@LENT", supplies="VDD:a+ IQ:a+ VSS:a-", found="P1 - cdl, P1 - lef")
    yield Case("@LENT", "A:i IQ:n", supplies="VSS:a-", found="P1 - cdl, P1 - lef, P2 IQ liberty")
    yield Case("@OWN", "@OWN", supplies="VDD:a+ IQ:a+ VSS:a-", found="P1 - cdl, P1 - lef")
    yield Case("@OWN_LAST", "-", "A:i Y:o VPWR:a+", supplies="VDD:a+ VSS:a-", found="P1 - verilog, P1 - lef")
    yield Case("@NAMED_LIKE_SUPPLIES", "@NAMED_LIKE_SUPPLIES", supplies="VDD:a+ GND:a- VSS:a-", found="P1 - cdl, P1 - lef, P3 VSS verilog")
    yield Case("@BARE", "@NOWHERE", supplies="VDD:a+ VSS:a-", found="P1 - verilog, P1 - cdl, P1 - lef")
    yield Case("@BARE", "@LENT", found="P1 - cdl, P1 - lef, P2 A liberty")
    yield Case("Y:o VDD:a+", "@PORTS", found="P1 - cdl, P1 - lef, P2 B liberty")
    # of a name that stands twice in Liberty's table the first kind counts
    yield Case("VDD:a- Y:o VDD:a+", "@PORTS", found="P1 - cdl, P1 - lef, P2 B liberty")
    yield Case("@FLIP_FLOP", "@FLIP_FLOP", "D:i CK:i Q:o QN:o VDD:a VSS:a", "@FLIP_FLOP", supplies="VPWR:a+",
               found="P3 CK verilog, P3 CK lef, P2 QN verilog, P2 QN lef, P2 VDD lef, P2 IQ liberty, P2 nowell liberty")
    yield Case("@OWN", "@OWN", "@OWN", "@OWN", found="P4 GND lef, P3 A cdl, P3 A lef")
    yield Case("@FLIP_FLOP", "-", "@FLIP_FLOP", "@FLIP_FLOP",
               found="P1 - verilog, P3 CK lef, P3 Q cdl, P2 QN lef, P2 VDD lef, P2 IQ liberty, P2 nowell liberty")
    yield Case("VDD:a- Y:o VDD:a+", "-", "@PORTS", "@NOWHERE", found="P1 - verilog, P1 - lef")


def main(folder):
    cases = [case for part in (views, pairs, files) for case in part()]
    texts = {
        "data/cells.lib": "\n".join(["library (pins) {", *map(cell, CELLS), "}"]),
        "data/modules.v": "\n".join(map(module, MODULES)),
        "data/subcircuits.cdl": "\n".join(map(subcircuit, SUBCIRCUITS)),
        "data/macros.lef": "\n".join([*map(macro, MACROS), "END LIBRARY"]),
        "data/cases.txt": "\n".join([*(" ".join(case.words) for case in cases), ". @NOWHERE - - -"]),
        "args": "cells.lib\nmodules.v\nsubcircuits.cdl\nmacros.lef\ncases.txt",
        "stdout": "\n".join([*(line for case in cases for line in case.lines()), "no such cell"]),
    }
    for name, text in texts.items():
        (Path(folder) / name).write_text(text + "\n", encoding="ascii")


main(sys.argv[1])
