"""Writes a CDL netlist of 4,096 subcircuits, of about so many megabytes: make_cdl.py MEGABYTES KIND FILE.

KIND is `extracted` (30 transistors a cell with their usual parameters, and for the rest capacitors, as a netlist is that was
extracted from layout), `transistors` (such transistors alone) or `short` (transistors with width and length alone)."""
import sys

CELLS = 4096
TRANSISTORS = 30
PARAMETERS = " w=0.5u l=0.06u ad=0.0725p as=0.0925p pd=1.29u ps=1.37u nrd=0.31 nrs=0.42 sa=0.2u sb=0.2u nf=1 m=1"


def transistor(number, parameters):
    kind, rail, model = ("P", "VDD", "pch") if number % 2 == 0 else ("N", "VSS", "nch")
    return f"M{kind}{number} net{number % 97} A{number % 4} {rail} {rail} {model}{parameters}\n"


def long_transistor(number):
    return transistor(number, f"{PARAMETERS} $X={number * 37} $Y={number * 91} $D=0")


def short_transistor(number):
    return transistor(number, " w=0.5u l=0.06u m=1")


def capacitor(number):
    return f"C{number} net{number % 97} net{number * 7 % 89} 0.0{number % 83}f $X={number * 53}\n"


def extracted(number):
    return long_transistor(number) if number < TRANSISTORS else capacitor(number)


KINDS = {"extracted": extracted, "transistors": long_transistor, "short": short_transistor}


def cell(number, size, card):
    out = [f".SUBCKT CELL{number} A0 A1 A2 A3 Y VDD VSS\n*.PININFO A0:I A1:I A2:I A3:I Y:O VDD:P VSS:G\n"]
    length, cards = 120, 0
    while length < size:
        out.append(card(cards))
        length += len(out[-1])
        cards += 1
    return "".join(out) + ".ENDS\n\n"


def main():
    megabytes, kind, path = sys.argv[1:]
    size = int(megabytes) * 1_000_000 // CELLS
    with open(path, "w", encoding="ascii") as file:
        file.writelines(cell(number, size, KINDS[kind]) for number in range(CELLS))


main()
