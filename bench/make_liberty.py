#!/usr/bin/env python3
"""Writes a Liberty file with timing tables, of about so many megabytes: make_liberty.py MEGABYTES FILE."""
import random
import sys


def table(rows, columns, out):
    for row in range(rows):
        numbers = ", ".join(f"{random.random():.6f}" for _ in range(columns))
        end = ", \\\n" if row + 1 < rows else ");\n"
        out.append(f'            "{numbers}"{end}')


def timing(pin, out):
    out.append(f'      timing() {{\n        related_pin : "{pin}";\n        timing_sense : negative_unate;\n')
    for group in ("cell_rise", "rise_transition", "cell_fall", "fall_transition"):
        out.append(f"        {group}(tmpl_7x7) {{\n")
        out.append('          index_1("0.01, 0.02, 0.05, 0.1, 0.2, 0.5, 1.0");\n')
        out.append('          index_2("0.001, 0.002, 0.005, 0.01, 0.02, 0.05, 0.1");\n')
        out.append("          values( \\\n")
        table(7, 7, out)
        out.append("        }\n")
    out.append("      }\n")


def cell(number, out):
    out.append(f"  /* cell {number} */\n  cell(NAND{number}) {{\n    area : {number % 97}.5;\n")
    for pin in "AB":
        out.append(f"    pin({pin}) {{ direction : input; capacitance : 0.0{number % 89}; }}\n")
    out.append('    pin(Y) {\n      direction : output;\n      function : "!(A*B)";\n')
    # as many as keep a file of 100 MB below the limit of 4,096 cells
    for pin in "AB" * 4:
        timing(pin, out)
    out.append("    }\n  }\n")


def main():
    size = int(sys.argv[1]) * 1_000_000
    random.seed(1)
    written = 0
    number = 0
    with open(sys.argv[2], "w") as file:
        written += file.write("library(bench) {\n")
        while written < size:
            out = []
            cell(number, out)
            written += file.write("".join(out))
            number += 1
        file.write("}\n")


main()
