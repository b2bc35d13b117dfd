#!/usr/bin/env python3
"""Writes a Liberty file of so many cells with so many pins each: make_names.py CELLS PINS FILE."""
import sys

cells, pins = int(sys.argv[1]), int(sys.argv[2])
with open(sys.argv[3], "w") as file:
    file.write("library(names) {\n")
    for cell in range(cells):
        file.write(f"  cell(CELL_{cell}) {{\n")
        for pin in range(pins):
            file.write(f"    pin(PIN_{pin}) {{ direction : input; capacitance : 0.001; }}\n")
        file.write("  }\n")
    file.write("}\n")
