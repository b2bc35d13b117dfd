#!/usr/bin/env python3
"""Writes a Verilog file of 4,096 cell models with specify blocks, of about so many megabytes: make_verilog.py MEGABYTES FILE."""
import sys

CELLS = 4096


def arc(number, out):
    rise = f"{number % 7}.{number % 97:02}"
    out.append(f"    // delay arc {number}\n")
    out.append(f"    if (A == 1'b1 && B == 1'b0) (A => Y) = ({rise}:{rise}:{rise}, 0.{number % 89:02}:0.{number % 83:02}:0.{number % 79:02});\n")
    out.append(f"    (B +=> Y) = ({rise}, {rise});\n")
    out.append(f"    $setuphold(posedge CK, negedge D &&& (SE === 1'b0), {rise}, 0.{number % 73:02}, notifier);\n")


def model(number, size, out):
    out.append(f"`celldefine\nmodule NAND2X{number} (A, B, Y);\n  input A, B;\n  output Y;\n")
    out.append("  wire n0, n1;\n  supply1 vdd;\n")
    out.append("  nand #0.01 (n0, A, B);\n  not g0 (n1, n0), g1 (n2, n1);\n  buf (Y, n0);\n")
    out.append("  specify\n")
    length, arcs = 300, 0
    while length < size:
        before = len(out)
        arc(number + arcs, out)
        length += sum(len(text) for text in out[before:])
        arcs += 1
    out.append("  endspecify\nendmodule\n`endcelldefine\n\n")


def main():
    size = int(sys.argv[1]) * 1_000_000
    out = ["`timescale 1ns/1ps\n"]
    for number in range(CELLS):
        model(number, size // CELLS, out)
    with open(sys.argv[2], "w") as file:
        file.writelines(out)


main()
