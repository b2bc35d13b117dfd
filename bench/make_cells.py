#!/usr/bin/env python3
"""Writes a library of combinational cells with their Verilog models, and what other tools need to compare them.

    python3 bench/make_cells.py FOLDER COUNT small   inverters, NANDs and NORs in turn
    python3 bench/make_cells.py FOLDER COUNT mixed   functions of 2 to 6 inputs, some 25 vectors each

FOLDER/cells.lib and FOLDER/cells.v are the library and its models. FOLDER/looped.v is a testbench with a loop over the
vectors of each cell, FOLDER/listed.v one that lists each vector with Liberty's value, and FOLDER/cells.ys a script that
proves each cell by SAT.
"""
import random
import sys


class Cell:
    """A cell: its inputs, its function as Liberty and as a Verilog expression, and its gates."""

    def __init__(self, name, inputs, liberty, expression, gates):
        self.name, self.inputs = name, inputs
        self.liberty, self.expression, self.gates = liberty, expression, gates


def small(k):
    name = f"S{k}"
    if k % 3 == 0:
        return Cell(name, ["A"], "!A", "~A", ["not(Y,A);"])
    if k % 3 == 1:
        return Cell(name, ["A", "B"], "!(A*B)", "~(A&B)", ["nand(Y,A,B);"])
    return Cell(name, ["A", "B"], "!(A+B)", "~(A|B)", ["nor(Y,A,B);"])


def mixed(k):
    dice = random.Random(k)
    inputs = [f"A{i}" for i in range(2 + k % 5)]
    gates, nets = [], 0
    terms = [(name, name, name) for name in inputs]
    while len(terms) > 1:
        left = terms.pop(dice.randrange(len(terms)))
        right = terms.pop(dice.randrange(len(terms)))
        word, liberty, verilog = dice.choice([("and", "*", "&"), ("or", "+", "|"), ("xor", "^", "^")])
        inverted = dice.random() < 0.4
        word = {"and": "nand", "or": "nor", "xor": "xnor"}[word] if inverted else word
        net = "Y" if not terms else f"n{nets}"
        nets += 1
        gates.append(f"{word}({net},{left[2]},{right[2]});")
        sign, tilde = ("!", "~") if inverted else ("", "")
        terms.append((f"{sign}({left[0]}{liberty}{right[0]})", f"{tilde}({left[1]}{verilog}{right[1]})", net))
    return Cell(f"M{k}", inputs, terms[0][0], terms[0][1], gates)


def library_lines(cells):
    for cell in cells:
        pins = "".join(f"pin({a}){{direction:input;}}" for a in cell.inputs)
        yield f'cell({cell.name}){{{pins}pin(Y){{direction:output;function:"{cell.liberty}";}}}}'


def model_lines(cells):
    for cell in cells:
        names = ",".join(cell.inputs)
        yield f"module {cell.name}({names},Y);input {names};output Y;{''.join(cell.gates)}endmodule"


def instance_lines(cells):
    for cell in cells:
        wires = ",".join(f"v_{cell.name}[{i}]" for i in range(len(cell.inputs)))
        yield f"reg [{len(cell.inputs) - 1}:0] v_{cell.name}; wire y_{cell.name};"
        yield f"{cell.name} u_{cell.name}({wires},y_{cell.name});"


def loops(cells):
    """For each cell a loop over its vectors, with the function as an expression beside the output."""
    for cell in cells:
        expression = cell.expression
        for i in reversed(range(len(cell.inputs))):
            expression = expression.replace(cell.inputs[i], f"v_{cell.name}[{i}]")
        yield (f"for (k = 0; k < {1 << len(cell.inputs)}; k = k + 1) begin v_{cell.name} = k; #1; "
               f"if (y_{cell.name} !== ({expression})) wrong = wrong + 1; end")


def lists(cells):
    """For each vector of each cell its line, with Liberty's value beside the output."""
    for cell in cells:
        for k in range(1 << len(cell.inputs)):
            value = eval(cell.expression, {a: k >> i & 1 for i, a in enumerate(cell.inputs)}) & 1
            yield f"v_{cell.name} = {k}; #1; if (y_{cell.name} !== 1'b{value}) wrong = wrong + 1;"


def bench_lines(cells, tries):
    yield from ["module bench;", "integer k, wrong;", "initial wrong = 0;"]
    yield from instance_lines(cells)
    yield "initial begin"
    yield from tries(cells)
    yield '$display("wrong %0d", wrong); $finish; end'
    yield "endmodule"


def proof_lines(cells):
    yield "read_liberty cells.lib"
    yield from (f"rename {cell.name} gold_{cell.name}" for cell in cells)
    yield "read_verilog cells.v"
    for cell in cells:
        yield f"miter -equiv -flatten gold_{cell.name} {cell.name} m_{cell.name}; sat -verify -prove trigger 0 m_{cell.name}"


def write(folder, name, lines):
    with open(f"{folder}/{name}", "w") as file:
        file.writelines(f"{line}\n" for line in lines)


def main():
    folder, count, kind = sys.argv[1], int(sys.argv[2]), sys.argv[3]
    cells = [(small if kind == "small" else mixed)(k) for k in range(count)]
    write(folder, "cells.lib", ["library(cells){", *library_lines(cells), "}"])
    write(folder, "cells.v", model_lines(cells))
    write(folder, "looped.v", bench_lines(cells, loops))
    write(folder, "listed.v", bench_lines(cells, lists))
    write(folder, "cells.ys", proof_lines(cells))


if __name__ == "__main__":
    main()
