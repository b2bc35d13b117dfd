#!/usr/bin/env python3
"""Random modules through `qual compare` and through Icarus Verilog.

    python3 crosscheck/against_icarus.py PROGRAM [SEED] [CELLS]

Each module is of gates, primitives, constants, supplies, delays, labels, escaped names and directives. Icarus' answers to
all vectors become the functions of a Liberty library, which `qual` must find equal; with one value of each cell turned
round it must find them different. A module of which an output is x somewhere is never equal. Prints what disagrees, and
then how many cells were tried.
"""
import collections
import itertools
import os
import random
import subprocess
import sys
import tempfile

GATES = ["and", "or", "nand", "nor", "xor", "xnor"]
DELAYS = ["", "", "", "#1", "#(1,2)"]


LEVELS = {"?": "01x", "b": "01"}


def conflict(row, other):
    """Whether both rows match somewhere and give different values."""
    meet = all(set(LEVELS.get(a, a)) & set(LEVELS.get(b, b)) for a, b in zip(row[0], other[0]))
    return meet and row[1] != other[1]


class Text:
    """A source text of primitives and modules, drawn by a seed."""

    def __init__(self, seed, cells):
        self.dice = random.Random(seed)
        names = ["\\buf ", "\\and ", "u2", "\\u-3 ", "u4", "u5"]
        self.primitives = [(name, 1 if name == "\\buf " else self.dice.randint(1, 3)) for name in names]
        self.parts = [self.primitive(name, inputs) for name, inputs in self.primitives]
        self.cells = [self.module(k) for k in range(cells)]

    def primitive(self, name, inputs):
        ports = [f"i{k}" for k in range(inputs)]
        rows = []
        for symbols in itertools.chain(self.wide_rows(inputs), itertools.product("01", repeat=inputs)):
            row = (symbols, self.dice.choice("01010101x"))
            if not any(conflict(row, other) for other in rows):
                rows.append(row)
        rows = [f"{' '.join(symbols)} : {value} ;" for symbols, value in rows]
        if self.dice.random() < 0.5:
            head = f"primitive {name}(output q, {', '.join('input ' + p for p in ports)});"
        else:
            head = f"primitive {name}(q, {', '.join(ports)}); output q; input {', '.join(ports)};"
        return "\n".join([head, "table", *rows, "endtable", "endprimitive"])

    def wide_rows(self, inputs):
        """Some rows that stand for several vectors."""
        return [tuple(self.dice.choice("01x?b") for _ in range(inputs)) for _ in range(self.dice.randrange(3))]

    def written(self, net):
        return self.dice.choice([net, net, net, f"\\{net} "])

    def source(self, nets):
        """A net that has a value, a constant, or a net that floats."""
        draw = self.dice.random()
        if draw < 0.08:
            return self.dice.choice(["1'b0", "1'b1", "1'B1"])
        return "floating" if draw < 0.11 else self.written(self.dice.choice(nets))

    def element(self, k, out, nets):
        """An instance with this output, and the nets to which it gives a value."""
        kind = self.dice.choice([*GATES, "buf", "not", "primitive", "primitive"])
        driven = [out]
        if kind in ("buf", "not"):
            driven += [f"also{k}"] if self.dice.random() < 0.3 else []
            sources = 1
        elif kind == "primitive":
            kind, sources = self.dice.choice(self.primitives)
        else:
            sources = self.dice.randint(1, 4)
        label = self.dice.choice(["", f"g{k}", f"\\g[{k}] "])
        terminals = [self.written(net) for net in driven] + [self.source(nets) for _ in range(sources)]
        return f"{kind} {self.dice.choice(DELAYS)} {label}({', '.join(terminals)});", driven

    def module(self, cell):
        inputs = [f"A{k}" for k in range(self.dice.randint(1, 4))]
        outputs = [f"Y{k}" for k in range(self.dice.randint(1, 2))]
        supplies = [s for s in ("supply0", "supply1") if self.dice.random() < 0.4]
        nets, elements = inputs + [f"{s}_net" for s in supplies], []
        for k, out in enumerate([f"n{k}" for k in range(self.dice.randint(0, 5))] + outputs):
            text, driven = self.element(k, out, nets)
            elements.append(text)
            nets += driven
        self.dice.shuffle(elements)
        elements = self.branched(elements)
        if self.dice.random() < 0.3:
            elements.append("specify (A0 => Y0) = (1,1); endspecify")
        if self.dice.random() < 0.5:
            head = [f"module C{cell}({', '.join('input ' + a for a in inputs)}, {', '.join('output ' + y for y in outputs)});"]
        else:
            head = [f"module C{cell}({', '.join(inputs + outputs)});", f"input {', '.join(inputs)}; output {', '.join(outputs)};"]
        own = [f"{s} {s}_net; // a comment" for s in supplies]
        self.parts.append("\n".join([*head, *own, "/* and one */", *elements, "endmodule"]))
        return inputs, outputs

    def branched(self, elements):
        """The elements, or those in the branch that is taken of a condition."""
        form = self.dice.randrange(6)
        other = "not(Y0, A0);"
        if form == 0:
            return ["`ifdef NEVER", other, "`else", *elements, "`endif"]
        if form == 1:
            return ["`define ONCE", "`ifdef ONCE", *elements, "`elsif NEVER", other, "`else", other, "`endif", "`undef ONCE"]
        if form == 2:
            return ["`ifndef NEVER", *elements, "`ifdef ONCE", other, "`endif", "`endif"]
        return elements


def answers(text):
    """Icarus' value of each output of each cell at each vector, the first output first."""
    bench = ["module tb;", "integer k;"]
    shows = []
    for cell, (inputs, outputs) in enumerate(text.cells):
        ports = [f"a{cell}[{k}]" for k in range(len(inputs))] + [f"y{cell}[{k}]" for k in range(len(outputs))]
        bench.append(f"reg [{len(inputs) - 1}:0] a{cell}; wire [{len(outputs) - 1}:0] y{cell}; C{cell} u{cell}({', '.join(ports)});")
        shows.append(f'for (k = 0; k < {1 << len(inputs)}; k = k + 1) begin a{cell} = k; #100; $display("{cell} %0d %b", k, y{cell}); end')
    with open("tb.v", "w") as file:
        file.write("\n".join([*bench, "initial begin", *shows, "$finish; end", "endmodule"]))
    subprocess.run(["iverilog", "-g2005", "-o", "tb.vvp", "tb.v", "cells.v"], check=True)
    said = subprocess.run(["vvp", "-n", "tb.vvp"], check=True, capture_output=True, text=True).stdout
    lines = (line.split() for line in said.splitlines())
    return {(int(w[0]), int(w[1])): w[2][::-1] for w in lines if len(w) == 3 and w[0].isdigit()}


def function(values, inputs):
    """The sum of the vectors at which the values are 1."""
    terms = ["*".join(a if k >> i & 1 else "!" + a for i, a in enumerate(inputs)) for k, value in enumerate(values) if value == "1"]
    return "+".join(f"({term})" for term in terms) or "0"


def library(text, values, turned):
    """The library of these values; where they are turned, one value of each cell is another."""
    lines = ["library(cells){"]
    for cell, (inputs, outputs) in enumerate(text.cells):
        columns = [[values[cell, k][place] for k in range(1 << len(inputs))] for place in range(len(outputs))]
        if turned:
            column, row = text.dice.randrange(len(outputs)), text.dice.randrange(1 << len(inputs))
            columns[column][row] = "0" if columns[column][row] == "1" else "1"
        pins = "".join(f"pin({a}){{direction:input;}}" for a in inputs)
        pins += "".join(f'pin({y}){{direction:output;function:"{function(c, inputs)}";}}' for y, c in zip(outputs, columns))
        lines.append(f"cell(C{cell}){{{pins}}}")
    return "\n".join([*lines, "}"])


def verdicts(program):
    said = subprocess.run([program, "compare", "--liberty", "cells.lib", "--verilog", "cells.v"], capture_output=True, text=True).stdout
    return [line.split()[1] for line in said.splitlines() if line.startswith("verdict ")]


def main():
    program = os.path.abspath(sys.argv[1])
    seed = int(sys.argv[2]) if len(sys.argv) > 2 else 1
    cells = int(sys.argv[3]) if len(sys.argv) > 3 else 150
    text = Text(seed, cells)
    counts, wrong = collections.Counter(), 0
    with tempfile.TemporaryDirectory() as room:
        os.chdir(room)
        with open("cells.v", "w") as file:
            file.write("\n".join(text.parts) + "\n")
        values = answers(text)
        for turned in (False, True):
            with open("cells.lib", "w") as file:
                file.write(library(text, values, turned))
            found = verdicts(program)
            assert len(found) == cells, found
            for cell, (inputs, _) in enumerate(text.cells):
                known = all(set(values[cell, k]) <= {"0", "1"} for k in range(1 << len(inputs)))
                wanted = "equal" if known and not turned else "differs"
                counts[wanted] += 1
                if found[cell] != wanted:
                    wrong += 1
                    print(f"seed {seed} cell {cell}: {found[cell]}, wanted {wanted}")
                    print(text.parts[len(text.primitives) + cell])
        os.chdir("/")
    print(f"seed {seed}: {counts['equal']} equal and {counts['differs']} different cells, {wrong} wrong")
    sys.exit(1 if wrong else 0)


if __name__ == "__main__":
    main()
