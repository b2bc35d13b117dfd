#!/usr/bin/env python3
"""Random functions of Liberty cells as `qual compare` and as Yosys read them.

    python3 crosscheck/against_yosys.py PROGRAM [SEED] [CELLS]

Yosys reads the library; the values of what it makes of each function, by Icarus Verilog, become a primitive with a row for
each vector, which `qual` must find equal to the function. Prints the functions of which it doesn't, and then how many were
tried.
"""
import os
import random
import subprocess
import sys
import tempfile


class Functions:
    """Texts of functions, drawn by a seed: each operator, signs left out, blanks anywhere, parentheses."""

    def __init__(self, seed):
        self.dice = random.Random(seed)

    def blank(self):
        return self.dice.choice(["", "", "", " ", "  "])

    def joined(self, part, chance, signs):
        text = part()
        while self.dice.random() < chance:
            sign = self.dice.choice(signs)
            text += (" " if sign == " " else self.blank() + sign + self.blank()) + part()
        return text

    def atom(self, names, depth):
        draw = self.dice.random()
        if depth == 0 or draw < 0.45:
            return self.dice.choice(names)
        if draw < 0.5:
            return self.dice.choice("01")
        return f"({self.blank()}{self.sum(names, depth - 1)}{self.blank()})"

    def factor(self, names, depth):
        text = self.atom(names, depth)
        while self.dice.random() < 0.2:
            text += self.blank() + "'"
        while self.dice.random() < 0.2:
            text = "!" + self.blank() + text
        return text

    def sum(self, names, depth):
        def exclusive():
            return self.joined(lambda: self.factor(names, depth), 0.25, ["^"])

        def product():
            return self.joined(exclusive, 0.35, ["*", "&", " "])

        return self.joined(product, 0.35, ["+", "|"])


def write(name, lines):
    with open(name, "w") as file:
        file.writelines(f"{line}\n" for line in lines)


def library_lines(cells):
    yield "library(cells){"
    for cell, (names, function) in enumerate(cells):
        pins = "".join(f"pin({a}){{direction:input;}}" for a in names)
        yield f'cell(C{cell}){{{pins}pin(Y){{direction:output;function:"{function}";}}}}'
    yield "}"


def bench_lines(cells):
    yield from ["module tb;", "integer k;"]
    for cell, (names, _) in enumerate(cells):
        ports = ", ".join(f".{a}(a{cell}[{k}])" for k, a in enumerate(names))
        yield f"reg [{len(names) - 1}:0] a{cell}; wire y{cell}; C{cell} u{cell}({ports}, .Y(y{cell}));"
    yield "initial begin"
    for cell, (names, _) in enumerate(cells):
        yield f'for (k = 0; k < {1 << len(names)}; k = k + 1) begin a{cell} = k; #1; $display("{cell} %0d %b", k, y{cell}); end'
    yield from ["$finish; end", "endmodule"]


def read_values():
    """The value of what Yosys made of each cell, at each vector."""
    subprocess.run(["yosys", "-q", "-p", "read_liberty cells.lib; write_verilog -noattr yosys.v"], check=True)
    subprocess.run(["iverilog", "-o", "tb.vvp", "tb.v", "yosys.v"], check=True)
    said = subprocess.run(["vvp", "-n", "tb.vvp"], check=True, capture_output=True, text=True).stdout
    lines = (line.split() for line in said.splitlines())
    return {(int(w[0]), int(w[1])): w[2] for w in lines if len(w) == 3 and w[0].isdigit()}


def model_lines(cells, values):
    for cell, (names, _) in enumerate(cells):
        ports = ", ".join(names)
        yield f"primitive p{cell}(q, {ports}); output q; input {ports}; table"
        for k in range(1 << len(names)):
            yield " ".join(str(k >> i & 1) for i in range(len(names))) + f" : {values[cell, k]} ;"
        yield "endtable endprimitive"
        yield f"module C{cell}({ports}, Y); input {ports}; output Y; p{cell}(Y, {ports}); endmodule"


def main():
    program = os.path.abspath(sys.argv[1])
    seed = int(sys.argv[2]) if len(sys.argv) > 2 else 1
    functions = Functions(seed)
    cells = []
    for _ in range(int(sys.argv[3]) if len(sys.argv) > 3 else 300):
        names = [f"A{k}" for k in range(functions.dice.randint(1, 4))]
        cells.append((names, functions.sum(names, 3)))
    with tempfile.TemporaryDirectory() as room:
        os.chdir(room)
        write("cells.lib", library_lines(cells))
        write("tb.v", bench_lines(cells))
        write("cells.v", model_lines(cells, read_values()))
        said = subprocess.run([program, "compare", "--liberty", "cells.lib", "--verilog", "cells.v"], capture_output=True, text=True).stdout
        os.chdir("/")
    found = [line for line in said.splitlines() if line.startswith("verdict ")]
    assert len(found) == len(cells), said[:200]
    wrong = [function for (_, function), verdict in zip(cells, found) if verdict != "verdict equal"]
    for function in wrong:
        print(function)
    print(f"seed {seed}: {len(cells)} functions, {len(wrong)} read otherwise")
    sys.exit(1 if wrong else 0)


if __name__ == "__main__":
    main()
