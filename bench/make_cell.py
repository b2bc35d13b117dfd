#!/usr/bin/env python3
"""Writes a cell of 12 inputs and its module of so many gates: FOLDER/cell.lib and FOLDER/cell.v."""
import sys


def main():
    folder, gates = sys.argv[1], int(sys.argv[2])
    inputs = [f"A{k}" for k in range(12)]
    pins = "".join(f"pin({a}){{direction:input;}}" for a in inputs)
    function = "+".join("*".join(inputs[k:k + 6]) for k in range(0, 12, 6))
    with open(f"{folder}/cell.lib", "w") as file:
        file.write(f'library(bench){{cell(C){{{pins}pin(Y){{direction:output;function:"{function}";}}}}}}\n')
    lines = [
        f"module C({','.join(inputs)},Y);",
        f"input {','.join(inputs)};",
        "output Y;",
        f"and(n0,{','.join(inputs[:6])});",
        f"and(n1,{','.join(inputs[6:])});",
        "or(n2,n0,n1);",
    ]
    # A chain of buffers keeps the value on its way to the output.
    last = 2
    for k in range(3, gates - 1):
        lines.append(f"buf(n{k},n{last});")
        last = k
    lines.append(f"buf(Y,n{last});")
    lines.append("endmodule")
    with open(f"{folder}/cell.v", "w") as file:
        file.write("\n".join(lines) + "\n")


main()
