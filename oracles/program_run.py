#!/usr/bin/env python3
"""Writes the files of the program's stored run and what it must print, worked out from the rules of `compare`.

A hundred and twenty inverters by Liberty. By Verilog every third one is a buffer and every third one is missing, so the
report is longer than one page of memory and the exit status is 1.
"""
import pathlib

TOP = pathlib.Path(__file__).resolve().parent.parent / "crates" / "qual_cli"
CELLS = 120


def main():
    liberty, verilog, lines = ["library(runs){"], [], []
    counts = {"equal": 0, "differs": 0}
    for k in range(CELLS):
        name = f"INV_{k:03}"
        liberty.append(f'cell({name}){{pin(A){{direction:input;}}pin(Y){{direction:output;function:"!A";}}}}')
        lines.append(f"compare {name}")
        kind = k % 3
        if kind == 0:
            verilog.append(f"module {name}(A,Y);input A;output Y;not(Y,A);endmodule")
            lines += ["vectors 2", "defined 2"]
        elif kind == 1:
            verilog.append(f"module {name}(A,Y);input A;output Y;buf(Y,A);endmodule")
            # at A=0 Liberty says 1 and the buffer gives 0
            lines += ["vectors 2", "defined 2", "finding M1 Y verilog row 1 change - liberty 1 view 0"]
        else:
            lines.append("finding P1 - verilog")
        verdict = "equal" if kind == 0 else "differs"
        counts[verdict] += 1
        lines.append(f"verdict {verdict}")
    liberty.append("}")
    lines += [f"total equal {counts['equal']} differs {counts['differs']} refused 0", "end"]
    (TOP / "data" / "runs.lib").write_text("\n".join(liberty) + "\n")
    (TOP / "data" / "runs.v").write_text("\n".join(verilog) + "\n")
    (TOP / "stdout").write_text("\n".join(lines) + "\n")
    (TOP / "args").write_text("compare\n--liberty\nruns.lib\n--verilog\nruns.v\n")
    (TOP / "status").write_text("1\n")


if __name__ == "__main__":
    main()
