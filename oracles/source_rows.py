"""Writes the texts that `source_rows` reads whole, and the lines that it must print: source_rows.py FOLDER. Each
expectation is worked out from `docs/FORMATS-verilog.md`, and none from the program. What the program prints of
beginnings stands in the folder's `beginnings.txt` and, as it was worked out by hand, below.

In a text `§` marks the place of the syntax error that must come; it isn't written. Texts are of bytes: each character
stands for the byte of its number."""
import sys
from pathlib import Path

LONG = "L" * 129
TOO_LONG = ["too many name, 128"]


def place(text):
    """The text without its mark, and the mark's line and column."""
    before, mark, after = text.partition("§")
    assert mark and "§" not in after, text
    line = before.count("\n") + 1
    column = len(before) - (before.rfind("\n") + 1) + 1
    return before + after, line, column


def syntax(text):
    text, line, column = place(text)
    return text, [f"syntax at line {line} column {column}"]


def source(*parts):
    return ["source", *(line for part in parts for line in part)]


def module(name, ports="", *lines):
    return [" ".join([f" module {name}", *ports.split()]), *(f"  {line}" for line in lines)]


def refused(name, word, line, sort="module"):
    return [f" {sort} {name} refused: {word} at line {line}"]


def primitive(name, sort, inputs, *rows):
    return [f" primitive {name} {sort}, {inputs} inputs", *(f"  row {row}" for row in rows)]


def accepted(text, *parts):
    return text, source(*parts)


M = "module M;endmodule"
N = "module N;endmodule"
WHOLE = module("M")
OTHER = module("N")
UDP = "primitive u(q,a);output q;input a;"

MACROS = [
    # within a part a macro takes itself alone: what follows on its line is read, and its directives are obeyed
    accepted("module M(y);output y;\n`ifdef F `A `else `B `endif\nendmodule", refused("M", "macro", 2)),
    accepted("module M(y);output y;\n`define F\n`ifdef F `A `else `B `endif endmodule\n" + N, refused("M", "macro", 3), OTHER),
    accepted("module M(y);output y;\n`ifdef F `A `else `B `endif\nendmodule " + N, refused("M", "macro", 2), OTHER),
    syntax("module M;`FOO §`endif"),
    syntax("module M;`FOO §`else endmodule"),
    accepted("module M;`FOO `ifdef X endmodule `endif endmodule " + N, refused("M", "macro", 1), OTHER),
    accepted("module M; `FOO `define A\nendmodule\n`ifdef A\n" + N + "\n`endif", refused("M", "macro", 1), OTHER),
    accepted("module M; `FOO `timescale endmodule\nendmodule " + N, refused("M", "macro", 1), OTHER),
    accepted("module M; `FOO `ifdef\nX\n`endif endmodule", refused("M", "macro", 1)),
    syntax("module M; `FOO `ifdef X\nendmodule§"),
    accepted("module M;\n` FOO endmodule " + N, refused("M", "macro", 2), OTHER),
    accepted("module M;\n`include \"a.v\"\nendmodule", refused("M", "macro", 2)),
    accepted("module M(a);`A (b); endmodule `A (b) c;\n" + N, refused("M", "macro", 1), OTHER),
    accepted(UDP + "\n`FOO `ifdef A\nx `endif endprimitive", refused("u", "macro", 2, "primitive")),
    accepted(UDP + "\ntable `T 0:1; endtable endprimitive " + M, WHOLE, refused("u", "macro", 2, "primitive")),
    # its word is a part of it
    accepted("module M; `endmodule nand(\n endmodule " + N, refused("M", "macro", 1), OTHER),
    accepted("module M; `endprimitive endprimitive " + N, refused("M", "macro", 1), OTHER),
    accepted("module M; `specify endmodule `A `else\n" + N, refused("M", "macro", 1), OTHER),
    # outside parts it is passed over to the line's end
    accepted("`FOO `ifdef X `endif `else\n" + M, WHOLE),
    accepted("`FOO module X;\n" + M + "`FOO endmodule `endif \n" + N + " `BAR", WHOLE, OTHER),
    accepted("`include \"a.v\" `ifdef A\n" + M + "\n` ifdef A\n" + N, WHOLE, OTHER),
    syntax("`FOO x\n§x"),
    syntax("`FOO \"a\nb\" §c"),
    # in a specify block too, up to its endspecify
    accepted("module M(a);input a;specify `FOO `else endspecify\nendspecify endmodule", module("M", "a=Input")),
    accepted("module M(a);input a;specify (a=>b)=`D ; endspecify endmodule\nendspecify endmodule", module("M", "a=Input")),
    accepted("module M;specify endspecify\n`FOO `ifdef Z\n junk `endif endmodule", refused("M", "macro", 2)),
    accepted("module M;specify endmodule `FOO `else\nendspecify endmodule", WHOLE),
    accepted("module M;specify endmodule endspecify\n`FOO `ifdef A x `endif\nendmodule", refused("M", "macro", 2)),
    accepted("module M;specify\n`ifdef A `B `else x `endif endspecify endmodule", WHOLE),
    syntax("module M;specify `FOO endspecify endmodule§"),
    # in a refused part between specify and endspecify, or the part's end
    accepted("module M;assign y=a;specify `FOO `else\nendspecify `A `ifdef A endmodule `endif endmodule " + N, refused("M", "=", 1), OTHER),
    accepted("module M;assign y=a;specify `FOO `else endmodule\nmodule N;`FOO `ifdef A `endif endmodule", refused("M", "=", 1), refused("N", "macro", 2)),
    accepted("module M;assign y=a;specify\nendmodule\nmodule N;`FOO `ifdef A `endif\nendmodule", refused("M", "=", 1), refused("N", "macro", 3)),
    accepted("module M;assign y=a;\n`FOO `ifdef A endmodule `endif endmodule " + N, refused("M", "=", 1), OTHER),
    accepted("module M;assign module N; `FOO `ifdef A `endif endmodule", refused("M", "module", 1)),
    # in the parentheses of a delay, and where it is the delay
    accepted("module M(y);output y;buf #(`D `ifdef A\n) `endif ,2) (y,y);endmodule", module("M", "y=Output", "gate buf y: y y")),
    accepted("module M;\nnand #`D (y,a);endmodule", refused("M", "macro", 2)),
    # between a word and its name
    syntax("module §`FOO M;endmodule"),
    syntax("primitive §`FOO u"),
    accepted("module `timescale 1\nM;endmodule", WHOLE),
]

DEFINITIONS = [
    # a text is taken with its lines, outside parts and within them
    accepted("`define A 1 \\\n  2 \\\n  module\n" + M, WHOLE),
    accepted("`define A \\\n" + N + "\n" + M, WHOLE),
    accepted("module M;\n`define A x \\\n endmodule `else\nendmodule " + N, refused("M", "macro", 2), OTHER),
    accepted("module M;\n`define A x `endif endmodule\nendmodule " + N, refused("M", "macro", 2), OTHER),
    accepted("module M(a);input a;specify\n`define D 1 \\\n endspecify \\\n `else\nendspecify endmodule", module("M", "a=Input")),
    accepted(UDP + "\n`define A 1 \\\nendprimitive\nendprimitive", refused("u", "macro", 2, "primitive")),
    accepted("`define A \\\n\n" + M, WHOLE),
    accepted("`define A 1 \\\n", ),
    accepted("`define A 1 \\", ),
    accepted("`define A(x) x \\\n+ x\n" + M, WHOLE),
    accepted("`define A 1\\\r\nx\n" + M, WHOLE),
    accepted("`define A 1 \\ \t\nx\n" + M, WHOLE),
    accepted("`define A 1 \\ // a comment is no token\nx\n" + M, WHOLE),
    accepted("`define A 1 \\ /* nor is\none of two lines */ x\n" + M, WHOLE),
    accepted("`define A `ifdef B \\\n`else\n" + M, WHOLE),
    accepted("`define A \\A \\\n" + N + "\n" + M, WHOLE),
    accepted("`define \\A \\\n" + N + "\n" + M, WHOLE),
    syntax("`define A 1 \\\n 2\n§x"),
    syntax("`define A 1 \\ 2\n§x"),
    syntax("`define A \\x\n§x"),
    syntax("`define A \\\n\n§x"),
    syntax("`define A // \\\n§x"),
    syntax("`define A \"\\\n\" §\\\nx"),
    syntax("`define A 1 \\\n§\"x"),
    # only a definition with a text goes on so
    syntax("`timescale 1ns/1ps \\\n§x"),
    syntax("`FOO \\\n§x"),
    syntax("`define \\\n§x"),
    syntax("`define 1 \\\n§x"),
    accepted("module M;\n`define \\\nendmodule " + N, refused("M", "macro", 2), OTHER),
    accepted("module M;\n`define 1 endmodule " + N, refused("M", "macro", 2), OTHER),
    # it defines nothing, and where text isn't read it is none
    accepted("`define A 1\n`ifdef A\n" + M + "\n`else\n" + N + "\n`endif", OTHER),
    accepted("`ifdef X\n`define A \\\n`else\n" + M + "\n`endif", WHOLE),
    accepted("`define A\n`ifdef A " + M + " `endif", WHOLE),
    accepted("`define A // text\n`ifdef A " + M + " `endif", WHOLE),
    accepted("module M;`define A\n`ifdef A endmodule `endif", WHOLE),
    (f"`define {LONG} 1\n" + M, source(WHOLE)),
    (f"`define {LONG}\n" + M, TOO_LONG),
]

CONDITIONS = [
    # on one line
    accepted("`ifdef A module X;endmodule `else " + M + " `endif", WHOLE),
    accepted("`define A\n`ifdef A " + M + " `else module X; `endif", WHOLE),
    accepted("`ifndef A `ifdef B x `else " + M + " `endif `endif", WHOLE),
    accepted("`ifdef A a `elsif B b `elsif C c `else " + M + " `endif " + N, WHOLE, OTHER),
    accepted("`define B\n`ifdef A a `elsif B " + M + " `elsif B b `else c `endif", WHOLE),
    accepted("module M(y);output y;`ifdef A assign y=1; `else buf(y,1'b1);`endif endmodule", module("M", "y=Output", "gate buf y: y 1'b1")),
    accepted("module `ifdef A X `else M `endif ;endmodule", WHOLE),
    accepted("module M(`ifdef A x `else y `endif );input y;endmodule", module("M", "y=Input")),
    accepted("`ifdef A `else `endif `ifndef A `endif " + M, WHOLE),
    accepted("`undef A `ifndef A " + M + " `endif", WHOLE),
    # where text isn't read what follows a test isn't looked at
    accepted("`ifdef X\n`ifdef 1\n`endif\n`endif\n" + M, WHOLE),
    accepted("`ifdef X `ifdef `endif `endif " + M, WHOLE),
    accepted("`ifdef X `ifndef `else `endif `else " + M + " `endif", WHOLE),
    accepted("`ifdef X `ifdef ( `elsif ) `elsif `else 1 `endif `endif " + M, WHOLE),
    accepted("`ifndef X " + M + " `else `ifdef module `elsif endmodule `endif `endif", WHOLE),
    accepted("`ifndef X " + M + " `elsif Y `ifndef 1 `elsif 1 `endif `endif", WHOLE),
    accepted(f"`ifdef X `ifdef {LONG} `elsif {LONG} `endif `endif " + M, WHOLE),
    accepted(f"`ifdef X `undef {LONG} `define {LONG}\n`undef 1 `FOO `endif " + M, WHOLE),
    # nothing of a condition in such a text is read
    accepted("`ifdef X `ifndef Y x `elsif Z y `else z `endif `endif " + M, WHOLE),
    # elsewhere a test has a name
    syntax("`ifdef §1 `endif"),
    syntax("`ifdef X `elsif §1 `endif"),
    syntax("`ifndef X `elsif §1 `endif"),
    syntax("`ifndef X `elsif Y `elsif §( `endif"),
    syntax("`ifdef §`endif"),
    syntax("`ifdef X\n`elsif\n§module `endif"),
    syntax("`undef §1"),
    syntax("`ifdef §"),
    (f"`ifdef {LONG}\n`endif", TOO_LONG),
    (f"`ifdef X `elsif {LONG} `endif", TOO_LONG),
    # conditions are whole
    syntax("`ifdef A `endif §`endif"),
    syntax("`ifdef A `ifdef ( `else §`elsif 1 `endif `endif"),
    syntax("`ifdef A `ifdef ( `else §`else `endif `endif"),
    syntax("`ifdef A\n" + M + "§"),
    syntax(M + "§`else"),
    ("`ifdef A " * 33, ["too many nesting, 32"]),
    syntax("`ifdef A " * 32 + "§"),
]

# bytes outside 33 to 126 that separate nothing
BYTES = ["\x00", "\x01", "\x0b", "\x0c", "\x1f", "\x7f", "\x80", "\xa0", "\xff"]


def bytes_everywhere(byte):
    barred = [
        "§{}", "§{}" + M, M + "§{}", "module §{}", "module M§{}", "module M;§{}endmodule",
        "module M;assign y=1; §{} endmodule", "module M;`FOO §{} endmodule", "module M;\"s\" `ifdef A §{} `endif endmodule",
        "`ifdef X §{} `endif", "`ifdef X `ifdef §{} `endif `endif", "`ifndef X `else §{} `endif", "`ifdef §{}",
        "module M;specify §{} endspecify endmodule", "module M;specify `FOO §{} endspecify", "module M;assign = specify §{}",
        "`FOO §{}\n" + M, "`timescale §{}\n" + M, "`celldefine §{}", "`define A 1 §{}\n" + M, "`define A \\\n§{}\n" + M,
        "module M;`define A 1 §{}\nendmodule", "module M;`define A 1 \\\n 2 §{}\nendmodule",
        "module M;nand #(§{}) (y,a);endmodule", "module M;nand (y,§{});endmodule", "module M(§{});endmodule",
        UDP + "initial §{};", UDP + "table §{}", UDP + "table 0:1;§{}", UDP + "table endtable §{}", "primitive §{}",
        "module §\\a{} ;endmodule", "primitive §\\{} (q);",
    ]
    rows = [syntax(text.replace("{}", byte)) for text in barred]
    free = [
        ("// {}\n" + M, WHOLE), ("/*{}*/module M;/* {} */endmodule//{}", WHOLE), ("`ifdef X // {}\n\"{}\" \\{} /*{}*/`endif " + M, WHOLE),
        ("`timescale \"{}\" \\{} \n" + M, WHOLE), ("`FOO \"{}\" \\{} // {}\n" + M, WHOLE), ("`define A \"{}\" \\{} \\\n\"{}\"\n" + M, WHOLE),
        ("`ifdef \\{} \n`endif " + M, WHOLE), ("module M;specify \"{}\" \\{} /*{}*/ endspecify endmodule", WHOLE),
        ("module M;buf #(\"{}\", \\{} ) (y,a);endmodule", module("M", "", "gate buf y: y a")),
        ("module M;\n\"a{}\" endmodule", refused("M", "string", 2)), ("module M;\nbuf(\\a{} ,x);endmodule", refused("M", "wide", 2)),
        ("module M;assign y=\"{}\" \\{} //{}\n;endmodule", refused("M", "=", 1)),
        (UDP + "initial \"{}\" \\{} /*{}*/;table 0:1;endtable endprimitive", primitive("u", "combinational", 1, "0:1")),
        (UDP + "\ntable \\{} 0:1;endtable endprimitive", refused("u", "wide", 2, "primitive")),
    ]
    return rows + [accepted(text.replace("{}", byte), told) for text, told in free]


# a blank, a tab and a CR separate tokens everywhere
BLANKS = [accepted(text.replace("{}", blank), WHOLE) for blank in (" ", "\t", "\r", " \r\t") for text in (
    "{}module{}M{};{}endmodule{}", "module{}\\M{};endmodule", "`ifdef{}X{}x{}`else{}module M;endmodule{}`endif", "`define{}A{}\n`ifndef A x `endif{}" + M,
    "`define A{}1{}\\{}\n{}x\n" + M)]

# what the program prints of beginnings, by hand: a text is read where it is a list of parts, and else refused at its end,
# but where a word that isn't whole yet begins a line outside parts or an endmodule no module
BEGINNINGS = """0 to 0 bytes: 0 modules, 0 primitives
1 to 5 bytes: syntax at line 1 column 1
6 to 48 bytes: syntax at their ends
49 to 49 bytes: 1 modules, 0 primitives
0 to 19 bytes: 0 modules, 0 primitives
20 to 27 bytes: syntax at line 2 column 1
28 to 151 bytes: syntax at their ends
152 to 153 bytes: 0 modules, 1 primitives
154 to 158 bytes: syntax at line 9 column 1
159 to 227 bytes: syntax at their ends
228 to 235 bytes: syntax at line 10 column 21
236 to 240 bytes: syntax at their ends
241 to 242 bytes: syntax at line 10 column 35
243 to 265 bytes: syntax at their ends
266 to 267 bytes: 1 modules, 1 primitives
0 to 5 bytes: 0 modules, 0 primitives
6 to 34 bytes: syntax at their ends
35 to 39 bytes: syntax at line 4 column 1
40 to 58 bytes: syntax at their ends
59 to 60 bytes: 1 modules, 0 primitives
"""


def main():
    folder = Path(sys.argv[1])
    files = {
        "macros.txt": MACROS,
        "definitions.txt": DEFINITIONS,
        "conditions.txt": CONDITIONS,
        "bytes.txt": BLANKS + [row for byte in BYTES for row in bytes_everywhere(byte)],
    }
    lines = BEGINNINGS
    for name, rows in files.items():
        assert not any("%" in text for text, _ in rows)
        (folder / "data" / name).write_bytes("%".join(text for text, _ in rows).encode("latin-1"))
        lines += "".join(f"{line}\n" for _, told in rows for line in told)
    (folder / "stdout").write_text(lines, encoding="utf-8")
    (folder / "args").write_text("\n".join(["beginnings.txt", "--whole", *files]) + "\n", encoding="utf-8")


main()
