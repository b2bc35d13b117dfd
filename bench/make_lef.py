"""Writes a LEF file of 4,000 macros as libraries have it, of about so many megabytes: make_lef.py MEGABYTES FILE.

Each macro has its class, size and site, four inputs, an output and two supplies, each with antenna statements and a port of
many rectangles, and obstructions on two layers. Before the macros stand layers, a via and a site."""
import sys

MACROS = 4000
HEAD = """VERSION 5.8 ;
BUSBITCHARS "[]" ;
DIVIDERCHAR "/" ;
UNITS
  DATABASE MICRONS 2000 ;
END UNITS
MANUFACTURINGGRID 0.0050 ;
LAYER metal1
  TYPE ROUTING ;
  SPACING 0.065 ;
  WIDTH 0.07 ;
  PITCH 0.14 ;
  DIRECTION HORIZONTAL ;
END metal1
VIA via1_0 DEFAULT
  LAYER via1 ;
  RECT -0.035 -0.035 0.035 0.035 ;
END via1_0
SITE core
  SYMMETRY Y ;
  CLASS CORE ;
  SIZE 0.19 BY 1.4 ;
END core

"""
PINS = [("A1", "INPUT", "SIGNAL"), ("A2", "INPUT", "SIGNAL"), ("A3", "INPUT", "SIGNAL"), ("A4", "INPUT", "SIGNAL"),
        ("ZN", "OUTPUT", "SIGNAL"), ("VDD", "INOUT", "POWER"), ("VSS", "INOUT", "GROUND")]


def rectangle(number):
    x, y = number * 37 % 9000, number * 91 % 1400
    return f"        RECT {x / 1000} {y / 1000} {(x + 70) / 1000} {(y + 190) / 1000} ;\n"


def rectangles(layer, first, size):
    out, length = [f"      LAYER {layer} ;\n"], 0
    while length < size:
        out.append(rectangle(first + len(out)))
        length += len(out[-1])
    return "".join(out)


def pin(number, said, size):
    name, direction, use = said
    antenna = "    ANTENNAPARTIALMETALAREA 0.0175 LAYER metal1 ;\n    ANTENNAGATEAREA 0.05225 LAYER metal1 ;\n"
    port = rectangles("metal1", number * 101, size)
    return f"  PIN {name}\n    DIRECTION {direction} ;\n    USE {use} ;\n{antenna}    PORT\n{port}    END\n  END {name}\n"


def macro(number, size):
    name = f"CELL_X{number}"
    head = f"MACRO {name}\n  CLASS CORE ;\n  ORIGIN 0 0 ;\n  FOREIGN {name} 0 0 ;\n  SIZE 3.8 BY 1.4 ;\n  SYMMETRY X Y ;\n  SITE core ;\n"
    shapes = size - 1800
    pins = "".join(pin(number + place, said, shapes // 14) for place, said in enumerate(PINS))
    obstructions = "  OBS\n" + rectangles("metal1", number, shapes // 4) + rectangles("metal2", number + 7, shapes // 4) + "  END\n"
    return f"{head}{pins}{obstructions}END {name}\n\n"


def main():
    megabytes, path = sys.argv[1:]
    size = int(megabytes) * 1_000_000 // MACROS
    with open(path, "w", encoding="ascii") as file:
        file.write(HEAD)
        file.writelines(macro(number, size) for number in range(MACROS))
        file.write("END LIBRARY\n")


main()
