"""Writes correspondence tables: make_tables.py FILE ROWS makes one table of so many rows with 12 pins, in which each row's
state is there again after a change of each pin as far as the rows reach; make_tables.py FILE ROWS SYMBOLS MEGABYTES makes
tables of so many rows each of so many symbols, and as many tables as the file's size takes."""
import random
import sys

PINS, STATES = 12, 4


def head(cell, nodes):
    pins = " ".join(f"p{number}" for number in range(PINS))
    return f"table {cell}\npins {pins}\nstate IQ IQN\nudps a b\nnodes {' '.join(f'n{number}' for number in range(nodes))}\n"


def asked(rows):
    """The pins count up, each value with each state of the two latches where there are rows for both."""
    yield head("CELL", 20)
    states = max(1, rows // 2**PINS)
    for number in range(rows):
        pins, state = number // states, number % states
        yield f"row {pins:012b} {state:02b} {state:02b} {state:010b}XXXXXXXXXX\n"
    yield "end\n"


def large(rows, symbols, megabytes):
    draw = random.Random(1)
    nodes = symbols - PINS - 4
    size, number = 0, 0
    while size < megabytes * 10**6:
        values = "".join(draw.choices("01X", k=symbols + rows))
        body = "".join(
            f"row {values[k:k + PINS]} {values[k + 2:k + 4]} {values[k + 4:k + 6]} {values[k + PINS + 4:k + PINS + 4 + nodes]}\n" for k in range(rows)
        )
        text = head(f"c{number}", nodes) + body + "end\n"
        yield text
        size, number = size + len(text), number + 1


def main():
    path, *numbers = sys.argv[1:]
    numbers = [int(number) for number in numbers]
    with open(path, "w", encoding="ascii") as file:
        file.writelines(large(*numbers) if len(numbers) > 1 else asked(*numbers))


main()
