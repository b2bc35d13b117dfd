"""Writes a Liberty cell with 12 inputs whose function has so many tokens, the same each time: make_function.py TOKENS FILE.

Prints at how many of the 4,096 vectors the function is 1, by Python's own arithmetic.
"""
import itertools
import random
import sys

NAMES = [f"A{k}" for k in range(12)]


def make(count, draw):
    """So many tokens, an odd number, and the same function in Python."""
    if count == 1:
        name = draw.choice(NAMES)
        return [name], name
    if count == 2:
        text, said = make(1, draw)
        return text + ["'"], f"(1-{said})"
    if count >= 8 and draw.random() < 0.3:
        text, said = make(count - 2, draw)
        return ["("] + text + [")"], said
    left = draw.randrange(1, count - 1)
    (one, said), (other, meant) = make(left, draw), make(count - 1 - left, draw)
    sign, python = draw.choice([("^", "^"), ("*", "&"), ("+", "|")])
    bind = {"^": 3, "*": 2, "+": 1}
    one = one if binds(one) >= bind[sign] else None
    other = other if binds(other) > bind[sign] else None
    if one is None or other is None:
        return make(count, draw)
    return one + [sign] + other, f"({said}{python}{meant})"


def binds(tokens):
    """How tightly the loosest operator outside parentheses binds; 4 where there is none."""
    depth, loosest = 0, 4
    for token in tokens:
        depth += (token == "(") - (token == ")")
        if depth == 0 and token in ("^", "*", "+"):
            loosest = min(loosest, {"^": 3, "*": 2, "+": 1}[token])
    return loosest


def main(count, path):
    draw = random.Random(12)
    for _ in range(100000):
        try:
            tokens, said = make(count, draw)
        except RecursionError:
            continue
        if len(set(tokens) & set(NAMES)) == 12:
            break
    value = eval(f"lambda {', '.join(NAMES)}: {said}")
    ones = sum(value(*v) for v in itertools.product((0, 1), repeat=12))
    pins = " ".join(f"pin({n}) {{ direction : input; }}" for n in NAMES)
    with open(path, "w", encoding="ascii") as file:
        file.write(f"library(functions) {{\n  cell(FUNCTION) {{\n    {pins}\n    pin(Y) {{ direction : output; function : \"{' '.join(tokens)}\"; }}\n  }}\n}}\n")
    print(len(tokens), "tokens,", ones, "ones")


main(int(sys.argv[1]), sys.argv[2])
