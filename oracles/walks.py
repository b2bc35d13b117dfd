"""Writes what meaning_walk reads and what it must print: the cells, the moves and the expected lines.

The expected lines come from the rules as this script has them (Liberty User Guide: operators of functions, "ff Group",
"latch Group", "statetable Group"), and from nothing that the program prints.

    python3 oracles/walks.py crates/meaning_walk
"""
import itertools
import re
import sys

NAMES = re.compile(r"[A-Za-z_][A-Za-z0-9_]*")


class Bad(Exception):
    """The place of the first token that cannot follow."""


def tokens(text):
    found, place = [], 0
    while place < len(text):
        name = NAMES.match(text, place)
        if text[place] in " \t\r\n":
            place += 1
        elif name:
            found.append(("name" if len(name[0]) <= 128 else "?", name[0], place))
            place = name.end()
        else:
            sign = {"&": "*", "|": "+"}.get(text[place], text[place])
            found.append((sign if sign in "'!^*+()01" else "?", sign, place))
            place += 1
    return found


def check(text):
    """Raises Bad at the first token that cannot follow, or at the end."""
    after, depth = False, 0
    for kind, _, place in tokens(text):
        begins = kind in ("name", "0", "1", "!", "(")
        if after and kind == ")" and depth:
            depth -= 1
        elif after and kind == "'":
            pass
        elif after and kind in "^*+":
            after = False
        elif begins and not (kind == "(" and depth == 64):
            depth += kind == "("
            after = kind in ("name", "0", "1")
        else:
            raise Bad(place)
    if not after or depth:
        raise Bad(len(text))


# A value is the set of the values that it may have: {0}, {1} or {0, 1}.
ZERO, ONE, X = frozenset([0]), frozenset([1]), frozenset([0, 1])


def every(op, *values):
    """Kleene's operation: what holds whatever the unknown arguments are, taken one operation at a time."""
    return frozenset(op(*choice) for choice in itertools.product(*values))


def common(values):
    values = list(values)
    return values[0] if all(v == values[0] for v in values) else X


def value(text, names):
    left = [t[:2] for t in tokens(text)]

    def factor():
        kind, name = left.pop(0)
        if kind == "!":
            return every(lambda a: 1 - a, factor())
        if kind == "(":
            got = total()
            left.pop(0)
        else:
            got = names[name] if kind == "name" else frozenset([int(kind)])
        while left and left[0][0] == "'":
            left.pop(0)
            got = every(lambda a: 1 - a, got)
        return got

    def joined(part, sign, op, beside=False):
        got = part()
        while left and (left[0][0] == sign or beside and left[0][0] not in "+)^*'"):
            if left[0][0] == sign:
                left.pop(0)
            got = every(op, got, part())
        return got

    def exclusive():
        return joined(factor, "^", lambda a, b: a ^ b)

    def product():
        return joined(exclusive, "*", lambda a, b: a & b, beside=True)

    def total():
        return joined(product, "+", lambda a, b: a | b)

    return total()


class Cell:
    def __init__(self, name, inputs, outputs, group="", state=None, walks=(), internals=()):
        self.name, self.inputs, self.outputs = name, inputs, outputs
        self.group, self.state, self.walks, self.internals = group, state, walks, internals

    def liberty(self):
        lines = [f"  cell({self.name}) {{"]
        if self.group:
            lines.append(f"    {self.group}")
        lines += [f"    pin({n}) {{ direction : input; }}" for n in self.inputs]
        lines += [f"    pin({n}) {{ direction : internal; internal_node : {node}; }}" for n, node in self.internals]
        lines += [f"    pin({n}) {{ direction : output; {attribute} : \"{text}\"; }}" for n, attribute, text in self.outputs]
        return "\n".join(lines + ["  }"])

    def refusal(self):
        """The first refusal, as the program prints it."""
        texts = [(k, v) for k, v in (self.state.texts() if self.state else [])]
        texts += [(n, t) for n, a, t in self.outputs if a != "internal_node"]
        for owner, text in texts:
            try:
                check(text)
            except Bad as bad:
                return f"refused: BadFunction {{ owner: {shown(owner)}, place: {bad} }}"
            for kind, name, _ in tokens(text):
                if kind == "name" and name not in self.names():
                    return f"refused: UnknownName({shown(name)})"
        return None

    def names(self):
        return self.inputs + [n for n, _ in self.internals] + (self.state.variables if self.state else [])

    def lines(self):
        if self.refusal():
            return [self.refusal()]
        variables = self.state.variables if self.state else []
        pins, state, lines = [X] * len(self.inputs), [X] * len(variables), []
        for walk in self.walks:
            new = [{"0": ZERO, "1": ONE}.get(c, X) for c in walk]
            if self.state:
                state = self.state.next(self.named, pins, new, state)
            pins = new
            shows = []
            for _, attribute, text in self.outputs:
                names = self.named(pins, state)
                shows.append(names[text] if attribute == "internal_node" else value(text, names))
            lines.append(f"{walk} gives {symbols(shows)} with state {symbols(state)}")
        return lines

    def named(self, pins, state):
        names = dict(zip(self.state.variables if self.state else [], state))
        nodes = dict(names)
        names.update((n, nodes[node]) for n, node in self.internals)
        names.update(zip(self.inputs, pins))
        return names


def symbols(values):
    return "".join({ZERO: "0", ONE: "1", X: "X"}[v] for v in values) or "-"


def shown(text):
    return "Text { bytes: [" + ", ".join(str(b) for b in text.encode()) + "] }"


class Pair:
    """A flip-flop or a latch."""

    variables = ["IQ", "IQN"]

    def __init__(self, kind, both=("X", "X"), **texts):
        self.kind, self.both, self.attributes = kind, both, texts

    def texts(self):
        order = ["next_state", "clocked_on"] if self.kind == "ff" else ["enable", "data_in"]
        return [(k, self.attributes[k]) for k in order + ["clear", "preset"] if k in self.attributes]

    def liberty(self):
        said = [f'{k} : "{v}";' for k, v in self.attributes.items()]
        said += [f"clear_preset_var{i + 1} : {b};" for i, b in enumerate(self.both) if b]
        return f"{self.kind}(IQ, IQN) {{ {' '.join(said)} }}"

    def next(self, at, old, new, state):
        of = lambda name, pins: value(self.attributes[name], at(pins, state)) if name in self.attributes else ZERO
        invert = lambda a: every(lambda v: 1 - v, a)
        keeps = list(state)
        if self.kind == "ff":
            before, after = of("clocked_on", old), of("clocked_on", new)
            n = of("next_state", old)
            takes = [n, invert(n)]
            if (before, after) == (ZERO, ONE):
                pair = takes
            elif before == ONE or after == ZERO or before == after:
                pair = keeps
            else:
                pair = [common(p) for p in zip(takes, keeps)]
        else:
            d = of("data_in", new)
            takes = [d, invert(d)]
            pair = {ONE: takes, ZERO: keeps, X: [common(p) for p in zip(takes, keeps)]}[of("enable", new)]
        said = [{"L": ZERO, "H": ONE, "N": keeps[i], "X": X, None: X}[b] for i, b in enumerate(self.both)]
        outcomes = {(0, 0): pair, (1, 0): [ZERO, ONE], (0, 1): [ONE, ZERO], (1, 1): said}
        choices = itertools.product(sorted(of("clear", new)), sorted(of("preset", new)))
        return [common(v) for v in zip(*[outcomes[c] for c in choices])]


class Table:
    """A state table of one node."""

    def __init__(self, columns, node, table):
        self.columns, self.variables, self.table = columns, [node], table

    def texts(self):
        return []

    def liberty(self):
        return f'statetable("{" ".join(self.columns)}", "{self.variables[0]}") {{ table : "{self.table}"; }}'

    def next(self, at, old, new, state):
        for row in self.table.split(","):
            for letter in (0, 2):
                matches, node, result = [part.split() for part in row.split(":")]
                pick = lambda w: w[letter] if "/" in w else w
                edges = {"R": (ZERO, ONE), "F": (ONE, ZERO)}
                fits = node[0] == "-" or {"L": ZERO, "H": ONE}[pick(node[0])] == state[0]
                for column, word in zip(self.columns, matches):
                    was, now = at(old, state)[column], at(new, state)[column]
                    word = pick(word)
                    if word in "LH":
                        fits &= now == {"L": ZERO, "H": ONE}[word]
                    elif word[-1] in edges:
                        fits &= ((was, now) == edges[word[-1]]) != word.startswith("~")
                if fits:
                    return [{"L": ZERO, "H": ONE, "N": state[0]}.get(pick(result[0]), X)]
        return [X]


def cells():
    vectors = ["".join(v) for v in itertools.product("01", repeat=4)]
    yield Cell("ORDER", list("ABCD"), [
        ("STAR", "function", "A+B^C*D'"), ("BESIDE", "function", "A+B^C D'"),
        ("RIGHT", "function", "A+((B^C)*D')"), ("WRONG", "function", "A|B^(C&!D)"),
        ("MIXED", "function", "(A+B)^(C D)'")], walks=vectors)
    yield Cell("UNKNOWN", list("AB"), [("AND", "function", "A*B"), ("OR", "function", "A+B"), ("XOR", "function", "A^B"), ("NOT", "function", "!A")],
               walks=["".join(v) for v in itertools.product("01X", repeat=2)])
    accepted = {"JUXTAPOSED": "A B", "TWO_INVERSIONS": "!A'", "TWO_QUOTES": "A''", "CONSTANTS": "10+A 1",
                "DEEP_64": "(" * 64 + "A" + ")" * 64, "BLANKS_BETWEEN": " A\t+  B "}
    for name, text in accepted.items():
        yield Cell(name, list("AB"), [("Y", "function", text)], walks=["00", "01", "10", "11", "X1"])
    long = "N" * 128
    yield Cell("NAME_128", [long, "B"], [("Y", "function", f"{long}*B")], walks=["01", "11"])
    refused = {"EMPTY": "", "BLANK": "   ", "UNCLOSED": "(A", "UNOPENED": "A)+B", "EMPTY_PARENTHESES": "A*()",
               "DEEP_65": "(" * 65 + "A" + ")" * 65, "NAME_129": "A+" + "N" * 129, "OR_AT_END": "A+", "AND_AT_END": "A*B &",
               "XOR_AT_END": "A^", "NOT_AT_END": "A !", "OR_AT_BEGIN": "+A", "QUOTE_AT_BEGIN": "'A", "TWO_OPERATORS": "A*+B",
               "OTHER_BYTE": "A $", "UNKNOWN_AFTER_BAD": "Q+$", "UNKNOWN_NAME": "A*Q+P"}
    for name, text in refused.items():
        yield Cell(name, list("AB"), [("Y", "function", text)])
    for name, texts in {"BAD_CLOCK": dict(next_state="D", clocked_on="C'+"), "BAD_NEXT": dict(next_state="D(", clocked_on="+")}.items():
        state = Pair("ff", **texts)
        yield Cell(name, list("CD"), [("Q", "function", "IQ")], state.liberty(), state)
    icg = Table(["CK", "E"], "IQ", "L L/H : - : L/H, H - : - : N")
    yield Cell("GATE", ["CK", "E"], [("GCK", "state_function", "IQ * CK")], icg.liberty(), icg, ["00", "01", "11", "10", "00", "X0", "00"])
    edge = Table(["CK", "D"], "IQ", "R L/H : - : L/H, ~R - : - : N")
    yield Cell("EDGE", ["CK", "D"], [("Q", "internal_node", "IQ")], edge.liberty(), edge, ["00", "01", "11", "11", "10", "00", "10", "X0"])
    known = Table(["A"], "IQ", "H : - : H, - : - : L")
    yield Cell("LESS_KNOWN", ["A"], [("Q", "internal_node", "IQ")], known.liberty(), known, ["X", "1", "X", "0"])
    hidden = Table(["A"], "IQ", "H : - : H, L : - : N")
    yield Cell("INTERNAL", ["A"], [("Y", "function", "IQ^N")], hidden.liberty(), hidden, ["1", "0"], [("N", "IQ")])
    flip = Pair("ff", clocked_on="C", next_state="D", clear="R", preset="S")
    yield Cell("CLOCK", list("CDRS"), [("Q", "function", "IQ")], flip.liberty(), flip,
               ["0010", "0000", "0100", "1100", "0000", "1000", "X000", "0000", "0100", "X100", "0100", "1100", "X100", "1000", "1X10", "10X0", "0001", "X001", "X000", "XX00", "1100"])
    for said in ("L", "H", "N", "X", None):
        state = Pair("ff", (said, said), clocked_on="C", next_state="D", clear="R", preset="S")
        yield Cell(f"BOTH_{said or 'ABSENT'}", list("CDRS"), [("Q", "function", "IQ"), ("QN", "function", "IQN")], state.liberty(), state,
                   ["0001", "0011", "0001", "00X1", "0010", "001X", "0010", "00XX"])
    latch = Pair("latch", (None, None), enable="E", data_in="D")
    yield Cell("LATCH", list("ED"), [("Q", "function", "IQ"), ("QN", "function", "IQN")], latch.liberty(), latch,
               ["10", "11", "01", "00", "X0", "10", "X0", "X1", "1X"])
    set_latch = Pair("latch", ("H", "L"), enable="E", data_in="D", clear="R", preset="S")
    yield Cell("CLEARED_LATCH", list("EDRS"), [("Q", "function", "IQ"), ("QN", "function", "IQN")], set_latch.liberty(), set_latch,
               ["1100", "0010", "0001", "0011", "00X1", "1010", "X1X0"])


REFUSED = """  cell(BAD_ROW) {
    statetable("C E", "IQ") { table : "L - : - : L, H - : - : R"; }
    pin(C) { direction : input; } pin(E) { direction : input; }
  }
  cell(NO_CLOCK) { ff(IQ, IQN) { next_state : "D"; } pin(D) { direction : input; } }
"""


def main(folder):
    all_cells = list(cells())
    library = "library(cells) {\n" + "\n".join(c.liberty() for c in all_cells) + "\n"
    line = library.count("\n") + REFUSED[:REFUSED.index("NO_CLOCK")].count("\n") + 1
    library += REFUSED + "}\n"
    words = [f"{c.name}:{','.join(c.walks)}" if c.walks else c.name for c in all_cells] + ["BAD_ROW", "NO_CLOCK", "MISSING"]
    out = []
    for c in all_cells:
        out += [c.name] + c.lines()
    out += ["BAD_ROW", "refused: BadStateRow(2)", "NO_CLOCK", f"refused: Construct {{ word: {shown('ff')}, line: {line} }}", "MISSING", "no such cell"]
    for name, text in {"data/cells.lib": library, "args": "\n".join(["cells.lib"] + words) + "\n", "stdout": "\n".join(out) + "\n"}.items():
        with open(f"{folder}/{name}", "w", encoding="ascii") as file:
            file.write(text)


main(sys.argv[1])
