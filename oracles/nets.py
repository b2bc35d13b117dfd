"""Writes what net_rows reads and what it must print: the modules, the cases and the expected lines.

The expected lines come from the rules as this script has them (IEEE 1364-2005: 7.2 and 7.3 for gates, clause 8 for
primitives; docs/MEANING.md for what is this project's own), and from nothing that the program prints.

    python3 oracles/nets.py crates/net_rows
"""
import itertools
import sys

sys.setrecursionlimit(10000)

# What a value may be: an unknown one is either.
MAY_BE = {"0": [0], "1": [1], "X": [0, 1]}
GATES = {"and": (all, 0), "nand": (all, 1), "or": (any, 0), "nor": (any, 1), "xor": (lambda v: sum(v) % 2, 0),
         "xnor": (lambda v: sum(v) % 2, 1), "buf": (all, 0), "not": (all, 1)}


def known(outcomes):
    """The value that all outcomes have."""
    outcomes = set(outcomes)
    return str(outcomes.pop()) if len(outcomes) == 1 else "X"


def gate(word, levels):
    join, inverted = GATES[word]
    return known(int(bool(join(choice))) ^ inverted for choice in itertools.product(*(MAY_BE[v] for v in levels)))


class Primitive:
    """A user-defined primitive: its inputs, and its rows as `0 (01) : ? : -`."""

    def __init__(self, name, inputs, rows, sequential):
        self.name, self.inputs, self.texts, self.sequential = name, inputs, rows, sequential
        self.rows = [[part.split() for part in row.split(":")] for row in rows]

    def verilog(self):
        ports = ", ".join(self.inputs)
        reg = " reg q;" if self.sequential else ""
        lines = [f"primitive {self.name} (q, {ports});", f"output q;{reg} input {ports};", "table"]
        return "\n".join(lines + [row + " ;" for row in self.texts] + ["endtable", "endprimitive"])

    def level(self, levels):
        for symbols, out in self.rows:
            if all(covers(s, v) for s, v in zip(symbols, levels)):
                return out[0].upper()
        return "X"

    def step(self, changed, old, levels, state):
        """Rows of levels alone come before rows with an edge."""
        for with_edge in (False, True):
            for symbols, before, out in [r for r in self.rows if any(map(is_edge, r[0])) == with_edge]:
                fits = covers(before[0], state)
                for place, symbol in enumerate(symbols):
                    if is_edge(symbol):
                        fits = fits and place == changed and edge(symbol, old, levels[place])
                    else:
                        fits = fits and covers(symbol, levels[place])
                if fits:
                    return state if out[0] == "-" else out[0].upper()
        return "X"

    def change(self, old, new, state):
        """The state in which all orders of the changed inputs end."""
        ends = set()
        for order in itertools.permutations([k for k in range(len(old)) if old[k] != new[k]]):
            levels, end = list(old), state
            for place in order:
                levels[place] = new[place]
                end = self.step(place, old[place], levels, end)
            ends.add(end)
        return ends.pop() if len(ends) == 1 else "X"


def covers(symbol, value):
    return value in {"?": "01X", "b": "01"}.get(symbol, symbol.upper())


def is_edge(symbol):
    return symbol[0] in "(rfpn*"


def edge(symbol, old, new):
    pairs = {"r": ["01"], "f": ["10"], "p": ["01", "0X", "X1"], "n": ["10", "1X", "X0"]}
    if symbol == "*":
        return old != new
    if symbol in pairs:
        return old + new in pairs[symbol]
    return old != new and covers(symbol[1], old) and covers(symbol[2], new)


class Module:
    """A module: its input ports and its output ports, its own supplies, and its elements as Verilog has them."""

    def __init__(self, name, inputs, outputs, elements, supplies=()):
        self.name, self.inputs, self.outputs, self.supplies = name, inputs.split(), outputs.split(), list(supplies)
        self.ports = self.inputs + self.outputs
        self.elements = [Element(*e.split("(")) for e in elements]

    def verilog(self):
        items = [f"{way} {', '.join(ports)};" for way, ports in (("input", self.inputs), ("output", self.outputs)) if ports]
        items += [f"supply{value} {net};" for net, value in self.supplies]
        lines = [f"module {self.name}({', '.join(self.ports)});"] + items + [e.text for e in self.elements]
        return "\n".join(lines + ["endmodule"])

    def nets(self):
        """By first appearance: in the ports, in the supplies, in the elements."""
        names = self.ports + [n for n, _ in self.supplies] + [t for e in self.elements for t in e.terminals if "'" not in t]
        return list(dict.fromkeys(names))

    def sequential(self):
        return [e for e in self.elements if e.holds_state()]


class Element:
    def __init__(self, head, tail):
        self.text = f"{head}({tail};"
        words = head.split()
        # An escaped identifier is no gate's word (IEEE 1364-2005, 3.7.2).
        self.kind, self.is_gate = words[0].lstrip("\\"), words[0] in GATES
        self.terminals = [t.strip() for t in tail.rstrip(")").split(",")]
        self.label = words[1] if len(words) > 1 else self.terminals[0]
        count = len(self.terminals) - 1 if self.is_gate and self.kind in ("buf", "not") else 1
        self.outputs, self.sources = self.terminals[:count], self.terminals[count:]

    def holds_state(self):
        return not self.is_gate and self.kind in PRIMITIVES and PRIMITIVES[self.kind].sequential


class Case:
    """A module with its cell's input pins and supplies, the states to settle with, the steps, and the nets to show."""

    def __init__(self, module, pins="", supplies=(), states="", steps=(), show=""):
        self.module, self.pins, self.supplies = module, pins.split(), list(supplies)
        self.states, self.steps, self.show = states, list(steps), show.split()
        if module.sequential() and not states:
            self.states = "X" * len(module.sequential())

    def word(self):
        supplies = ",".join(f"{n}={v}" for n, v in self.supplies)
        return ":".join([self.module.name, ",".join(self.pins), supplies, self.states, ",".join(self.steps), ",".join(self.show)])

    def outside(self, net, pins):
        """What a net has from outside the elements, None where it has nothing."""
        own = dict(reversed(self.module.supplies))
        if net in own:
            return own[net]
        if net not in self.module.ports:
            return None
        return pins[self.pins.index(net)] if net in self.pins else dict(self.supplies).get(net)

    def refusal(self):
        for e in self.module.elements:
            wanted = len(e.terminals) > 1
            if not e.is_gate:
                if e.kind not in PRIMITIVES:
                    return f"refused: unknown primitive {e.kind}"
                wanted = len(e.terminals) == len(PRIMITIVES[e.kind].inputs) + 1
            if not wanted:
                return f"refused: port count {e.label}"
        drivers = [n for e in self.module.elements for n in e.outputs]
        for net in self.module.nets():
            if drivers.count(net) + (self.outside(net, "X" * len(self.pins)) is not None and net in drivers) > 1:
                return f"refused: two drivers {net}"
        feeds = {n: [s for s in e.sources if "'" not in s] for e in self.module.elements for n in e.outputs}
        for net in self.module.nets():
            if net in reached(feeds, net):
                return f"refused: loop {net}"
        return None

    def settled(self, pins, states, old=None):
        """Each net's value and the states: of the old states where nothing moves, else moved from the old nets."""
        driver = {n: e for e in self.module.elements for n in e.outputs}
        held = self.module.sequential()
        values, new_states = {}, {}

        def value(net):
            if "'" in net:
                return net[-1]
            if net not in values:
                values[net] = given(net) if net not in driver else given_by(driver[net])
            return values[net]

        def given(net):
            return self.outside(net, pins) or "X"

        def given_by(e):
            if e.is_gate:
                return gate(e.kind, [value(s) for s in e.sources])
            if not e.holds_state():
                return PRIMITIVES[e.kind].level([value(s) for s in e.sources])
            place = held.index(e)
            if place not in new_states:
                new_states[place] = states[place]
                if old:
                    before = [s[-1] if "'" in s else old[s] for s in e.sources]
                    new_states[place] = PRIMITIVES[e.kind].change(before, [value(s) for s in e.sources], states[place])
            return new_states[place]

        nets = {net: value(net) for net in self.module.nets()}
        for e in held:
            given_by(e)
        return nets, [new_states[k] for k in range(len(held))]

    def lines(self):
        lines = [self.module.name]
        if self.refusal():
            return lines + [self.refusal()]
        held = self.module.sequential()
        lines.append(f"{len(self.module.nets())} nets, {len(held)} states")
        nets, states = None, list(self.states)
        for pins in self.steps:
            nets, states = self.settled(pins, states, nets)
            shown = "".join(f" {n}={nets.get(n, '-')}" for n in self.show)
            if held:
                shown += f", states {''.join(states)} shown {''.join(nets[e.outputs[0]] for e in held)}"
            lines.append(pins + shown)
        return lines


def reached(feeds, net):
    """The nets that a net depends on."""
    found, left = set(), list(feeds.get(net, []))
    while left:
        other = left.pop()
        if other not in found:
            found.add(other)
            left += feeds.get(other, [])
    return found


PRIMITIVES = {p.name.lstrip("\\"): p for p in [
    Primitive("lat", ["d", "g"], ["0 1 : ? : 0", "1 1 : ? : 1", "? 0 : ? : -"], True),
    Primitive("dffu", ["d", "ck"], ["0 r : ? : 0", "1 r : ? : 1", "? f : ? : -", "* ? : ? : -"], True),
    Primitive("dffn", ["d", "ck", "nt"], ["0 r ? : ? : 0", "1 r ? : ? : 1", "? f ? : ? : -", "* ? ? : ? : -", "? ? * : ? : x"], True),
    Primitive("mux", ["a", "b", "s"], ["0 ? 0 : 0", "1 ? 0 : 1", "? 0 1 : 0", "? 1 1 : 1", "0 0 x : 0"], False),
    Primitive("\\and", ["a", "b"], ["? ? : 1"], False),
]}


def vectors(symbols, count):
    return ["".join(v) for v in itertools.product(symbols, repeat=count)]


def accepted():
    words = ["and", "nand", "or", "nor", "xor", "xnor"]
    folds = Module("FOLDS", "A B C", " ".join(words).upper(), [f"{w}({w.upper()}, A, B, C)" for w in words])
    yield Case(folds, "A B C", steps=vectors("01X", 3), show=" ".join(words).upper())
    single = Module("ONE_INPUT", "A", "", [f"{w}({w.upper()}, A)" for w in words])
    yield Case(single, "A", steps="01X", show=" ".join(words).upper())
    many = Module("OUTPUTS", "A", "", ["buf b(p, q, r, A)", "not n(s, t, p)", "buf(u, t)"])
    yield Case(many, "A", steps="01X", show="p q r s t u")
    fixed = Module("CONSTANTS", "A", "", ["and(p, A, 1'b1)", "or(q, 1'b0, A)", "buf(r, s, 1'b0)", "not(t, 1'b1)",
                                          "nand(u, 1'b1, 1'b1)", "xor(v, A, 1'b1)", "lat(w, 1'b1, A)"])
    yield Case(fixed, "A", states="0", steps="01X0", show="p q r s t u v w")
    supplies = [("hi", "1"), ("hi", "0"), ("lo", "0"), ("lo", "1"), ("VSS", "1"), ("B", "0")]
    own = Module("OWN_SUPPLIES", "A B VDD VSS", "", ["and(p, A, hi, VDD)", "or(q, lo, A)", "buf(r, VSS)", "buf(s, B)", "buf(t, hi)", "buf(u, lo)"], supplies)
    yield Case(own, "A B", [("VDD", "1"), ("VSS", "0")], steps=vectors("01", 2), show="p q r s t u A B VDD VSS")
    outside = Module("OUTSIDE", "A VDD W", "", ["buf(p, VDD)", "buf(q, VSS)", "buf(r, B)", "buf(s, none)", "buf(t, W)", "not(C, A)", "not(GND, A)"])
    yield Case(outside, "A B C", [("VDD", "1"), ("VSS", "0"), ("GND", "0")], steps=["000", "111"], show="p q r s t C GND B VSS none nowhere")
    words_win = Module("GATE_WORDS", "A B", "", ["\\and g(p, A, B)", "and(q, A, B)"])
    yield Case(words_win, "A B", steps=["00", "01", "11"], show="p q")
    mux = Module("MULTIPLEXER", "A B S", "Y", ["not(Y, y)", "mux m(y, A, B, S)"])
    yield Case(mux, "A B S", steps=vectors("01X", 3), show="y Y")
    yield Case(mux, "S B A", steps=["010", "110", "001", "101"], show="y Y")
    inverted = Module("INVERTED_AND", "A B", "Y", ["not(Y, y)", "and(y, A, B)"])
    yield Case(inverted, "A B", steps=vectors("01X", 2), show="y Y")
    inverted = Module("INVERTED_LATCH", "D E", "QN", ["lat m(q, D, E)", "not(QN, q)"])
    yield Case(inverted, "D E", states="0", steps=["10", "11", "10", "00", "01", "X1"], show="q QN")
    two = ["not(ckn, CK)", "lat m(mq, D, ckn)", "lat s(Q, mq, CK)"]
    walk = ["01", "00", "01", "11", "10", "11", "01", "0X", "01", "10", "11"]
    yield Case(Module("TWO_LATCHES", "D CK", "Q", two), "D CK", states="11", steps=walk, show="ckn mq Q")
    yield Case(Module("LATCHES_BACKWARDS", "D CK", "Q", two[::-1]), "D CK", states="11", steps=walk, show="ckn mq Q")
    yield Case(Module("TWO_LATCHES", "D CK", "Q", two), "CK D", steps=["00", "01", "11", "10"], show="ckn mq Q")
    walk = ["00", "10", "11", "10", "00", "01", "00", "11", "01", "00", "01", "0X", "00", "01", "X1", "X0", "X1"]
    yield Case(Module("FLIP_FLOP", "D CK", "Q", ["dffu(Q, D, CK)"]), "D CK", states="0", steps=walk, show="Q")
    yield Case(Module("NOTIFIER", "D CK", "Q", ["dffn(Q, D, CK, notifier)"]), "D CK", states="0", steps=walk, show="Q notifier")
    sharing = Module("SHARED_INPUTS", "A B E", "P Q R", ["lat p(P, A, E)", "lat q(Q, B, E)", "mux m(R, P, Q, E)"])
    yield Case(sharing, "A B E", states="0X", steps=["010", "011", "001", "000", "100", "X11", "X10"], show="P Q R")
    chain = [f"not(n{k}, {f'n{k + 1}' if k < 511 else 'A'})" for k in range(512)]
    yield Case(Module("CHAIN_BACKWARDS", "A", "", chain), "A", steps="01X", show="n0 n1 n510 n511")
    yield Case(Module("CHAIN", "A", "", chain[::-1]), "A", steps="01X", show="n0 n1 n510 n511")
    latches = [f"lat(q{k}, {f'q{k + 1}' if k < 15 else 'D'}, E)" for k in range(16)]
    yield Case(Module("LATCH_CHAIN", "D E", "", latches), "D E", states="01" * 8, steps=["00", "01", "11", "10", "00"], show="q0 q15")


def refused():
    """Modules of the input pins A, B and C, whose ports are these, VDD and Y."""
    for name, elements, supplies in [
        ("RING", ["not(p, q)", "buf(q, p)"], []),
        ("RING_OF_A_LATCH", ["lat m(z, y, A)", "not(y, z)"], []),
        ("BEHIND_A_RING", ["not(p, q)", "not(q, r)", "not(r, q)"], []),
        ("BESIDE_A_RING", ["buf(p, q, q)"], []),
        ("RING_AT_A_PORT", ["not(p, Y)", "not(Y, p)"], []),
        ("TWO_RINGS", ["and(p, A, s)", "not(s, t)", "not(t, s)", "not(u, u)"], []),
        ("ONE_GATE_TWICE", ["buf(p, p, A)"], []),
        ("SHARED_NET", ["not i(p, p)", "lat m(r, A, B)", "mux n(r, A, B, C)"], []),
        ("DRIVEN_INPUT", ["not i(B, A)"], []),
        ("DRIVEN_SUPPLY_PORT", ["not i(VDD, A)"], []),
        ("DRIVEN_OWN_SUPPLY", ["not i(lo, A)"], [("lo", "0")]),
        ("PORTS_COME_FIRST", ["not i(lo, A)", "not j(VDD, A)"], [("lo", "0")]),
        ("SUPPLIES_COME_SECOND", ["not i(p, A)", "not j(p, B)", "not k(lo, A)"], [("lo", "0")]),
        ("THEN_ELEMENTS", ["and i(p, q, A)", "not j(q, A)", "not k(q, B)", "not l(p, C)"], []),
        ("UNKNOWN_WORD", ["not i(B, A)", "dff k(p, A)", "and l(q)"], []),
        ("TOO_MANY_TERMINALS", ["lat k(p, A, B, C)", "dff l(q, A)"], []),
        ("TOO_FEW_TERMINALS", ["not i(p, p)", "mux k(p, A, B)", "not j(p, A)"], []),
        ("NO_INPUT", ["buf(p)"], []),
        ("NO_LABEL", ["lat(p, A)"], []),
    ]:
        yield Case(Module(name, "A B C VDD", "Y", elements, supplies), "A B C", [("VDD", "1"), ("VSS", "0")])


def main(folder):
    cases = list(accepted()) + list(refused())
    modules = {c.module.name: c.module for c in cases}
    parts = [p.verilog() for p in PRIMITIVES.values()] + [m.verilog() for m in modules.values()]
    lines = [line for c in cases for line in c.lines()] + ["MISSING", "no such module"]
    words = ["nets.v"] + [c.word() for c in cases] + ["MISSING"]
    for name, text in {"data/nets.v": "\n".join(parts), "args": "\n".join(words), "stdout": "\n".join(lines)}.items():
        with open(f"{folder}/{name}", "w", encoding="ascii") as file:
            file.write(text + "\n")


main(sys.argv[1])
