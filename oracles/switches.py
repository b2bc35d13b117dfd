"""Writes what switch_rows reads and what it must print: the netlist, the technologies, the cases and the expected lines.

The expected lines come from the rules as this script has them ("Transistors" of docs/MEANING.md), walk by walk, and from
nothing that the program prints. Beside the cases stand values that were found by hand; the script stops where they differ.

    python3 oracles/switches.py crates/switch_rows
"""
import sys
from itertools import product
from pathlib import Path

RESPONSES = 512
MOST_NODES = 512
MODELS = {"n": ("n", 5), "p": ("p", 5), "nw": ("n", 4), "pw": ("p", 4), "n6": ("n", 6), "n7": ("n", 7)}
RAILS = "VDD=1,VSS=0"
INPUT_STRENGTH = 8


def distinct(names):
    return list(dict.fromkeys(names))


def conducts(channel, gate):
    """Whether a transistor is on, as 1, 0 or X."""
    return gate if channel == "n" else {"0": "1", "1": "0", "X": "X"}[gate]


class Cell:
    """A subcircuit: its pins, its cards as drain, gate, source and model, and the sizes of its nodes."""

    def __init__(self, name, pins, cards, sizes=()):
        self.name, self.pins, self.sizes = name, pins.split(), dict(sizes)
        self.cards = [card.split() for card in cards.split("\n") if card]

    def cdl(self):
        cards = [f"M{k} {d} {g} {s} BULK {model}" for k, (d, g, s, model) in enumerate(self.cards)]
        return "\n".join([" ".join([".SUBCKT", self.name, *self.pins]), *cards, ".ENDS"])


class Network:
    def __init__(self, cell, inputs, supplies):
        outside = [*inputs, *supplies]
        named = cell.pins + [name for card in cell.cards for name in card[:3]]
        self.storage = [name for name in distinct(named) if name not in outside]
        self.supplies, self.pins = supplies, dict.fromkeys(inputs, "X")
        self.strength = {**{name: cell.sizes.get(name, 1) for name in self.storage}, **dict.fromkeys(outside, INPUT_STRENGTH)}
        self.state = dict.fromkeys(self.storage, "X")
        # for each node the transistors that lead from it: channel, gate, strength and the storage node at the other end
        self.ways = {name: [] for name in self.strength}
        for drain, gate, source, model in cell.cards:
            for here, there in {(drain, source), (source, drain)}:
                if there in self.state:
                    self.ways[here].append((*MODELS[model], gate, there))

    def walks(self, levels, may_be, lets):
        """All walks that may matter: the last node, the strength there and the root's value. A walk goes on over
        transistors that are as `may_be` says, and only where `lets` it be at its last node."""
        found = set()
        waiting = [(name, strength, levels[name]) for name, strength in self.strength.items()]
        while waiting:
            walk = waiting.pop()
            node, strength, root = walk
            if walk in found or not lets(node, strength):
                continue
            found.add(walk)
            for channel, weakest, gate, there in self.ways[node]:
                if conducts(channel, levels[gate]) in may_be:
                    waiting.append((there, min(strength, weakest), root))
        return found

    def response(self):
        levels = {**self.state, **self.pins, **self.supplies}
        surest = dict.fromkeys(self.strength, 0)
        for node, strength, _ in self.walks(levels, "1", lambda node, strength: True):
            surest[node] = max(surest[node], strength)
        roots = {name: set() for name in self.storage}
        for node, _, root in self.walks(levels, "1X", lambda node, strength: strength >= surest[node]):
            if node in roots:
                roots[node].add(root)
        return {name: known.pop() if len(known) == 1 else "X" for name, known in roots.items()}

    def wait(self):
        for _ in range(RESPONSES):
            following = self.response()
            if following == self.state:
                return "settled"
            self.state = following
        differing = [name for name, value in self.response().items() if value != self.state[name]]
        return f"moving {differing[0]}" if differing else "settled"

    def values(self, names=None):
        return "".join(self.state[name] for name in names or self.storage)


class Case:
    """A cell, its inputs, and what is done. A word `NODES!VALUES` is no action: it has values that were found by hand."""

    def __init__(self, cell, inputs, actions="", supplies=RAILS):
        self.cell, self.inputs, self.supplies, self.words = cell, inputs.split(), supplies, actions.split()

    def line(self):
        actions = [word for word in self.words if "!" not in word]
        return " ".join([self.cell.name, ",".join(self.inputs) or "-", self.supplies, *actions])

    def refusal(self, models, network):
        pins, unknown = self.cell.pins, [card[3] for card in self.cell.cards if card[3] not in models]
        twice = [name for place, name in enumerate(pins) if name in pins[place + 1:]]
        if twice:
            return f"refused: supply short {twice[0]}"
        if unknown:
            return f"refused: unknown model {unknown[0]}"
        return f"refused: {len(network().storage)} nodes" if len(network().storage) > MOST_NODES else None

    def lines(self, models):
        rails = dict(rail.split("=") for rail in self.supplies.split(",") if rail != "-")
        shape = Cell(self.cell.name, " ".join(self.cell.pins), "", self.cell.sizes)
        shape.cards = [card for card in self.cell.cards if card[3] in models]
        refusal = self.refusal(models, lambda: Network(shape, self.inputs, rails))
        if refusal:
            return [self.cell.name, refusal]
        network = Network(self.cell, self.inputs, rails)
        told = [self.cell.name, " ".join([f"{len(network.storage)} nodes:", *network.storage])]
        for word in self.words:
            told += self.act(network, word)
        return told

    def act(self, network, word):
        if word == "step":
            network.state = network.response()
            return [network.values()]
        if word == "wait":
            return [f"{network.wait()} {network.values()}"]
        if "!" in word:
            names, values = word.split("!")
            assert network.values(names.split(",")) == values, (self.cell.name, word, network.state)
            return []
        name, value = word.split("=")
        if name == "pins":
            network.pins = dict(zip(self.inputs, value, strict=True))
        elif name == "find":
            place = f"node {network.storage.index(value)}" if value in network.storage else "no node"
            return [f"{value} is {place}"]
        elif name not in network.state:
            return [f"{name} is no node"]
        else:
            network.state[name] = value
        return []


INVERTER = "Y A VDD p\nY A VSS n"
NAND = "Y A VDD p\nY B VDD p\nY A m n\nm B VSS n"
MULTIPLEXER = """sn S VDD p
sn S VSS n
D0 sn m n
D0 S m p
D1 S m n
D1 sn m p
qn m VDD p
qn m VSS n
m qn VDD pw
m qn VSS nw
Y qn VDD p
Y qn VSS n"""
RING = """r1 EN VDD p
r1 Y VDD p
r1 EN r4 n
r4 Y VSS n
r2 r1 VDD p
r2 r1 VSS n
Y r2 VDD p
Y r2 VSS n"""
FLIP_FLOP = """ckn CK VDD p
ckn CK VSS n
ckb ckn VDD p
ckb ckn VSS n
D ckn m1 n
D ckb m1 p
m2 m1 VDD p
m2 m1 VSS n
ta m2 VDD pw
m1 ckn ta pw
m1 ckb tb nw
tb m2 VSS nw
m2 ckb s1 n
m2 ckn s1 p
s2 s1 VDD p
s2 s1 VSS n
tc s2 VDD pw
s1 ckb tc pw
s1 ckn td nw
td s2 VSS nw
Q s1 VDD p
Q s1 VSS n"""


def chain(transistors, model="n"):
    """Transistors in a row, from VDD on, whose gates are all at A."""
    return "\n".join(f"{f'x{k - 1}' if k else 'VDD'} A x{k} {model}" for k in range(transistors))


def inverters(count):
    """Inverters in a row, the first one at A."""
    gates = ["A", *(f"x{k}" for k in range(count - 1))]
    return "\n".join(f"x{k} {gate} VDD p\nx{k} {gate} VSS n" for k, gate in enumerate(gates))


def refused():
    yield Case(Cell("DOUBLE_SUPPLY", "A Y Y VSS", INVERTER), "A")
    yield Case(Cell("DOUBLE_PINS", "A B B A", INVERTER), "A")
    yield Case(Cell("BUILT", "A Y VDD VSS", INVERTER), "A")
    yield Case(Cell("LACKS_THE_SECOND", "A Y VDD VSS", "Y A VDD p\nY A VSS other\nY A VSS another"), "A")
    yield Case(Cell("DOUBLE_AND_UNKNOWN", "A Y A VSS", "Y A VDD other"), "A")
    yield Case(Cell("CHAIN_512", "A", chain(512)), "A")
    yield Case(Cell("CHAIN_513", "A", chain(513)), "A")
    yield Case(Cell("LONG_AND_UNKNOWN", "A", chain(513) + "\nx1 A VSS other"), "A")
    # the supply is a storage node where the case has none of that name
    yield Case(Cell("CHAIN_512", "A", chain(512)), "A", supplies="-")
    # and an input among the nodes is none of them
    yield Case(Cell("CHAIN_513", "A", chain(513)), "A x512")


def named():
    nodes = Cell("NODES", "EN Y VDD VSS", "r1 EN VDD p\nr1 EN r4 n\nr4 Y VSS n\nr2 r1 VDD p")
    yield Case(nodes, "EN", "find=r4 find=EN find=VDD find=Y find=nowhere EN=1 nowhere=1 r2=1 step Y,r1,r4,r2!XXX1")
    backwards = "r2 r1 VDD p\nr4 Y VSS n\nr1 EN r4 n\nr1 EN VDD p"
    yield Case(Cell("NODES_BACKWARDS", "VSS Y EN VDD", backwards), "EN", "find=r2 find=r1 find=r4")


def sized():
    """A transistor between `a`, at 1, and `b`, at 0."""
    for sizes, wants in [("21", {"1": "11", "X": "1X", "0": "10"}), ("32", {"1": "11", "X": "1X", "0": "10"}), ("22", {"1": "XX", "X": "XX", "0": "10"}),
                         ("13", {"1": "00", "X": "X0", "0": "10"}), ("11", {"1": "XX", "X": "XX", "0": "10"})]:
        cell = Cell(f"SIZES_{sizes}", "g a b", "a g b n", zip("ab", map(int, sizes)))
        yield Case(cell, "g", " ".join(f"pins={gate} a=1 b=0 step a,b!{want}" for gate, want in wants.items()))


def gated():
    """Gate, input, the value of `y` before and what it becomes."""
    for name, card, rows in [("PULL_UP", "y g VDD p", ["X00X", "X011", "0001", "1000"]), ("ONE_NODE", "y g y n", ["X011", "1000", "11XX"]),
                             ("PASS", "d g y n", ["1101", "1X0X", "0100", "X10X", "X111"])]:
        actions = " ".join(f"pins={row[:2]} y={row[2]} step y!{row[3]}" for row in rows)
        yield Case(Cell(name, "g d y", card), "g d", actions)


def fighting():
    """Transistors that pull one node to both sides: the stronger decides, equal ones leave it unknown."""
    vectors = " ".join(f"pins={''.join(v)} y=0 step y=1 step" for v in product("01X", repeat=2))
    for name, up, down in [("EQUAL_FIGHT", "n", "n"), ("STRONGER_UP", "n", "nw"), ("STRONGER_DOWN", "n6", "n7")]:
        yield Case(Cell(name, "a b y", f"VDD a y {up}\ny b VSS {down}"), "a b", vectors)
    # an input that passes through no input: the middle of two transistors is an input here
    yield Case(Cell("THROUGH_AN_INPUT", "a m y", "VDD a m n\nm a y n"), "a m", "pins=10 step y!0 pins=1X step y!X pins=01 y=1 step y!1")
    # a supply whose value isn't known
    yield Case(Cell("UNKNOWN_SUPPLY", "a y", "V a y n"), "a", "pins=1 y=1 step y!X pins=0 y=1 step y!1", supplies="V=X")
    # supplies that are exchanged
    yield Case(Cell("BUILT", "A Y VDD VSS", INVERTER), "A", "pins=0 wait Y!0 pins=1 wait Y!1", supplies="VDD=0,VSS=1")


def gates():
    yield Case(Cell("INVERTER", "A Y VDD VSS", INVERTER), "A", "step Y!X pins=0 wait Y!1 pins=X wait Y!X pins=1 wait Y!0")
    vectors = " ".join(f"pins={''.join(v)} wait" for v in product("01X", repeat=2))
    yield Case(Cell("NAND", "A B Y VDD VSS", NAND), "A B", vectors)
    yield Case(Cell("NAND", "A B Y VDD VSS", NAND), "B A", "pins=01 wait Y,m!11 pins=10 wait Y,m!10 pins=11 wait Y,m!00")
    yield Case(Cell("CHAIN_512", "A", chain(512)), "A", "pins=1 step x0,x511!11 pins=0 wait x0,x511!11 pins=X wait x0,x511!11")
    yield Case(Cell("WEAK_CHAIN", "A", chain(64, "nw") + "\nx63 B VSS n"), "A B", "pins=10 wait x0,x63!11 pins=11 wait x0,x62,x63!XX0 pins=1X wait")
    yield Case(Cell("INVERTERS", "A", inverters(512)), "A", "pins=0 wait x0,x511!10 pins=1 wait x0,x511!01 pins=X step x0,x1!X1 step x0,x1,x2!XX0 wait x0,x511!XX")


def states():
    mux = Cell("MULTIPLEXER", "D0 D1 S Y VDD VSS", MULTIPLEXER)
    yield Case(mux, "D0 D1 S", "pins=010 step m!X step m!0 wait m,qn,Y!010 pins=011 wait m,qn,Y!101 pins=01X wait m,Y!XX pins=11X wait m,Y!XX pins=110 wait m,Y!11 pins=11X wait m,Y!11")
    ring = Cell("RING", "EN Y VDD VSS", RING)
    yield Case(ring, "EN", "pins=0 wait r1,r2,Y!101 pins=1 wait r1,r2,Y!011 step r1,r2,Y!010 step step step step step step r1,r2,Y!010 pins=0 wait r1,r2,Y!101")
    yield Case(ring, "EN", "pins=1 wait r1,r2,Y!XXX")
    flip_flop = Cell("FLIP_FLOP", "D CK Q VDD VSS", FLIP_FLOP)
    yield Case(flip_flop, "D CK", "pins=00 wait ckn,ckb,m1,m2!1001 pins=01 wait ckn,ckb,m1,m2!0101 pins=11 wait ckn,ckb,m1,m2,Q!01010 "
               "pins=10 step step tb!X wait ckn,ckb,m1,m2,s1,s2,Q!1010100 pins=11 wait Q!1 pins=01 wait Q!1 pins=0X wait")


def technology(cells):
    models = [f"model,{name},{channel},{strength}" for name, (channel, strength) in MODELS.items()]
    sizes = [f"size,{cell.name},{node},{size}" for cell in cells for node, size in cell.sizes.items()]
    return "\n".join(models + sizes)


def main(folder):
    cases = [case for part in (refused, named, sized, gated, fighting, gates, states) for case in part()]
    # with no models at all
    bare = [Case(cell, "A") for cell in (Cell("BUILT", "A Y VDD VSS", INVERTER), Cell("DOUBLE_SUPPLY", "A Y Y VSS", INVERTER), Cell("DOUBLE_PINS", "A B B A", INVERTER))]
    cells = {case.cell.name: case.cell for case in cases}
    lines = [line for case in cases for line in case.lines(MODELS)] + ["MISSING", "no such subcircuit"] + [line for case in bare for line in case.lines({})]
    files = {
        "data/cells.cdl": "\n".join(cell.cdl() for cell in cells.values()),
        "data/tech.csv": technology(cells.values()),
        "data/cases.txt": "\n".join([*(case.line() for case in cases), "MISSING"]),
        "data/none.csv": "",
        "data/bare.txt": "\n".join(case.line() for case in bare),
        "args": "\n".join(["cells.cdl", "tech.csv", "cases.txt", "none.csv", "bare.txt"]),
        "stdout": "\n".join(lines),
    }
    for name, text in files.items():
        (Path(folder) / name).write_text(text + "\n", encoding="ascii")


main(sys.argv[1])
