"""Writes the primitives that `table_rows` reads, and the lines that it must print: table_rows.py FOLDER. The lines come from
the rules as this script has them (IEEE 1364-2005, clause 8, and docs/MEANING.md for what is this project's own), and from
nothing that the program prints. Where an answer stands behind a `=` it was worked out by hand, and the rules here must
agree with it."""
import itertools
import re
import sys
from pathlib import Path

VALUES = "01X"
CHANGES = {old + new for old in VALUES for new in VALUES if old != new}
LEVEL_SYMBOLS = {"0": "0", "1": "1", "x": "X", "b": "01", "?": "01X"}
LETTERS = {"r": {"01"}, "f": {"10"}, "p": {"01", "0X", "X1"}, "n": {"10", "1X", "X0"}, "*": CHANGES}
LEVEL = r"[01xb?]"
SYMBOL = rf"\({LEVEL}{LEVEL}\)|[rfpn*]|{LEVEL}"


def covered(symbol):
    """The values that a level covers, or the changes that an edge covers."""
    if symbol in LEVEL_SYMBOLS:
        return set(LEVEL_SYMBOLS[symbol])
    if symbol in LETTERS:
        return LETTERS[symbol]
    return {old + new for old in LEVEL_SYMBOLS[symbol[1]] for new in LEVEL_SYMBOLS[symbol[2]]} & CHANGES


class Row:
    """What each input's symbol covers, where the edge stands, what the state's covers, and what the row gives."""

    def __init__(self, symbols, state, gives):
        self.inputs = [covered(s) for s in symbols]
        self.edge = next((place for place, s in enumerate(symbols) if s not in LEVEL_SYMBOLS), None)
        self.states, self.gives = covered(state), gives

    def value(self, state):
        return state if self.gives == "-" else self.gives.upper()

    def matches(self, changed, old, levels, state):
        if self.edge not in (None, changed):
            return False
        asked = [old + level if place == self.edge else level for place, level in enumerate(levels)]
        return state in self.states and all(a in c for a, c in zip(asked, self.inputs))

    def conflicts(self, other):
        """The cases of a row are a product of sets, so two rows share a case where they share an element in each place."""
        return (self.edge == other.edge and all(a & b for a, b in zip(self.inputs, other.inputs))
                and any(self.value(s) != other.value(s) for s in self.states & other.states))


def row_of(text, sequential, inputs):
    """The row that a text is, or none."""
    text = "".join(chr(ord(c) + 32) if "A" <= c <= "Z" else c for c in text)
    found = re.fullmatch(rf"((?:{SYMBOL})*):({LEVEL}):([01x-])" if sequential else rf"((?:{LEVEL})*)(:)([01x])", text)
    if not found:
        return None
    symbols = re.findall(SYMBOL, found[1])
    if len(symbols) != inputs or sum(s not in LEVEL_SYMBOLS for s in symbols) > 1:
        return None
    return Row(symbols, found[2] if sequential else "?", found[3])


def vectors(inputs, symbols=VALUES):
    return ["".join(v) for v in itertools.product(symbols, repeat=inputs)] if inputs else ["-"]


class Primitive:
    """A primitive: its name, kind, width and rows, and what it is asked, as `step 0 1 0: 11=1 01`. Where it must be refused,
    `told` is how."""

    def __init__(self, name, sequential, inputs, rows, questions=(), told=None):
        self.name, self.sequential, self.inputs, self.texts = name, sequential, inputs, list(rows)
        self.questions, self.told = list(questions), told
        self.rows = [row_of(text, sequential, inputs) for text in self.texts]

    # ---- what it is asked

    def everything(self):
        """Every question that it can be asked."""
        if not self.sequential:
            return self.asking(f"level: {' '.join(vectors(self.inputs))}")
        return self.steps().changes()

    def steps(self, others=VALUES):
        """Every step, with these values at the other inputs."""
        for state, place, old in itertools.product(VALUES, range(self.inputs), VALUES):
            levels = [v for v in vectors(self.inputs) if v[place] != old and set(v[:place] + v[place + 1:]) <= set(others)]
            self.asking(f"step {state} {place} {old}: {' '.join(levels)}")
        return self

    def changes(self, symbols=VALUES):
        """Every change between levels of these values."""
        for state, old in itertools.product(VALUES, vectors(self.inputs, symbols)):
            self.asking(f"change {state} {old}: {' '.join(vectors(self.inputs, symbols))}")
        return self

    def asking(self, *questions):
        self.questions += questions
        return self

    def text(self):
        kind = "sequential" if self.sequential else "combinational"
        asked = [re.sub("=.", "", q) for q in self.questions]
        return "\n".join([f"%{self.name} {kind} {self.inputs}"] + ["|" + row for row in self.texts] + asked) + "\n"

    # ---- what it must answer

    def refusal(self):
        if self.inputs > 10:
            return f"{self.inputs} inputs are too many"
        if None in self.rows:
            return f"row {self.rows.index(None) + 1} is none"
        if self.sequential and self.inputs == 0:
            return None  # nothing can change
        for (first, row), (second, other) in itertools.combinations(enumerate(self.rows, 1), 2):
            assert self.inputs > 2 or row.conflicts(other) == self.disagree(row, other)
            if row.conflicts(other):
                return f"rows {first} and {second} conflict"
        return None

    def disagree(self, row, other):
        """The same by asking each case: rows of one class match it, and give different values."""
        if (row.edge is None) != (other.edge is None):
            return False
        cases = itertools.product(vectors(self.inputs), VALUES, range(max(self.inputs, 1)), VALUES)
        return any(row.value(state) != other.value(state) for levels, state, place, old in cases
                   if (not self.sequential or old != levels[place])
                   and row.matches(place, old, levels.strip("-"), state) and other.matches(place, old, levels.strip("-"), state))

    def level(self, levels):
        return next((row.value("X") for row in self.rows if row.matches(None, None, levels, "X")), "X")

    def step(self, changed, old, levels, state):
        matching = [row for row in self.rows if row.matches(changed, old, levels, state)]
        matching = [row for row in matching if row.edge is None] or matching
        assert len({row.value(state) for row in matching}) < 2
        return matching[0].value(state) if matching else "X"

    def ends(self, old, new, state, left, known):
        """The states that the orders of these changes end in."""
        if not left:
            return {state}
        key = (old, state)
        if key not in known:
            known[key] = set()
            for place in left:
                levels = old[:place] + new[place] + old[place + 1:]
                after = self.step(place, old[place], levels, state)
                known[key] |= self.ends(levels, new, after, left - {place}, known)
        return known[key]

    def change(self, old, new, state):
        left = frozenset(place for place in range(self.inputs) if old[place] != new[place])
        ends = self.ends(old, new, state, left, {})
        assert len(left) > 4 or ends == {self.end(old, new, state, order) for order in itertools.permutations(left)}
        return ends.pop() if len(ends) == 1 else "X"

    def end(self, old, new, state, order):
        """The state that one order ends in."""
        levels = list(old)
        for place in order:
            levels[place] = new[place]
            state = self.step(place, old[place], "".join(levels), state)
        return state

    def answer(self, words, levels):
        """What is answered, `-` where this can't be asked."""
        levels = levels.strip("-")
        if (words[0] == "level") == self.sequential or len(levels) != self.inputs:
            return "-"
        if words[0] == "level":
            return self.level(levels)
        if words[0] == "step":
            place = int(words[2])
            fits = place < self.inputs and words[3] != levels[place]
            return self.step(place, words[3], levels, words[1]) if fits else "-"
        old = words[2].strip("-")
        return self.change(old, levels, words[1]) if len(old) == self.inputs else "-"

    def answers(self, question):
        head, asked = question.split(":")
        told = []
        for word in asked.split():
            levels, _, by_hand = word.partition("=")
            answer = self.answer(head.split(), levels)
            assert by_hand in ("", answer), (self.name, question, word, answer)
            told.append(f" {levels}={answer}")
        return head + ":" + "".join(told)

    def lines(self):
        refusal = self.refusal()
        assert refusal == self.told, (self.name, refusal)
        if refusal:
            return [f"{self.name}: {refusal}"]
        kind = "sequential" if self.sequential else "combinational"
        return [f"{self.name}: {kind}, {self.inputs} inputs"] + [self.answers(q) for q in self.questions]


def held(name, inputs, rows, *questions, told=None):
    return Primitive(name, True, inputs, rows.split() if isinstance(rows, str) else rows, questions, told)


def gate(name, inputs, rows, *questions, told=None):
    return Primitive(name, False, inputs, rows.split() if isinstance(rows, str) else rows, questions, told)


# ---- symbols

EDGES = list(LETTERS) + [f"({old}{new})" for old, new in itertools.product(LEVEL_SYMBOLS, repeat=2)]
# what an edge covers of 0 to 1, 0 to X, 1 to 0, 1 to X, X to 0 and X to 1, by hand: 1 where it does
EDGES_BY_HAND = {"r": "1XXXXX", "f": "XX1XXX", "p": "11XXX1", "n": "XX111X", "*": "111111", "(01)": "1XXXXX", "(0x)": "X1XXXX",
                 "(10)": "XX1XXX", "(1x)": "XXX1XX", "(x0)": "XXXX1X", "(x1)": "XXXXX1", "(?1)": "1XXXX1", "(b?)": "1111XX",
                 "(x?)": "XXXX11", "(?b)": "1X1X11", "(bb)": "1X1XXX", "(??)": "111111", "(00)": "XXXXXX", "(?0)": "XX1X1X",
                 "(?x)": "X1X1XX", "(0?)": "11XXXX", "(1?)": "XX11XX", "(0b)": "1XXXXX", "(1b)": "XX1XXX", "(xb)": "XXXX11",
                 "(b0)": "XX1XXX", "(b1)": "1XXXXX", "(bx)": "X1X1XX", "(11)": "XXXXXX", "(xx)": "XXXXXX"}


def symbols():
    for symbol, values in {"0": "1XX", "1": "X1X", "x": "XX1", "b": "11X", "?": "111"}.items():
        for name in dict.fromkeys([symbol, symbol.upper()]):
            yield gate(f"level_{name}", 1, [f"{name}:1"], f"level: 0={values[0]} 1={values[1]} X={values[2]}")
            yield held(f"state_{name}", 1, [f"r:{name}:1"], *(f"step {s} 0 0: 1={v}" for s, v in zip("01X", values)))
            yield held(f"after_level_{name}", 1, [f"{name}:?:0"]).everything()
    for edge in EDGES:
        a, b, c, d, e, f = EDGES_BY_HAND[edge]
        for name in dict.fromkeys([edge, edge.upper()]):
            asked = [f"step 0 0 0: 1={a} X={b}", f"step 0 0 1: 0={c} X={d}", f"step 0 0 X: 0={e} 1={f}"]
            yield held(f"edge_{name}", 1, [f"{name}:?:1"], *asked)
    for edge in ["r", "f", "p", "n", "*", "(?1)", "(xb)"]:
        yield held(f"second_{edge}", 2, [f"b{edge}:?:1"]).steps()
        yield held(f"first_{edge}", 2, [f"{edge}x:b:0"]).steps()
    for gives in "01x-X":
        yield held(f"gives_{gives}", 1, [f"r:?:{gives}"], *(f"step {s} 0 0: 1={s if gives == '-' else gives.upper()}" for s in VALUES))
        yield held(f"stays_{gives}", 1, [f"1:?:{gives}"]).everything()
    for gives in "01xX":
        yield gate(f"value_{gives}", 1, [f"b:{gives}"], f"level: 0={gives.upper()} 1={gives.upper()} X=X")
    upper, lower = ["RB:X:X", "0F:b:1", "P?:1:0", "1N:0:X"], ["rb:x:x", "0f:B:1", "p?:1:0", "1n:0:x"]
    for name, rows in {"upper": upper, "lower": lower}.items():
        yield held(name, 2, rows, "step 1 0 0: X1=0 11=0", "step 1 1 1: 00=1", "step 0 0 0: 11=X", "step X 0 0: 11=X").everything()


# ---- what rows conflict

def conflicts():
    def pair(make, name, inputs, rows, conflict=True):
        return make(name, inputs, rows, told="rows 1 and 2 conflict" if conflict else None)

    yield held("one_class", 3, "??1:?:0 1r?:?:1 ?r0:?:0", told="rows 2 and 3 conflict")
    yield gate("far", 1, "0:0 1:1 x:1 b:0", told="rows 2 and 4 conflict")
    yield gate("by_the_first", 1, "x:1 0:0 0:1 x:0", told="rows 1 and 4 conflict")
    yield gate("then_by_the_second", 1, "1:1 0:0 0:0 ?:1 b:1", told="rows 2 and 4 conflict")
    yield gate("and_not_by_the_second_first", 1, "0:0 1:1 1:0 0:1", told="rows 1 and 4 conflict")
    yield held("classes_apart", 2, "r?:?:0 1?:?:1 f?:?:1 0?:?:0 ?r:?:x ?f:?:x").everything()
    yield held("edges_at_two_inputs", 2, "r?:?:0 ?r:?:1").everything()
    yield pair(held, "at_one_input", 2, "?r:?:0 ?r:?:1")
    yield pair(held, "others_apart", 3, "0r?:?:0 1r?:?:1", False)
    yield pair(held, "others_behind_apart", 3, "?r0:?:0 0r1:?:1", False)
    yield pair(held, "others_overlap", 3, "br?:?:0 ?rx:?:1")
    yield pair(held, "state_by_state", 2, "01:0:- 01:?:0", False)
    yield pair(held, "in_another_state", 2, "01:?:- 01:?:0")
    yield pair(held, "in_state_one", 2, "01:1:- 01:?:1", False)
    yield pair(held, "in_state_x", 2, "01:x:- 01:?:x", False)
    yield pair(held, "states_apart", 2, "01:0:1 01:1:0", False)
    yield pair(held, "edges_covering_nothing", 1, "(00):?:0 (?0):?:1", False)
    yield pair(held, "edge_and_level", 1, "r:?:0 1:?:1", False)
    yield held("no_case", 0, ":?:0 :?:1", "change 0 -: -=0", "change 1 -: -=1", "change X -: -=X")
    yield pair(gate, "one_case", 0, ":0 :1")
    yield gate("one_case_twice", 0, ":0 :0", "level: -=0")
    yield gate("same_rows", 2, "0?:0 0?:0 01:0 ??:0").everything()
    yield pair(gate, "known_and_x", 1, "0:0 0:x")
    yield pair(gate, "b_and_x_apart", 1, "b:0 x:1", False)
    for edge, other in itertools.combinations(EDGES, 2):
        together = any(x == y == "1" for x, y in zip(EDGES_BY_HAND[edge], EDGES_BY_HAND[other]))
        yield pair(held, f"{edge}_{other}", 1, [f"{edge}:?:1", f"{other}:?:0"], together)
    for symbol, other in itertools.combinations(LEVEL_SYMBOLS, 2):
        together = "?" in (symbol, other) or (symbol + other) in ("0b", "1b")
        yield pair(gate, f"{symbol}_{other}", 1, [f"{symbol}:1", f"{other}:0"], together)
        yield pair(gate, f"last_{symbol}_{other}", 3, [f"0?{symbol}:1", f"?1{other}:0"], together)
        yield pair(held, f"held_{symbol}_{other}", 2, [f"{symbol}r:?:1", f"{other}r:?:0"], together)
        yield pair(held, f"behind_{symbol}_{other}", 2, [f"r{other}:?:x", f"r{symbol}:?:0"], together)
        yield pair(held, f"state_{symbol}_{other}", 1, [f"1:{symbol}:1", f"1:{other}:0"], together)
    # which values and `-` differ in some state that both symbols cover
    for symbol, gives, other_gives in itertools.product(LEVEL_SYMBOLS, "01x-", "01x-"):
        states = LEVEL_SYMBOLS[symbol].lower()
        differ = gives != other_gives and not ("-" in (gives, other_gives) and states in (gives, other_gives))
        yield pair(held, f"in_{symbol}_{gives}_{other_gives}", 1, [f"1:{symbol}:{gives}", f"1:?:{other_gives}"], differ)
        yield pair(held, f"edge_in_{symbol}_{gives}_{other_gives}", 1, [f"r:?:{other_gives}", f"r:{symbol}:{gives}"], differ)


# ---- refusals

NO_ROWS = ["", ":", "::", "0", "0:", ":1", "00:1", "0:1:", "0:?:1", "r:1", "-:1", "0:-", "0:?", "0:b", "2:1", "(01):1", "*:1", "0:r", " 0:1", "0 :1",
           "0:1 ", "0: 1", "0;1", "0-1", "0z1", "0:11", "0::1", ":0:1", "0:1;", "z:1", "0:z", "\u00e9:1", "\u0131:1", "\t0:1", "0:1\r"]
NO_HELD_ROWS = ["", ":", "::", ":?:1", "0:?:1", "rr:?:1", "rf:?:1", "(01)(10):?:1", "*(01):?:1", "r:?:1", "r00:?:1", "(01:?:1", "(01):?:1", "(01)):?:1",
                "(012)0:?:1", "(0)0:?:1", "()0:?:1", "(0-)0:?:1", "(r1)0:?:1", "(0*)0:?:1", "((01))0:?:1", "0(:?:1", "0(0:?:1", "0(01:?:1", "0):?:1",
                "0(01)0:?:1", "01:-:1", "01:r:1", "01:*:1", "01:(01):1", "01:?:?", "01:?:b", "01:?:r", "01:?:*", "01:?:(01)", "01::1", "01:?:", "01:?",
                "01:??:1", "01:?:11", "01:?:1:", "01:?:1;", "01:?:1:0", "0 1:?:1", " 01:?:1", "01:?:1 ", "01:1", "r1:1", "-1:?:1", "0-:?:1", "001:?:1",
                "0z:?:1", "01:z:1", "01:?:z", "0q:?:1", "(01) 0:?:1", "(0110:?:1", "(01x0:?:1", "(01(0:?:1",
                "(01*0:?:1", "[01]0:?:1", "01)0:?:1", "01;?:1", "01-?:1", "01:?;1", "01:?-1", "01?:1", "01:1:?:1", "\u00e9:?:1", "0r:?:1\r"]


def refusals():
    for number, row in enumerate(NO_ROWS, 1):
        yield gate(f"no_row_{number}", 1, ["0:1", row], told="row 2 is none")
    for number, row in enumerate(NO_HELD_ROWS, 1):
        yield held(f"no_held_row_{number}", 2, ["01:?:1", row, "bad"], told="row 2 is none")
    yield gate("first_row", 1, ["1", "0:1"], told="row 1 is none")
    yield gate("third_row", 1, ["0:1", "1:0", "x", "?"], told="row 3 is none")
    yield gate("row_before_conflict", 1, ["0:1", "0:0", "0"], told="row 3 is none")
    yield held("held_row_before_conflict", 1, ["r:?:1", "*:?:0", "r:0"], told="row 3 is none")
    yield gate("no_inputs", 0, ["0:1"], told="row 1 is none")
    yield held("held_no_inputs", 0, [":?:1", "r:?:1"], told="row 2 is none")
    yield gate("no_inputs_but_b", 0, [":b"], told="row 1 is none")
    yield gate("ten", 10, ["01xXbB?01x:1"], "level: 01XX01001X=1 01XX11101X=1 01XX11X01X=1 01XXX1X01X=X 01XX11X010=X 11XX11X01X=X")
    yield gate("nine_for_ten", 10, ["01xXbB?01:1"], told="row 1 is none")
    yield gate("eleven_for_ten", 10, ["01xXbB?01x0:1"], told="row 1 is none")
    yield held("held_eleven_for_ten", 10, ["01xXbB?01x:?:1", "01xXbB?01xr:?:1"], told="row 2 is none")
    yield gate("eleven", 11, ["bad"], told="11 inputs are too many")
    yield held("held_eleven", 11, ["???????????:?:1", "???????????:?:0"], told="11 inputs are too many")
    yield gate("eleven_alone", 11, [], told="11 inputs are too many")
    yield gate("byte_wraps", 256, [":1"], told="256 inputs are too many")
    yield gate("most_inputs", 2 ** 32 - 1, [], told="4294967295 inputs are too many")
    counted = [f"{number:010b}:{number % 2}" for number in range(300)]
    yield gate("many_rows", 10, counted, "level: 0000000000=0 0000000001=1 0100101011=1 0100101100=X 000000000X=X")
    yield gate("row_beyond_a_byte", 10, counted[:256] + ["0"], told="row 257 is none")
    yield gate("conflict_beyond_a_byte", 10, counted + ["1???????1?:1", "0100000001:0"], told="rows 258 and 302 conflict")


# ---- what tables answer: combinational ones

def combinational():
    yield gate("empty", 1, "", "level: 0=X 1=X X=X")
    yield gate("empty_without_inputs", 0, "", "level: -=X")
    yield gate("constant", 0, ":1", "level: -=1")
    yield gate("u", 2, "01:0", "level: 01=0 11=X 0X=X").everything()
    yield gate("a_name_of_more_than_sixteen_bytes", 1, "?:0", "level: 0=0 1=0 X=0")
    yield gate("\\and+", 2, "11:1 0?:0 ?0:0", "level: 11=1 0X=0 X0=0 1X=X XX=X").everything()
    yield gate("not_monotone", 1, "0:0 1:0 x:1", "level: 0=0 1=0 X=1")
    # the multiplexer of the standard's 8.3, and its short form
    yield gate("mux", 3, "010:1 011:1 01x:1 000:0 001:0 00x:0 101:1 111:1 1x1:1 100:0 110:0 1x0:0 x00:0 x11:1", "level: 0X0=X 0X1=X 01X=1 1X1=1 X00=0 X11=1 X01=X").everything()
    yield gate("short_mux", 3, "01?:1 00?:0 1?1:1 1?0:0 x00:0 x11:1", "level: 0X1=X 01X=1 1X1=1 X00=0 X01=X").everything()
    yield gate("careless_mux", 3, "0?0:0 1?0:1 ?01:0 ?11:1 00x:0", "level: 00X=0 11X=X").everything()
    yield gate("majority", 3, "00?:0 0?0:0 ?00:0 11?:1 1?1:1 ?11:1", "level: 0X0=0 1X1=1 0X1=X X11=1").everything()
    yield gate("known", 3, "bbb:1 x??:0 ?x?:0 ??x:0", "level: 010=1 01X=0 XXX=0").everything()
    yield gate("sum", 3, "000:0 001:1 010:1 011:0 100:1 101:0 110:0 111:1", "level: 111=1 110=0 11X=X").everything()
    yield gate("wide", 8, "11??????:1 ??11????:1 ????11??:1 ??????11:1 0?0?0?0?:0 ?0?0?0?0:0 xxxxxxxx:1",
               "level: 11000000=1 00001100=1 XXXXXX11=1 XXXXXXXX=1 0X0X0X0X=0 X0X0X0X0=0 01101001=X 1001X1X1=X 1X1X1X1X=X")


# ---- what tables answer: sequential ones

FLIP_FLOP = "0r:?:0 1r:?:1 ?f:?:- *?:?:-"
LATCH = "01:?:0 11:?:1 ?0:?:-"


def sequential():
    yield held("u", 2, "01:?:0").everything()
    yield held("empty", 1, "", "step 0 0 0: 1=X X=X", "change 0 0: 0=0 1=X X=X", "change 1 X: X=1 0=X", "change X 1: 1=X 0=X")
    yield held("empty_without_inputs", 0, "", "change 0 -: -=0", "change 1 -: -=1", "change X -: -=X")
    yield held("level_first", 3, "??1:?:0 1r?:?:1", "step 0 1 0: 111=0 110=1 11X=1", "step X 1 0: 111=0 110=1 010=X").steps().changes("01")
    yield held("edge_first", 3, "1r?:?:1 ??1:?:0", "step 0 1 0: 111=0 110=1 11X=1", "step X 1 0: 111=0 110=1 010=X").steps()
    yield held("level_row_may_keep", 2, "?1:?:- r?:?:1", "step 0 0 0: 11=0 10=1 1X=1", "step X 0 0: 11=X 10=1").everything()
    yield held("level_row_of_a_state", 2, "?1:1:0 r?:?:1", "step 0 0 0: 11=1", "step 1 0 0: 11=0", "step X 0 0: 11=1").everything()
    yield held("flip_flop", 2, FLIP_FLOP, "step 0 1 0: 11=1 X1=X", "step X 1 0: 01=0", "step 0 1 1: 10=0", "step 1 1 0: 1X=X", "step 1 1 X: 11=X",
               "step 1 0 0: X1=1", "change 0 00: 11=X", "change 0 01: 10=0").everything()
    yield held("flip_flop_notified", 3, "0r?:?:0 1r?:?:1 ?f?:?:- *??:?:- ??*:?:x", "step 0 1 0: 11X=1", "step 1 2 0: 111=X", "step 0 2 X: 110=X",
               "change 0 000: 111=X 010=0 110=X 101=X 100=0").everything()
    yield held("flip_flop_reset", 3, "??0:?:0 0r1:?:0 1r1:?:1 ?f?:?:- *??:?:- ??(?1):?:- 0rx:?:0 ??n:0:0",
               "step 1 2 1: 100=0", "step 1 1 0: 110=0 111=1 11X=X 01X=0", "step 1 2 0: 111=1", "step 0 2 1: 11X=0", "step 1 2 1: 11X=X",
               "change 0 100: 111=X", "change 0 000: 011=0", "change 1 101: 110=0").everything()
    yield held("falling_clock", 2, "0n:?:0 1n:?:1 ?p:?:- *?:?:-", "step 0 1 1: 10=1 1X=1", "step 0 1 X: 10=1 11=0", "step 1 1 0: 01=1 0X=1").everything()
    yield held("toggle", 1, "r:0:1 r:1:0 f:?:-", "step 0 0 0: 1=1 X=X", "step 1 0 0: 1=0", "step X 0 0: 1=X", "step 1 0 1: 0=1").everything()
    yield held("potential", 1, "p:?:1 n:?:0", "step 0 0 0: 1=1 X=1", "step 1 0 1: 0=0 X=0", "step 1 0 X: 0=0 1=1").everything()
    yield held("latch", 2, LATCH, "step 1 0 1: 01=0 00=1", "step 0 1 1: 00=0", "step 1 1 1: 10=1", "change 1 11: 00=X 11=1 1X=X", "change 0 11: 00=0 11=0",
               "change 0 01: 10=X", "change 1 10: 01=0").everything()
    yield held("latch_sure_of_its_data", 2, LATCH + " 0x:0:0 1x:1:1", "step 0 1 1: 0X=0 1X=X", "change 0 01: 0X=0 1X=X", "change 1 11: 1X=1 0X=X").everything()
    # the latch, the flip-flops and the dominance of 8.4 to 8.8 of the standard
    yield held("standard_latch", 2, "01:?:1 00:?:0 1?:?:-", "step 0 1 0: 01=1 11=0", "step 0 0 0: 11=0 X1=X").everything()
    yield held("standard_flip_flop", 2, "(01)0:?:0 (01)1:?:1 (0?)1:1:1 (0?)0:0:0 (?0)?:?:- ?(??):?:-",
               "step 0 0 0: 11=1 X1=X X0=0", "step 1 0 0: X1=1 X0=X 10=0", "step 1 0 X: 01=1 11=X", "step 1 1 0: X1=1").everything()
    yield held("standard_set_reset", 2, "10:?:1 f0:1:- 0r:?:0 0f:0:- 11:?:0", "step 0 0 0: 10=1 11=0", "step 1 0 1: 00=1 01=X", "step 1 1 0: 01=0").everything()
    jk = "???01:?:1 ???*1:1:1 ???10:?:0 ???1*:0:0 r0000:0:1 r0011:?:- r0111:?:0 r1011:?:1 r1111:0:1 r1111:1:0 f????:?:- b*???:?:- b?*??:?:-"
    yield held("standard_jk", 5, jk, "step 0 0 1: 00001=1", "step 0 0 0: 11111=1 10111=0 11011=1 10011=0", "step 1 0 0: 11111=0 10011=1", "step X 0 0: 11111=X",
               "step 1 3 0: 00011=1", "step 0 3 0: 00011=X", "step 0 4 0: 00011=0", "step 0 1 0: X1011=X 01011=0", "change 0 00011: 11011=X", "change 1 00011: 11011=1",
               "change 1 00010: 00001=1", "change 0 00001: 00010=0", "change 0 00011: 11111=X 00000=X", "change 1 11011: 00000=X 00100=X 00111=1", "change X 11011: 00111=X").steps("01")


# ---- orders of changes

def rises(inputs, place, ending):
    return "?" * place + "r" + "?" * (inputs - place - 1) + ending


def orders():
    # a rise of the first input turns 0 into 1 and 1 into 0; a rise of the second sets 1, or keeps x: 0, 1, 1 and 0, 1, 0;
    # 1, 0, 1 and 1, 1, 0; x, 0, 1 and x, x, 0
    yield held("by_the_states_between", 2, "r?:0:1 r?:1:0 r?:x:0 ?r:b:1 ?r:x:x", "change 0 00: 11=X", "change 1 00: 11=X", "change X 00: 11=X").everything()
    # x in between is no loss where each order ends in 0: x, 0 and then 0 again, or x, x, 0
    yield held("x_between", 2, "r?:?:0 ?r:?:-", "change X 00: 11=0", "change 1 00: 11=0 01=1").everything()
    # while the third input is 0 the first sets 0 and the second 1; its own rise resets what is known
    yield held("subsets_kept_apart", 3, "r?0:?:0 ?r0:?:1 r?1:?:- ?r1:?:- ??r:b:0", "change 0 000: 111=0", "change X 000: 111=X").everything()
    # the rise of the third comes first, in the middle or last, and the state is 1 only where it is last
    yield held("last_of_three", 3, "r??:?:0 ?r?:?:0 ??r:?:1", "change 0 000: 111=X 001=1 110=0 101=X", "change 1 000: 111=X 000=1").steps().changes("01")
    # a level row ends each order, whatever came before
    yield held("a_level_in_the_end", 3, "111:?:1 r??:0:1 r??:1:0 ?r?:?:0 ??r:?:x", "change 0 000: 111=1 011=X 110=X 100=1", "change X 000: 111=1").steps().changes("01")
    # an order that ends in x beside one that ends in 1; two that end in x
    yield held("x_and_known", 2, "r0:?:1 r1:?:x ?r:?:1", "change 0 00: 11=X 10=1 01=1").everything()
    yield held("x_and_x", 2, "r?:?:x ?r:x:x", "change 0 00: 11=X 10=X 01=X").everything()
    # two changes undo each other in either order; one alone stays
    yield held("toggles", 2, "*?:0:1 *?:1:0 ?*:0:1 ?*:1:0", "change 0 00: 11=0 X1=0 10=1", "change 1 0X: 11=1 1X=0", "change X 00: 11=X").everything()
    ten = [rises(10, place, ":?:-") for place in range(10)]
    first = [rises(10, 0, ":?:1")]
    zeros, ones = "0" * 10, "1" * 10
    yield held("ten_at_once", 10, first + ten[1:9] + [rises(10, 9, ":?:1")], f"change 0 {zeros}: {ones}=1 0111111110=0 1111111110=1 {zeros}=0 111X111111=X")
    yield held("ten_that_differ", 10, first + ten[1:9] + [rises(10, 9, ":?:0")], f"change 0 {zeros}: {ones}=X 1111111110=1 0111111111=0 0111111110=0")
    yield held("narrow_after_wide", 1, "r:?:1", "change 0 0: 1=1 0=0", "change 0 1: 0=X")
    toggles = [f"{'?' * place}*{'?' * (9 - place)}:{state}:{1 - state}" for place in range(10) for state in (0, 1)]
    yield held("ten_toggles", 10, toggles, f"change 0 {zeros}: {ones}=0 0111111111=1 0011111111=0 1010101010=1 XXXXXXXXXX=0 {zeros}=0",
               f"change 1 {ones}: {zeros}=1 1000000000=0 XXXXXXXXX1=0 10101X1X10=0", f"change X {zeros}: {ones}=X {zeros}=X")
    # nine rises reset and the tenth gives x, and where all levels are 1 in the end their row wins
    dominated = [rises(10, place, ":?:0") for place in range(9)] + [f"{ones}:?:1", f"{rises(10, 9, ':?:x')}"]
    yield held("ten_under_a_level", 10, dominated, f"change 0 {zeros}: {ones}=1 1111111110=0 0111111111=X 0000000001=X", f"change X {zeros}: {ones}=1 1000000000=0")
    eight = [rises(8, place, f":{state}:{(state + 1) % 2}") for place in range(4) for state in (0, 1)] + [rises(8, place, ":?:-") for place in range(4, 8)]
    yield held("eight", 8, eight, "change 0 00000000: 11111111=0 11101111=1 00001111=0 00110011=0 0001X000=X", "change X 00000000: 11111111=X 00001111=X")


def not_asked():
    """What a table can't be asked: what the other kind is asked, other numbers of levels, no change, no such input."""
    yield gate("combinational_alone", 1, "?:1", "level: 0=1 00=- -=-", "step 0 0 0: 1=-", "change 0 0: 1=-")
    yield held("sequential_alone", 1, "1:?:1", "level: 0=-", "step 0 0 0: 1=1 0=- 11=- -=-", "step 0 1 0: 1=-", "change 0 0: 1=1 11=- -=-", "change 0 00: 1=-")


def main():
    folder = Path(sys.argv[1])
    (folder / "data").mkdir(exist_ok=True)
    files = {"symbols.txt": symbols(), "conflicts.txt": conflicts(), "refusals.txt": refusals(), "combinational.txt": combinational(),
             "sequential.txt": sequential(), "orders.txt": orders(), "not_asked.txt": not_asked()}
    lines = []
    for name, made in files.items():
        primitives = list(made)
        (folder / "data" / name).write_text("".join(p.text() for p in primitives), encoding="utf-8", newline="")
        lines += [line for p in primitives for line in p.lines()]
    (folder / "stdout").write_text("".join(f"{line}\n" for line in lines), encoding="utf-8")
    (folder / "args").write_text("".join(f"{name}\n" for name in files))


main()
