"""Writes the Liberty texts that `library_rows` reads, and the lines that it must print: library_rows.py FOLDER. What a text
must be answered with is worked out by a reader of its own, which follows the rules of `docs/FORMATS-liberty.md` one by one;
where a row has its lines beside it, they must be those."""
import re
import sys
from pathlib import Path

MOST_CELLS, MOST_OPEN, MOST_NAME = 4096, 32, 128


# ---- tokens: kind, bytes, line, column, start, end. The kind of one of ( ) { } ; : , is that sign, of a byte that no rule
# names `byte`, of a string or comment that doesn't end `open`

TOKEN = re.compile(
    rb"(?P<pass>[ \t\r]|/\*.*?\*/|\\\n)"
    rb"|(?P<line>\n)"
    rb'|(?P<string>".*?")'
    rb'|(?P<open>"|/\*)'
    rb"|(?P<word>(?:(?!/\*|\\\n)[!-~](?<![(){};:,\"]))+)"
    rb"|(?P<sign>[(){};:,])"
    rb"|(?P<byte>.)",
    re.DOTALL,
)


class Token:
    def __init__(self, kind, text, line, column, start):
        self.kind, self.text, self.line, self.column, self.start = kind, text, line, column, start
        self.end = start + len(text)

    def content(self):
        """What the token stands for: a string's content, its lines joined, other line ends as blanks."""
        if self.kind != "string":
            return self.text
        return self.text[1:-1].replace(b"\\\n", b"").replace(b"\n", b" ")

    def shown(self):
        content = self.content()
        if self.kind == "string":
            return content if is_name(content) and len(content) <= MOST_NAME else b"string"
        return content if 0 < len(content) <= 128 and all(33 <= byte <= 126 for byte in content) else b"wide"


def tokens_of(text):
    tokens, at, line, begin = [], 0, 1, 0
    while at < len(text):
        found = TOKEN.match(text, at)
        kind, piece = found.lastgroup, found.group()
        if kind == "open":
            tokens.append(Token(kind, piece, line, at - begin + 1, at))
            at = len(text)
        else:
            if kind != "pass":
                tokens.append(Token(piece.decode() if kind == "sign" else kind, piece, line, at - begin + 1, at))
            at += len(piece)
        ends = [place.start() for place in re.finditer(rb"\n", text[found.start():at])]
        if ends:
            line, begin = line + len(ends), found.start() + ends[-1] + 1
    tokens.append(Token("end", b"", line, len(text) - begin + 1, len(text)))
    return tokens


def is_name(content):
    return (
        len(content) > 0
        and all(33 <= byte <= 126 and byte not in b"(){};,\"='\\" for byte in content)
        and content not in (b"-", b"*")
    )


# ---- the grammar

class Told(Exception):
    """What is told of a file that is refused."""


def syntax(token):
    return Told(f"syntax at line {token.line} column {token.column}")


def not_too_long(content):
    if len(content) > MOST_NAME:
        raise Told(f"too many name, {MOST_NAME}")


class Group:
    def __init__(self, word, args):
        self.word, self.args, self.attributes, self.groups = word, args, {}, []


READ = (b"pin", b"pg_pin", b"ff", b"latch", b"statetable", b"ff_bank", b"latch_bank", b"bus", b"bundle")


class Reader:
    def __init__(self, text):
        self.text, self.tokens, self.at, self.open = text, tokens_of(text), 0, 0
        self.cells, self.cell_names = [], set()

    def next(self):
        while self.tokens[self.at].kind == "line":
            self.at += 1
        return self.tokens[self.at]

    def take(self, *kinds):
        token = self.next()
        if token.kind not in kinds:
            raise syntax(token)
        self.at += 1
        return token

    def brace(self):
        """A brace opens a group: no more than so many may be open."""
        self.take("{")
        if self.open == MOST_OPEN:
            raise Told(f"too many nesting, {MOST_OPEN}")
        self.open += 1

    def library(self):
        word = self.next()
        if word.kind != "word" or word.text != b"library":
            raise syntax(word)
        self.take("word")
        self.take("(")
        name = self.take("word", "string")
        not_too_long(name.content())
        if not is_name(name.content()):
            raise syntax(name)
        self.take(")")
        self.brace()
        self.statements(self.in_library)
        if self.next().kind == ";":
            self.take(";")
        self.take("end")
        return name.content(), self.cells

    def statements(self, enter, group=None):
        """The statements of a group and its last brace. A group among them is judged by `enter`, which says by what those in
        it are; the simple attributes are kept in `group`, where there is one."""
        while True:
            token = self.take(";", "word", "}")
            if token.kind == "}":
                self.open -= 1
                return
            if token.kind == "word":
                self.statement(token, enter, group)

    def statement(self, word, enter, group):
        if self.take(":", "(").kind == ":":
            value = self.value(group is not None and group.word.text == b"pin" and word.text == b"internal_node")
            if group is not None and value:
                group.attributes[word.text] = (word, value)
            return
        args = self.args()
        if self.next().kind == "{":
            inner = enter(Group(word, args))
            self.brace()
            self.statements(*inner)
        elif word.text == b"include_file":
            raise syntax(self.next())

    def args(self):
        args = []
        while self.next().kind != ")":
            if args and self.next().kind == ",":
                self.take(",")
            args.append(self.take("word", "string"))
        self.take(")")
        return args

    def value(self, is_node):
        value = []
        while self.tokens[self.at].kind != "}":
            token = self.tokens[self.at]
            if token.kind not in ("word", "string", "(", ")", ",", ";", "line"):
                raise syntax(token)
            self.at += 1
            if token.kind in (";", "line"):
                break
            value.append(token)
            if is_node:
                not_too_long(self.stands_for(value))
        return value

    def stands_for(self, value):
        return value[0].content() if len(value) == 1 else self.text[value[0].start:value[-1].end]

    # how the groups in the library, in a cell, and in a group that is passed over are entered

    def in_library(self, group):
        if group.word.text != b"cell" or len(group.args) != 1:
            return (self.passed,)
        name = group.args[0]
        content = name.content()
        if len(self.cells) == MOST_CELLS:
            raise Told(f"too many cells, {MOST_CELLS}")
        not_too_long(content)
        if not is_name(content):
            raise syntax(name)
        if content in self.cell_names:
            raise Told(f"{content.decode()} again at line {name.line}")
        self.cells.append(group)
        self.cell_names.add(content)
        pins = set()
        return (lambda inner: self.in_cell(group, pins, inner),)

    def in_cell(self, cell, pins, group):
        kind = group.word.text
        if kind not in READ:
            return (self.passed,)
        if kind in (b"pin", b"pg_pin"):
            for arg in group.args:
                self.pin_name(arg, pins)
        if kind in (b"ff", b"latch"):
            for arg in group.args:
                not_too_long(arg.content())
        if kind == b"statetable":
            for row in [arg for arg in group.args if arg.kind == "string"][:2]:
                for column in columns(row.content()):
                    not_too_long(column)
        cell.groups.append(group)
        return (self.passed, group)

    def pin_name(self, arg, pins):
        name = arg.content()
        not_too_long(name)
        if is_name(name):
            if name in pins:
                raise Told(f"{name.decode()} again at line {arg.line}")
            pins.add(name)

    def passed(self, group):
        return (self.passed,)


def columns(content):
    return [column for column in re.split(rb"[ \t]", content) if column]


# ---- what a cell makes of its groups

def refusals(reader, group, is_second):
    """The things in a group that aren't read: each the token at which it stands, and the one whose word is shown."""
    word, args, kind = group.word, group.args, group.word.text

    def attribute(name):
        return group.attributes.get(name)

    def other_than(name, *values):
        found = attribute(name)
        if found and reader.stands_for(found[1]) not in values:
            yield found

    if kind in (b"ff_bank", b"latch_bank", b"bus", b"bundle"):
        yield word, word
    if kind in (b"ff", b"latch"):
        if is_second or len(args) != 2 or not all(is_name(arg.content()) for arg in args):
            yield word, word
        for name in (b"clocked_on_also",):
            if attribute(name):
                yield attribute(name)[0], attribute(name)[0]
        for name in (b"clear_preset_var1", b"clear_preset_var2"):
            for found in other_than(name, b"L", b"H", b"N", b"X"):
                yield found[0], found[0]
    if kind == b"statetable":
        if is_second or len(args) != 2 or any(arg.kind != "string" for arg in args):
            yield word, word
        else:
            for arg in args:
                if not all(is_name(column) for column in columns(arg.content())):
                    yield arg, arg
    if kind in (b"pin", b"pg_pin"):
        for arg in args:
            if not is_name(arg.content()):
                yield arg, arg
    if kind == b"pin":
        if not attribute(b"direction"):
            yield word, word
        for found in other_than(b"direction", b"input", b"output", b"internal"):
            yield found[1][0], found[1][0]
        if attribute(b"internal_node"):
            value = attribute(b"internal_node")[1]
            if not is_name(reader.stands_for(value)):
                yield value[0], value[0]
        for name in (b"input_map", b"three_state"):
            if attribute(name):
                yield attribute(name)[0], attribute(name)[0]
    if kind == b"pg_pin":
        if not attribute(b"pg_type"):
            yield word, word
        for found in other_than(b"pg_type", b"primary_power", b"primary_ground", b"nwell", b"pwell"):
            yield found[1][0], found[1][0]


def first_refusal(reader, cell):
    found, states = [], 0
    for group in cell.groups:
        found += refusals(reader, group, states > 0)
        states += group.word.text in (b"ff", b"latch", b"statetable")
    return min(found, key=lambda pair: pair[0].start)[1] if found else None


# ---- what is printed

def printed(content):
    return "".join(chr(byte) if 32 <= byte <= 126 else f"<{byte}>" for byte in content)


def texts(reader, group, *names):
    line = ""
    for name in names:
        found = group.attributes.get(name)
        line += f" [{printed(reader.stands_for(found[1]))}]" if found else " -"
    return line


DIRECTIONS = {b"input": "Input", b"output": "Output", b"internal": "Internal"}
SUPPLIES = {b"primary_power": "Power", b"nwell": "Power", b"primary_ground": "Ground", b"pwell": "Ground"}
BOTHS = {b"L": "Low", b"H": "High", b"N": "Keep", b"X": "Unknown"}


def whole(reader, cell):
    lines, state = [f" {printed(cell.args[0].content())} at line {cell.word.line}"], None
    for group in cell.groups:
        kind = group.word.text
        for arg in group.args:
            name = printed(arg.content())
            if kind == b"pin":
                direction = DIRECTIONS[reader.stands_for(group.attributes[b"direction"][1])]
                lines.append(f"  {name} {direction} Signal" + texts(reader, group, b"function", b"state_function", b"internal_node"))
            if kind == b"pg_pin":
                lines.append(f"  {name} Absent {SUPPLIES[reader.stands_for(group.attributes[b'pg_type'][1])]} - - -")
        if kind in (b"ff", b"latch", b"statetable"):
            state = group
    return lines + ([] if state is None else [state_line(reader, state)])


def state_line(reader, group):
    kind, contents = group.word.text, [arg.content() for arg in group.args]
    line = f"  {kind.decode()} at line {group.word.line}:"
    if kind == b"statetable":
        inputs, nodes = ("".join(f" {printed(column)}" for column in columns(content)) for content in contents)
        table = group.attributes.get(b"table")
        return f"{line}{inputs} :{nodes} [{printed(reader.stands_for(table[1])) if table else ''}]"
    names = (b"next_state", b"clocked_on") if kind == b"ff" else (b"enable", b"data_in")
    boths = []
    for name in (b"clear_preset_var1", b"clear_preset_var2"):
        found = group.attributes.get(name)
        boths.append(BOTHS[reader.stands_for(found[1])] if found else "Unknown")
    variables = "".join(f" {printed(content)}" for content in contents)
    return line + variables + texts(reader, group, *names, b"clear", b"preset") + f" [{', '.join(boths)}]"


def answer(text):
    reader = Reader(text)
    try:
        name, cells = reader.library()
    except Told as told:
        return [str(told)]
    lines = [f"library {printed(name)}"]
    for cell in cells:
        word = first_refusal(reader, cell)
        if word is None:
            lines += whole(reader, cell)
        else:
            lines.append(f" {printed(cell.args[0].content())} refused: {printed(word.shown())} at line {word.line}")
    return lines


def beginnings(text):
    """What is answered to each shorter beginning: those that are refused where they end are counted."""
    lines, at_ends = [], 0
    for length in range(len(text)):
        told = answer(text[:length])[0]
        if told == str(syntax(tokens_of(text[:length])[-1])):
            at_ends += 1
        elif told.startswith("syntax"):
            lines.append(f"{length} bytes: {told}")
        else:
            lines.append(f"{length} bytes: another answer")
    return [*lines, f"{at_ends} beginnings: syntax at their ends"]


# ---- the texts; some with the lines that are wanted, worked out by hand

LONG, FULL = "n" * 129, "m" * 128


def in_cell(*lines):
    return "library(l){cell(A){\n" + "\n".join(lines) + "}}"


INPUT = "pin(A){direction:input;}"
# groups of a cell that is refused for them, and the word that is shown, which stands in line 2
GROUPS = [
    ("ff_bank(a,b,2){}", "ff_bank"), ("latch_bank(a,b,2){}", "latch_bank"), ("bus(a){}", "bus"), ("bundle(a){}", "bundle"),
    ("ff(a,b){}latch(c,d){}", "latch"), ("ff(a){}", "ff"), ("latch(a,b,c){}", "latch"), ('statetable(a,"b"){}', "statetable"),
    ('ff(a,"b c"){}', "ff"), ('ff(a,b){clocked_on_also:"x";}', "clocked_on_also"),
    ("latch(a,b){clear_preset_var1:T;}", "clear_preset_var1"), ('ff(a,b){clear_preset_var2:"K";}', "clear_preset_var2"),
    ('pin("a b"){direction:input;}', "string"), ('pg_pin(","){pg_type:nwell;}', "string"),
]
# pins for which a cell is refused
PINS = [
    ("pin(A){}", "pin"), ("pin(A){direction:inout;}", "inout"), ('pin(A){direction:"a b";}', "string"),
    ('pin(A){direction:internal;internal_node:"x y";}', "string"), ('pin(A){direction:input;input_map:"a";}', "input_map"),
    ('pin(A){direction:output;three_state:"!E";}', "three_state"),
]
# and further groups
MORE = [("pg_pin(V){}", "pg_pin"), ("pg_pin(V){pg_type:internal_power;}", "internal_power"), ('statetable("A B;","Q"){}', "string")]

TOO_LONG = f"too many name, {MOST_NAME}"
ROWS = [
    ("library(l){}", "library l"),
    ('library ("t") {\n time_unit : "1ns" ;\n cell ("ND2") {\n  area : 1.2\n  pin ("A") { direction : input ; capacitance : 0.1 ; }\n'
     '  pin ("B") { direction : input ; }\n  pin ("Y") { direction : output ; function : "!(A*B)" ;\n   timing () { index_1 ("0.1, 0.2") ; }\n'
     "  }\n  pg_pin (VDD) { pg_type : primary_power ; }\n  pg_pin (VSS) { pg_type : primary_ground ; }\n }\n}\n",),
    *((in_cell(group, INPUT), "library l", f" A refused: {word} at line 2") for group, word in GROUPS),
    *((in_cell(pin), "library l", f" A refused: {word} at line 2") for pin, word in PINS),
    *((in_cell(group, INPUT), "library l", f" A refused: {word} at line 2") for group, word in MORE),
    (in_cell('pin(A){direction:("x");}'), "library l", " A refused: ( at line 2"),
    (f"library(l){{cell(A){{pin(A){{direction:{LONG};}}}}}}", "library l", " A refused: wide at line 1"),
    # names, and their lengths
    (f"library({LONG}){{}}", TOO_LONG),
    (f"library({FULL}){{}}", f"library {FULL}"),
    *((f"library(l){{{cell}}}", TOO_LONG) for cell in (
        f"cell({LONG}){{}}", f"cell(A){{pin({LONG}){{}}}}", f"cell(A){{pg_pin({LONG}){{}}}}", f"cell(A){{ff({LONG},b){{}}}}",
        f"cell(A){{latch(a,{LONG}){{}}}}", f'cell(A){{statetable("{LONG}","Q"){{}}}}', f"cell(A){{pin(B){{internal_node:{LONG};}}}}")),
    ("library(l){cell(A){pin(A){direction:input;}pg_pin(A){pg_type:nwell;}}}", "A again at line 1"),
    ("library(l){cell(A){bus(Q){}pin(B){}\npin(B){}}}", "B again at line 2"),
    ("library(l){cell(A){}cell(B){}\ncell(A){}}", "A again at line 2"),
    ("library(l){cell(A){}cell(A){} }}}", "A again at line 1"),
    ("library(l){cell(A){}cell(A) ;}", "library l", " A at line 1"),
    ("library(l){" + 31 * "a(){" + 32 * "}", "library l"),
    ("library(l){" + 32 * "a(){", f"too many nesting, {MOST_OPEN}"),
    # values
    ('library(l){cell(A){pin(P,Q){direction:output;function:A + B;function:"X";state_function:"a \\\n b";}}}',),
    ('library(l){cell(A){pin(Y){direction:output;function:A + (B) ;}pin(Z){direction:output;function:"A" /* x */ "B"\n}}}',),
]

# the columns of a state table are those of its first two strings
TABLES = [
    ("", "syntax at line 1 column 1"),
    (in_cell("statetable(a b){}"), "library l", " A refused: statetable at line 2"),
    (in_cell(f"statetable({LONG}){{}}"), "library l", " A refused: statetable at line 2"),
    (in_cell(f'statetable("a",{LONG}){{}}'), "library l", " A refused: statetable at line 2"),
    (in_cell(f'statetable({LONG},"a b"){{}}'), "library l", " A refused: statetable at line 2"),
    (in_cell(f'statetable("a","b","{LONG}"){{}}'), "library l", " A refused: statetable at line 2"),
    (in_cell(f'statetable("a","b",{LONG},"{LONG}"){{}}'), "library l", " A refused: statetable at line 2"),
    (in_cell(f'statetable("a",w,"b {LONG}"){{}}'), TOO_LONG),
    (in_cell(f'statetable("a","b\t{LONG}"){{}}'), TOO_LONG),
    (in_cell(f'statetable("a {LONG}"){{}}'), TOO_LONG),
    (in_cell(f'statetable("a {FULL}",""){{}}'), "library l", " A at line 1", f"  statetable at line 2: a {FULL} : []"),
    (in_cell('ff(a,b){}', f'statetable("{LONG}","Q"){{}}'), TOO_LONG),
    # a node's name that is too long is told where it becomes so, before what is wrong after it
    (in_cell(f"pin(A){{direction:internal;internal_node:{FULL} x"), TOO_LONG),
    (in_cell(f"pin(A){{direction:internal;internal_node:a {FULL} : }}"), TOO_LONG),
    (in_cell(f"pin(A){{direction:internal;internal_node:a {FULL} \x80 }}"), TOO_LONG),
    (in_cell(f"pin(A){{direction:internal;internal_node:{FULL} \x80 }}"), "syntax at line 2 column 170"),
    (in_cell(f"pin(A){{direction:internal;internal_node:{FULL};}}"), "library l", " A at line 1", f"  A Internal Signal - - [{FULL}]"),
]

# Bytes that no rule names, in each kind of place: each is refused there.
UNNAMED = ["\x00", "\x01", "\x08", "\x0b", "\x0c", "\x0e", "\x1b", "\x1f", "\x7f", "\x80", "\xa0", "\xc3", "\xfe", "\xff"]
PLACES = [
    ("{}library(l){{}}", 1, 1), ("library{}(l){{}}", 1, 8), ("library({}){{}}", 1, 9), ("library(l{}){{}}", 1, 10), ("library(l){}{{}}", 1, 11),
    ("library(l){{{}}}", 1, 12), ("library(l){{a{}b : x;}}", 1, 13), ("library(l){{a : {} ;}}", 1, 16), ("library(l){{a :{}\n}}", 1, 15),
    ("library(l){{a : b{}c ;}}", 1, 17), ('library(l){{a : "b" {}}}', 1, 20), ("library(l){{a : ( , ){};}}", 1, 21), ("library(l){{a : b;{}}}", 1, 18),
    ("library(l){{a({});}}", 1, 14), ("library(l){{a(b{});}}", 1, 15), ("library(l){{a(b,{}c);}}", 1, 16), ("library(l){{a(b){};}}", 1, 16),
    ("library(l){{g(){{\na : {} }}}}", 2, 5), ("library(l){{g(){{h(){{\nb(c {} d)\n}}}}}}", 2, 5), ("library(l){{g{}(){{}}}}", 1, 13),
    ("library(l){{cell(A){{\npin(B){{direction : input{}}}}}}}", 2, 25), ("library(l){{cell(A){{test_cell(){{\n x : y\n z : {}}}}}}}", 3, 6),
    ("library(l){{cell(A{}){{}}}}", 1, 18), ("library(l){{}}{}", 1, 13), ("library(l){{}};{}", 1, 14), ("library(l){{a : b /* c */{}}}", 1, 25),
]
# Within strings and comments they may stand: a name or a word then is none, and a text has them as they are.
HELD = [
    ('library(l){{a : "{}";}}', "library l"), ("library(l){{/*{}*/}}", "library l"), ('library(l){{a("{}" b);}}', "library l"),
    ('library(l){{g("{}"){{}}}}', "library l"), ('library("l{}"){{}}', "syntax at line 1 column 9"), ('library(l){{cell("A{}"){{}}}}', "syntax at line 1 column 17"),
    ('library(l){{cell(A){{\npin("B{}"){{direction:input;}}}}}}', "library l", " A refused: string at line 2"),
    ('library(l){{cell(A){{\npin(B){{direction:"{}";}}}}}}', "library l", " A refused: string at line 2"),
    ('library(l){{cell(A){{\npin(B){{direction:input;function:"A {}";}}}}}}', "library l", " A at line 1", "  B Input Signal [A <{}>] - -"),
    ('library(l){{cell(A){{\npin(B){{direction:input;function:C /*{}*/ D;}}}}}}', "library l", " A at line 1", "  B Input Signal [C /*<{}>*/ D] - -"),
    ('library(l){{cell(A){{\nstatetable("a","b {}"){{}}}}}}', "library l", " A refused: string at line 2"),
]


def unnamed():
    yield "", syntax_at(1, 1)
    for byte in UNNAMED:
        for text, line, column in PLACES:
            yield text.format(byte), syntax_at(line, column)
        for text, *lines in HELD:
            yield text.format(byte), *(wanted.format(ord(byte)) for wanted in lines)


def syntax_at(line, column):
    return f"syntax at line {line} column {column}"


def signal(name, direction, rest=""):
    return f"pin({name}){{direction:{direction};{rest}}}"


def sample_cell(name, inputs, output, function, state=""):
    supplies = "pg_pin(VDD){pg_type:primary_power;}pg_pin(VSS){pg_type:primary_ground;}"
    told = f'function:"{function}";' if function else ""
    pins = "".join(signal(pin, "input") for pin in inputs.split())
    return f"cell({name}){{{supplies}{state}{pins}{signal(output, 'output', told)}}}\n"


SAMPLES = [
    ('library(sample){\ncell("ND2"){pg_pin(VDD){pg_type:primary_power;}pg_pin(VSS){pg_type:primary_ground;}area : 1.2\npin("A"){direction:"input";}'
     'pin("B"){direction:"input";}pin("Y"){direction:"output";function:"!(A*B)";timing () { index_1 ("0.1, 0.2") ; }}}\n}\n',),
    ('library(t){cell(INV){pin(A){direction:input;}pin(Y){direction:output;function:"!A";}}}',),
    ('library(l){ a : "x', syntax_at(1, 17)),
    ("library(sample){\n" + sample_cell("S0", "A", "Y", "!A") + sample_cell("S1", "A B", "Y", "!(A*B)") + sample_cell("S2", "A B", "Y", "!(A+B)")
     + sample_cell("S3", "A B", "Y", "!(A*B)") + sample_cell("MX", "D0 D1 S", "Y", "D0*S'+D1*S") + sample_cell("RNG", "EN", "Y", "")
     + sample_cell("DFF", "D CK", "Q", "IQ", 'ff(IQ,IQN){next_state:"D";clocked_on:"CK";}') + "}\n",),
    ('library(s){\ncell(GATE){\nstatetable("CK E","IQ"){table:"L L/H : - : L/H, H - : - : N";}' + signal("CK", "input") + signal("E", "input")
     + signal("IQ", "internal", 'internal_node:"IQ";') + signal("GCK", "output", 'state_function : "IQ * CK";') + "}}",),
    ('library(s){\ncell(LAT){\nlatch(Q,QN){enable:"G";data_in:"D";clear:"R\'";preset:"S";clear_preset_var1:L;clear_preset_var2:"H";}}}',),
    ("library(l){cell(A){}cell(A,){}}", syntax_at(1, 28)),
]

# one cell too many
CELLS = [
    ("library(l){}", "library l"),
    ("library(l){" + "\n".join(f"cell(c{number}){{}}" for number in range(4097)) + "}", f"too many cells, {MOST_CELLS}"),
]


def told_of(texts):
    for place, (text, *wanted) in enumerate(texts):
        text = text.encode("latin-1")
        lines = answer(text)
        if wanted and lines != wanted:
            sys.exit(f"{text!r}: {lines} in place of {wanted}")
        yield from lines
        if place == 0:
            yield from beginnings(text)


def main():
    folder = Path(sys.argv[1])
    (folder / "data").mkdir(exist_ok=True)
    files = {"samples.txt": SAMPLES, "rows.txt": ROWS, "cells.txt": CELLS, "tables.txt": TABLES, "bytes.txt": list(unnamed())}
    lines = []
    for name, texts in files.items():
        (folder / "data" / name).write_bytes(b"%".join(text.encode("latin-1") for text, *_ in texts))
        lines += told_of(texts)
    (folder / "stdout").write_text("".join(f"{line}\n" for line in lines), encoding="utf-8")
    (folder / "args").write_text("".join(f"{name}\n" for name in files))


main()
