"""Writes the LEF texts that `lef_rows` reads, and the lines that it must print: lef_rows.py FOLDER. What a text must be
answered with is worked out by a reader of its own, which follows the rules of `docs/FORMATS-lef.md` one by one; where a row
has its lines beside it, they must be those."""
import re
import sys
from pathlib import Path

MOST_MACROS, MOST_NAME = 4096, 128


# ---- tokens: kind, bytes, line, column, start, end. The kind of a string that doesn't end is `open`

TOKEN = re.compile(
    rb"(?P<pass>[ \t\r\n]+|#[^\n]*)"
    rb'|(?P<string>"[^"]*")'
    rb'|(?P<open>")'
    rb"|(?P<word>[^ \t\r\n]+)"
)


class Token:
    def __init__(self, kind, text, line, column, start):
        self.kind, self.text, self.line, self.column, self.start = kind, text, line, column, start
        self.end = start + len(text)

    def keyword(self):
        return self.text.lower() if self.kind == "word" else None

    def is_passed(self):
        return self.kind in ("word", "string")

    def can_name(self):
        return self.kind == "word" and (len(self.text) > MOST_NAME or is_name(self.text))

    def shown(self):
        if self.kind == "string":
            content = self.text[1:-1]
            return content if is_name(content) and len(content) <= 128 else b"string"
        return self.text if len(self.text) <= 128 and all(33 <= byte <= 126 for byte in self.text) else b"wide"


def is_name(content):
    return (
        len(content) > 0
        and all(33 <= byte <= 126 and byte not in b"(){};,\"='\\" for byte in content)
        and content not in (b"-", b"*")
    )


def tokens_of(text):
    tokens, at, line, begin = [], 0, 1, 0
    while at < len(text):
        found = TOKEN.match(text, at)
        kind = found.lastgroup
        end = len(text) if kind == "open" else found.end()
        if kind != "pass":
            tokens.append(Token(kind, text[at:end], line, at - begin + 1, at))
        if b"\n" in text[at:end]:
            line, begin = line + text.count(b"\n", at, end), text.rfind(b"\n", at, end) + 1
        at = end
    tokens.append(Token("end", b"", line, len(text) - begin + 1, len(text)))
    return tokens


# ---- the grammar

class Told(Exception):
    """What is told of a file that is refused."""


class Stop(Exception):
    """A macro is refused at the next token, which stands behind an END where that is said."""

    def __init__(self, behind_end):
        self.behind_end = behind_end


def syntax(token):
    return Told(f"syntax at line {token.line} column {token.column}")


SECTIONS = (b"layer", b"via", b"viarule", b"site", b"nondefaultrule", b"array")
BLOCKS = (b"units", b"propertydefinitions", b"spacing")
DIRECTIONS = {b"input": "Input", b"output": "Output", b"inout": "Inout", b"feedthru": "Feedthru"}
USES = {b"signal": "Signal", b"analog": "Signal", b"clock": "Signal", b"power": "Power", b"ground": "Ground"}


class Reader:
    def __init__(self, text):
        self.text, self.tokens, self.at = text, tokens_of(text), 0
        self.names, self.lines = set(), []

    @property
    def ahead(self):
        return self.tokens[self.at]

    def take(self):
        self.at += 1
        return self.tokens[self.at - 1]

    def pass_to(self, word):
        """Over words and strings to this word; what stands before it, from its first token to its last."""
        first = self.ahead
        last = None
        while self.ahead.is_passed():
            token = self.take()
            if token.keyword() == word:
                return None if last is None else self.text[first.start:last.end]
            last = token
        raise syntax(self.ahead)

    def statement(self):
        if self.take().keyword() != b";":
            self.pass_to(b";")

    def pass_behind(self, closes, behind_end=False):
        """To the first END and the word that closes."""
        while self.ahead.is_passed():
            token = self.take()
            if behind_end and closes(token):
                return
            behind_end = token.keyword() == b"end"
        raise syntax(self.ahead)

    def long_name(self):
        if len(self.ahead.text) > MOST_NAME:
            raise Told(f"too many name, {MOST_NAME}")

    def new_name(self, names):
        self.long_name()
        if self.ahead.text in names:
            raise Told(f"{printed(self.ahead.text)} again at line {self.ahead.line}")
        names.add(self.ahead.text)
        return self.take()

    def file(self):
        while self.ahead.kind != "end":
            if self.outside():
                break
        return ["lef", *self.lines]

    def outside(self):
        """One thing outside macros; whether it is the file's end."""
        word = self.ahead.keyword()
        if not self.ahead.is_passed():
            raise syntax(self.ahead)
        if word == b"macro":
            self.take()
            self.title()
        elif word in SECTIONS:
            self.take()
            self.section()
        elif word in BLOCKS:
            self.take()
            self.pass_behind(lambda token: token.text.lower() == word)
        elif word == b"beginext":
            self.take()
            self.pass_to(b"endext")
        elif word == b"end":
            self.take()
            if self.ahead.keyword() == b"library":
                return True
            self.rest()
        else:
            self.statement()
        return False

    def rest(self):
        """What stands behind the first word of a statement must be there."""
        if not self.ahead.is_passed():
            raise syntax(self.ahead)
        self.statement()

    def section(self):
        if not self.ahead.can_name():
            self.rest()
            return
        self.long_name()
        name = self.take()
        self.pass_behind(lambda token: token.text == name.text)

    def title(self):
        if len(self.names) == MOST_MACROS:
            raise Told(f"too many cells, {MOST_MACROS}")
        if not self.ahead.can_name():
            raise syntax(self.ahead)
        name = self.new_name(self.names)
        try:
            self.lines += Macro(self, name).lines()
        except Stop as stop:
            token = self.ahead
            if not token.is_passed():
                raise syntax(token)
            word = b"end" if stop.behind_end and token.text == name.text else token.shown()
            self.lines.append(f" {printed(name.text)} refused: {printed(word)} at line {token.line}")
            self.pass_behind(lambda other: other.text == name.text, stop.behind_end)


class Macro:
    def __init__(self, reader, name):
        self.reader, self.name, self.size, self.names, self.pins = reader, name, None, set(), []

    def lines(self):
        self.body()
        size = "" if self.size is None else f" size [{printed(self.size)}]"
        return [f" {printed(self.name.text)}{size}", *self.pins]

    def body(self):
        reader = self.reader
        while not self.ends(self.name):
            word = reader.ahead.keyword()
            if word == b"pin":
                reader.take()
                self.pin()
            elif word in (b"obs", b"density"):
                reader.take()
                reader.pass_to(b"end")
            elif word == b"size":
                reader.take()
                self.size = reader.pass_to(b";")
            else:
                self.statement()

    def statement(self):
        if not self.reader.ahead.is_passed():
            raise Stop(False)
        self.reader.statement()

    def ends(self, name):
        """Whether END and the name follow; another word behind END refuses the macro."""
        reader = self.reader
        if reader.ahead.keyword() != b"end":
            return False
        reader.take()
        if not reader.ahead.is_passed():
            raise Stop(False)
        if reader.ahead.text != name.text:
            raise Stop(True)
        reader.take()
        return True

    def expect(self, words):
        if self.reader.ahead.keyword() not in words:
            raise Stop(False)
        return self.reader.take().keyword()

    def pin(self):
        reader = self.reader
        if not reader.ahead.can_name():
            raise Stop(False)
        name = reader.new_name(self.names)
        direction, kind, ports = "Input", "Signal", []
        while not self.ends(name):
            word = reader.ahead.keyword()
            if word == b"direction":
                reader.take()
                direction = DIRECTIONS[self.expect(DIRECTIONS)]
                if direction == "Output" and reader.ahead.keyword() == b"tristate":
                    reader.take()
                self.expect((b";",))
            elif word == b"use":
                reader.take()
                kind = USES[self.expect(USES)]
                self.expect((b";",))
            elif word == b"port":
                reader.take()
                ports.append(reader.pass_to(b"end") or b"")
            else:
                self.statement()
        shown = "".join(f" [{printed(port)}]" for port in ports)
        self.pins.append(f"  {printed(name.text)} {direction} {kind}{shown}")


# ---- what the reader answers

def printed(text):
    return "".join(chr(byte) if 32 <= byte <= 126 else f"<{byte}>" for byte in text)


def answer(text):
    reader = Reader(text)
    try:
        return reader.file()
    except Told as told:
        return [str(told)]


def beginnings(text):
    """What is answered to each shorter beginning: those that are refused where they end are counted."""
    lines, at_ends = [], 0
    for length in range(len(text)):
        told = answer(text[:length])
        if told[0] == str(syntax(tokens_of(text[:length])[-1])):
            at_ends += 1
        elif told[0] == "lef":
            macros = [line for line in told if re.match(" [^ ]", line)]
            lines.append(f"{length} bytes: {len(macros)} macros, {sum(' refused: ' in line for line in macros)} refused")
        elif told[0].startswith("syntax"):
            lines.append(f"{length} bytes: {told[0]}")
        else:
            lines.append(f"{length} bytes: another answer")
    return [*lines, f"{at_ends} beginnings: syntax at their ends"]


# ---- the texts; most with the lines that are wanted, worked out by hand

LONG, FULL = "n" * 129, "m" * 128
TOO_LONG = f"too many name, {MOST_NAME}"


def syntax_at(line, column):
    return f"syntax at line {line} column {column}"


def one(text, *lines):
    """The macro A has this text, and the lines of its pins are these."""
    return f"MACRO A\n{text}\nEND A\n", "lef", " A", *lines


def pin(text, said):
    """The pin P has this text."""
    return one(f"PIN P\n{text}\nEND P", f"  P {said}")


def refused(text, word, line, macro="A"):
    """The macro A is refused, and another follows."""
    return f"MACRO A\n{text}\nEND A\nMACRO Z\nEND Z\n", "lef", f" {macro} refused: {word} at line {line}", " Z"


FIRST = 'MACRO A\nSIZE 2 BY 4 ;\nPIN Y\nDIRECTION OUTPUT TRISTATE ;\nPORT RECT 0 1 ; END\nEND Y\nOBS LAYER "a;" ; END\nEND A\nEND LIBRARY\nx'
DIRECTION_WORDS = {"INPUT": "Input", "OUTPUT": "Output", "OUTPUT TRISTATE": "Output", "INOUT": "Inout", "FEEDTHRU": "Feedthru"}
USE_WORDS = {"SIGNAL": "Signal", "ANALOG": "Signal", "CLOCK": "Signal", "POWER": "Power", "GROUND": "Ground"}


def pins():
    yield FIRST, "lef", " A size [2 BY 4]", "  Y Output Signal [RECT 0 1 ;]"
    yield pin("", "Input Signal")
    for word, said in DIRECTION_WORDS.items():
        yield pin(f"DIRECTION {word} ;", f"{said} Signal")
        yield pin(f"direction {word.lower()} ; use {'power'} ;", f"{said} Power")
        for other, last in DIRECTION_WORDS.items():
            yield pin(f"DIRECTION {word} ; DIRECTION {other} ;", f"{last} Signal")
    for word, said in USE_WORDS.items():
        yield pin(f"USE {word} ;", f"Input {said}")
        for other, last in USE_WORDS.items():
            yield pin(f"USE {word} ; CAPACITANCE 1 ; USE {other} ;", f"Input {last}")
    yield pin("DIRECTION OUTPUT ; USE GROUND ; DIRECTION INOUT ; USE CLOCK ;", "Inout Signal")
    # ports: none, empty ones, many, one with statements and words of other parts, one over lines with a comment
    yield pin("PORT END PORT\nEND PORT END", "Input Signal [] [] []")
    yield pin("PORT LAYER M1 ; RECT 0 0 1 1 ; RECT 1 1 2 2 ; END DIRECTION OUTPUT ; PORT LAYER M2 ; END", "Output Signal [LAYER M1 ; RECT 0 0 1 1 ; RECT 1 1 2 2 ;] [LAYER M2 ;]")
    yield pin('PORT PIN DIRECTION OUTPUT "END ;" PORT MACRO ; eNd', 'Input Signal [PIN DIRECTION OUTPUT "END ;" PORT MACRO ;]')
    yield pin("PORT\n RECT 0 0 # END ;\n 1 1 ;\r\n END", "Input Signal [RECT 0 0 # END ;<10> 1 1 ;]")
    yield pin("PORT END;\nEND", "Input Signal [END;]")
    # other statements, with words that begin parts elsewhere
    for word in ("SIZE", "OBS", "DENSITY", "PIN", "MACRO", "LAYER", "UNITS", "BEGINEXT", "LIBRARY", "TRISTATE", "INPUT", '"DIRECTION"', '"END"', "ANTENNAGATEAREA", "-"):
        yield pin(f"{word} DIRECTION OUTPUT END P ;", "Input Signal")
    yield pin('PROPERTY a ";" b ;', "Input Signal")
    yield pin("; ;;; ; ;", "Input Signal")
    # names are told apart by case, and keywords and any word may be one
    yield one("PIN a END a PIN A END A PIN END END END PIN PIN END PIN", *(f"  {name} Input Signal" for name in ("a", "A", "END", "PIN")))
    yield one("PIN d[0] END d[0] PIN a!b/c<3> END a!b/c<3>", "  d[0] Input Signal", "  a!b/c<3> Input Signal")
    yield one(f"PIN {FULL} END {FULL}", f"  {FULL} Input Signal")


def macros():
    yield "", "lef"
    yield one("")
    yield "macro A size 1 BY 2 ; end A", "lef", " A size [1 BY 2]"
    yield "MACRO A SIZE 1 BY 2 ; SIZE 3 BY 4 ; PIN P END P Size 5 # c\n BY 6 ; END A", "lef", " A size [5 # c<10> BY 6]", "  P Input Signal"
    yield "MACRO A SIZE 1 BY 2 ; SIZE ; END A", "lef", " A"
    yield "MACRO A SIZE 1 BY 2 END A ; END A", "lef", " A size [1 BY 2 END A]"
    yield "MACRO A SIZE 1;BY 2; ; END A", "lef", " A size [1;BY 2;]"
    yield one("OBS LAYER M1 ; PIN P ; SIZE 1 ; END\ndensity RECT 1 ; END\nOBS END")
    yield one("CLASS CORE ; ORIGIN 0 0 ; FOREIGN A 0 0 ; SYMMETRY X Y ; SITE core ; ;")
    yield one("DIRECTION OUTPUT ; USE POWER ; PORT ; PIN P USE GROUND ; END P", "  P Input Ground")
    yield one('PROPERTY ";" "END A" ;')
    yield one("MACRO B ; LAYER END A ; UNITS END UNITS ; BEGINEXT ; LIBRARY ;")
    yield "MACRO END END END MACRO MACRO END MACRO MACRO macro END macro", "lef", " END", " MACRO", " macro"
    yield f"MACRO {FULL}\nEND {FULL}", "lef", f" {FULL}"
    yield f"MACRO {LONG}\nEND {LONG}", TOO_LONG
    yield f"MACRO A\nPIN {LONG}\nEND {LONG}", TOO_LONG
    yield f"MACRO A\nPIN P;\nEND A\nMACRO B\nPIN {LONG}", TOO_LONG
    yield f"MACRO ({LONG}\n", TOO_LONG
    yield f"LAYER {FULL}\nEND {LONG} END {FULL} MACRO A END A", "lef", " A"
    yield f"LAYER {LONG}\nEND {LONG}", TOO_LONG
    yield f"UNITS {LONG} END UNITS VERSION {LONG} ; END {LONG} ;", "lef"
    # a name that stands twice
    yield "MACRO A\nEND A\nMACRO B\nEND B\nMACRO A\nEND A", "A again at line 5"
    yield "MACRO A\nEND A\nMACRO A\n(", "A again at line 3"
    yield "MACRO A\nPIN P;\nEND A\nMACRO A\nEND A", "A again at line 4"
    yield "MACRO A\nPIN P\nEND P\nPIN Q\nEND Q\nPIN\nP\nEND P\nEND A", "P again at line 7"
    yield "MACRO A PIN P END P END A MACRO B PIN P END P PIN p END p END B", "lef", " A", "  P Input Signal", " B", "  P Input Signal", "  p Input Signal"
    # a macro without an end, or without a name
    yield "MACRO", syntax_at(1, 6)
    yield "MACRO ;", syntax_at(1, 7)
    yield "MACRO A;\nEND A;", syntax_at(1, 7)
    yield 'MACRO "A"\nEND A', syntax_at(1, 7)
    yield "MACRO A=B\nEND", syntax_at(1, 7)
    yield "MACRO *\nEND *", syntax_at(1, 7)
    yield "MACRO A\nEND", syntax_at(2, 4)
    yield "MACRO A\nPIN P END", syntax_at(2, 10)
    yield "MACRO A\nEND LIBRARY\n", syntax_at(3, 1)
    yield "MACRO A\nOBS ;\n", syntax_at(3, 1)
    yield 'MACRO A\nEND A\n"', syntax_at(3, 1)
    yield 'MACRO A\nEND "A', syntax_at(2, 5)
    yield 'MACRO A\nPIN "P\nEND A', syntax_at(2, 5)
    yield 'MACRO A\nPIN P\nPORT "\nEND A', syntax_at(3, 6)
    yield 'MACRO A\n SIZE 1 BY "2 ;', syntax_at(2, 12)
    yield 'MACRO A\nFOREIGN A "\n', syntax_at(2, 11)


def refusals():
    yield refused("PIN ;\nEND ;", ";", 2)
    yield refused('PIN "P"\nEND P', "P", 2)
    yield refused('PIN "P Q"\nEND P', "string", 2)
    yield refused("PIN (P\nEND (P", "(P", 2)
    yield refused("PIN P\nDIRECTION INPUT;\nEND P", "INPUT;", 3)
    yield refused("PIN P\nDIRECTION INPUT TRISTATE ;\nEND P", "TRISTATE", 3)
    yield refused("PIN P\nDIRECTION OUTPUT TRISTATE TRISTATE ;\nEND P", "TRISTATE", 3)
    yield refused("PIN P\nDIRECTION OUTPUT INPUT ;\nEND P", "INPUT", 3)
    yield refused("PIN P\nDIRECTION ;\nEND P", ";", 3)
    yield refused("PIN P\nDIRECTION\nEND P", "END", 4)
    yield refused('PIN P\nDIRECTION "INPUT" ;\nEND P', "INPUT", 3)
    yield refused("PIN P\nDIRECTION TRISTATE ;\nEND P", "TRISTATE", 3)
    yield refused("PIN P\nUSE POWER;\nEND P", "POWER;", 3)
    yield refused("PIN P\nUSE SCAN ;\nEND P", "SCAN", 3)
    yield refused("PIN P\nUSE POWER GROUND ;\nEND P", "GROUND", 3)
    yield refused('PIN P\nUSE POWER ";"\nEND P', "string", 3)
    yield refused(f"PIN P\nUSE {LONG} ;\nEND P", "wide", 3)
    yield refused(f"PIN P\nUSE {FULL} ;\nEND P", FULL, 3)
    yield refused(f'PIN P\nUSE "{LONG}" ;\nEND P', "string", 3)
    yield refused(f'PIN P\nUSE "{FULL}" ;\nEND P', FULL, 3)
    yield refused("PIN P\nUSE P\xe9 ;\nEND P", "wide", 3)
    # END and another word, at each level
    yield refused("END B", "B", 2)
    yield refused("END a", "a", 2)
    yield refused('END "A"', "A", 2)
    yield refused("PIN P\nEND Q", "Q", 3)
    yield refused("PIN P\nEND p", "p", 3)
    yield refused("PIN P\nEND END", "END", 3)
    yield refused('PIN P\nEND "P"', "P", 3)
    yield refused("PIN P\nEND ;", ";", 3)
    yield "MACRO A\nPIN P\nEND A\nMACRO B\nEND B", "lef", " A refused: end at line 3", " B"
    yield "MACRO A\nPIN P\nUSE X ;\nEND P\nMACRO B\nEND B\nEND A\nMACRO B\nEND B", "lef", " A refused: X at line 3", " B"
    # from where a refused macro is passed over
    yield "MACRO A\nPIN A\nDIRECTION END A\nEND A ;", "lef", " A refused: END at line 3"
    yield "MACRO A\nPIN P\nUSE A\nEND A\nMACRO B END B", "lef", " A refused: A at line 3", " B"
    yield "MACRO A\nEND B END A ;", "lef", " A refused: B at line 2"
    yield "MACRO A\nEND END A ;", "lef", " A refused: END at line 2"
    yield "MACRO A\nEND B\nEND a ; END\n# A\nA", "lef", " A refused: B at line 2"
    yield 'MACRO A\nEND B\nEND "A" "END" A\nend A', "lef", " A refused: B at line 2"
    yield "MACRO A\nEND B\nMACRO B\nEND B\nEND LIBRARY\n", syntax_at(6, 1)
    yield 'MACRO A\nEND B\n " END A', syntax_at(3, 2)
    yield 'MACRO A\nPIN P\nUSE "X', syntax_at(3, 5)
    yield "MACRO A\nEND B END A MACRO B\nEND A END B", "lef", " A refused: B at line 2", " B refused: A at line 3"


# each kind of section, with words in it that would begin or end others
PARTS = [
    "LAYER M1 TYPE ROUTING ; MACRO B END B END m1 END M1", "VIA v DEFAULT LAYER M1 ; RECT 0 ; END v", "VIARULE r GENERATE LAYER M1 ; END r",
    "SITE core CLASS CORE ; SIZE 1 BY 2 ; END core", "NONDEFAULTRULE n LAYER M1 WIDTH 1 ; END M1 VIA v END v END n", "ARRAY a SITE core 0 ; END a",
    "layer M1 end M1", "UNITS DATABASE MICRONS 1000 ; END units", "PropertyDefinitions MACRO a STRING ; END PROPERTYDEFINITIONS",
    "SPACING SAMENET M1 M1 0.1 ; END SPACING", 'BEGINEXT "x" CREATOR "END LIBRARY" ; MACRO B END B ENDEXT', "VERSION 5.8 ;", "BUSBITCHARS \"[]\" ;",
    "NAMESCASESENSITIVE ON ;", "SITE ;", "LAYER (x MACRO B ;", 'VIA "v" ;', "VIA ; END ;", "END MACRO B ;", 'END "LIBRARY" ;', "END END LIBRARY ;",
    "PIN P ;", '"MACRO" B ;', ";", "END;ARRAY ;", "MAXVIASTACK 4 ; ; ;",
]
# what doesn't end, and where that is told
UNENDED = [
    ("LAYER M1 END M2\n", 2, 1), ("LAYER M1 M1", 1, 12), ("LAYER", 1, 6), ('LAYER "', 1, 7), ("UNITS END UNIT", 1, 15), ("UNITS", 1, 6),
    ("BEGINEXT ENDEXT;", 1, 17), ('SITE s " END s', 1, 8), ("VERSION 5.8", 1, 12), ("VERSION 5.8;", 1, 13), ("END", 1, 4), ("END LIB", 1, 8),
    ('END "LIBRARY', 1, 5), ('VERSION "', 1, 9), ("LAYER (x", 1, 9), ("END LIBRARY;", 1, 13),
]


def sections():
    yield "", "lef"
    for part in PARTS:
        yield f"{part}\nMACRO A END A {part}\nMACRO B END B\n{part}", "lef", " A", " B"
    for text, line, column in UNENDED:
        yield f"MACRO A END A\n{text}", syntax_at(line + 1, column)
    # the end of the file, and what stands behind it
    yield "END LIBRARY", "lef"
    yield "MACRO A END A\nend\n# x\nlibrary MACRO A", "lef", " A"
    yield "MACRO A END A", "lef", " A"
    yield "MACRO A END A END LIBRARY \"", "lef", " A"
    yield "MACRO A END A END LIBRARY\n" + "".join(chr(byte) for byte in range(256) if byte != 37), "lef", " A"
    for byte in (0, 1, 11, 12, 31, 127, 128, 160, 255):
        word = chr(byte)
        yield f"MACRO A END A\nEND LIBRARY {word}", "lef", " A"
        yield f"MACRO A END A\nx {word} {word}; ;", "lef", " A"
        yield f"MACRO A{word}\nEND A", syntax_at(1, 7)
        yield f"MACRO A\nPIN P\nUSE {word} ;\nEND P\nEND A", "lef", " A refused: wide at line 3"
        yield f"MACRO A PIN P PORT {word} END END P END A", "lef", " A", f"  P Input Signal [<{byte}>]"
    for blank in ("\t", "\r", "\n", " \r\n\t"):
        yield f"MACRO{blank}A{blank}PIN{blank}P{blank}PORT{blank}x{blank}END{blank}END{blank}P{blank}END{blank}A{blank}", "lef", " A", "  P Input Signal [x]"


def comments():
    """A comment behind each word of a macro with all that it can have; within SIZE and PORT it is kept."""
    words = 'LAYER M END M MACRO A CLASS CORE ; OBS x ; END PIN P DIRECTION OUTPUT TRISTATE ; USE POWER ; END P END A END LIBRARY x'.split()
    yield "", "lef"
    for place in range(len(words) + 1):
        parts = [*words[:place], '# END LIBRARY ; "\n', *words[place:]]
        yield " ".join(parts), "lef", " A", "  P Output Power"
        yield " ".join(words[:place]) + "# END A\n" + " ".join(words[place:]),
    yield "MACRO A SIZE 1# c\n2 # d\n ; PIN P PORT # e\n x # f\n END# \n END P END A",
    yield 'MACRO A SIZE 1 # c\n2 # d\n ; PIN P PORT # e\n x # f\n END # "\n END P END A', "lef", " A size [1 # c<10>2]", "  P Input Signal [x]"
    yield "MACRO A END A # x", "lef", " A"
    yield "#", "lef"


CELLS = {
    "S0": ("A", "Y"), "S1": ("A B", "Y"), "S2": ("A B", "Y"), "S3": ("A B", "Y"), "MX": ("D0 D1 S", "Y"), "RNG": ("EN", "Y"), "DFF": ("D CK", "Q"),
}


def sample_pin(name, direction, use, place):
    port = f"LAYER metal1 ;\n      RECT {place}.1 0.2 {place}.3 1.4 ;\n      RECT {place}.3 0.2 {place}.5 0.4 ;"
    text = f"  PIN {name}\n    DIRECTION {direction} ;\n    USE {use} ;\n    PORT\n      {port}\n    END\n  END {name}\n"
    kept = port.replace("\n", "<10>")
    return text, f"  {name} {direction.title()} {use.title() if use != 'CLOCK' else 'Signal'} [{kept}]"


def sample(name):
    inputs, output = CELLS[name]
    pins = [(p, "INPUT", "CLOCK" if p == "CK" else "SIGNAL") for p in inputs.split()] + [(output, "OUTPUT", "SIGNAL"), ("VDD", "INOUT", "POWER"), ("VSS", "INOUT", "GROUND")]
    made = [sample_pin(*said, place) for place, said in enumerate(pins)]
    head = f"MACRO {name}\n  CLASS CORE ;\n  ORIGIN 0 0 ;\n  SIZE {len(pins)}.0 BY 2.4 ;\n  SYMMETRY X Y ;\n  SITE core ;\n"
    obstruction = "  OBS\n    LAYER metal1 ;\n    RECT 0.2 0.6 0.8 1.2 ;\n  END\n"
    return head + "".join(text for text, _ in made) + obstruction + f"END {name}\n\n", [f" {name} size [{len(pins)}.0 BY 2.4]", *(line for _, line in made)]


def plain(name):
    """The macro with nothing but what pins say, each statement in a line."""
    inputs, output = CELLS[name]
    said = [(pin, "INPUT", "") for pin in inputs.split()] + [(output, "OUTPUT", ""), ("VDD", "INOUT", "POWER"), ("VSS", "INOUT", "GROUND")]
    stands = "".join(f"PIN {pin}\nDIRECTION {direction} ;\n" + (f"USE {use} ;\n" if use else "") + f"END {pin}\n" for pin, direction, use in said)
    return f"MACRO {name}\n{stands}END {name}\n", [f" {name}", *(f"  {pin} {direction.title()} {use.title() or 'Signal'}" for pin, direction, use in said)]


HEAD = """VERSION 5.8 ;
BUSBITCHARS "[]" ;
DIVIDERCHAR "/" ;
UNITS
  DATABASE MICRONS 1000 ;
END UNITS
MANUFACTURINGGRID 0.005 ;
LAYER metal1
  TYPE ROUTING ;
  DIRECTION HORIZONTAL ;
  PITCH 0.2 ;
END metal1
SITE core
  SYMMETRY Y ;
  CLASS CORE ;
  SIZE 0.2 BY 2.4 ;
END core

"""


def samples():
    made = {name: sample(name) for name in CELLS}
    bare = {name: plain(name) for name in CELLS}
    small, small_lines = made["S0"]
    yield f"SITE core\nEND core\n{small}END LIBRARY\n", "lef", *small_lines
    yield "".join(text for text, _ in bare.values()) + "END LIBRARY\n", "lef", *(line for _, lines in bare.values() for line in lines)
    yield HEAD + "".join(text for text, _ in made.values()) + "END LIBRARY\n", "lef", *(line for _, lines in made.values() for line in lines)


def many():
    """4,096 macros, of which one is refused, and what comes of one more."""
    full = "".join(f"MACRO c{number}\nEND c{number}\n" for number in range(4095)) + "MACRO r\nEND x END r\n"
    yield "", "lef"
    yield full + "VIA d END d MACROS ; END LIBRARY MACRO d", "lef", *(f" c{number}" for number in range(4095)), " r refused: x at line 8192"
    for more in ("MACRO d\nEND d", "MACRO c0", 'MACRO "'):
        yield full + more, f"too many cells, {MOST_MACROS}"


FILES = {
    "samples.txt": samples, "pins.txt": pins, "macros.txt": macros, "refusals.txt": refusals, "sections.txt": sections, "comments.txt": comments,
    "many.txt": many,
}


def told_of(texts):
    for place, (text, *wanted) in enumerate(texts):
        lines = answer(text)
        if wanted and lines != wanted:
            sys.exit(f"{text!r}: {lines} in place of {wanted}")
        yield from lines
        if place == 0:
            yield from beginnings(text)


def main():
    folder = Path(sys.argv[1])
    (folder / "data").mkdir(exist_ok=True)
    lines = []
    for name, rows in FILES.items():
        texts = [(text.encode("latin-1"), *wanted) for text, *wanted in rows()]
        assert not any(b"%" in text for text, *_ in texts)
        (folder / "data" / name).write_bytes(b"%".join(text for text, *_ in texts))
        lines += told_of(texts)
    (folder / "stdout").write_text("".join(f"{line}\n" for line in lines), encoding="utf-8")
    (folder / "args").write_text("".join(f"{name}\n" for name in FILES))


main()
