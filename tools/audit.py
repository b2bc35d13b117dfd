"""Prints what has to be read to judge the promises of a function: the definitions that its clauses reach, file by file, with their
sentences.

    python3 tools/audit.py [CRATE FILE FUNCTION]

Without words: the clauses of `qual`. A definition's sentence is the comment above it, else the words beside its name in a
table of `docs/` that tells of its crate. The types of the code and the words of the standard library are not followed."""
import re
import sys
from collections import deque
from pathlib import Path

TOP = Path(__file__).resolve().parent.parent
HEAD = re.compile(r"^(?P<indent> *)(?:abbrev |unfoldable )*pub (?:record |data )?(?P<name>[^\s:({]+)")
USE = re.compile(r"use Rattle\.(?P<path>[\w.+-]+?)(?:\.\{(?P<names>[^}]*)\}| as (?P<alias>\S+?));?\s*$")
WORD = re.compile(r"[A-Za-z_][\w'-]*(?:\.[A-Za-z_][\w'-]*)?")


class Definition:
    """A definition of `specs/`: where it stands, its sentence and its words."""

    def __init__(self, module, name, path, line, sentence, text):
        self.module, self.name, self.path, self.line, self.sentence, self.text = module, name, path, line, sentence, text


def imports_of(text):
    """What each imported name stands for: a module and a name in it, or a module."""
    names, modules = {}, {}
    for line in text.splitlines():
        found = USE.search(line)
        if not found or ".declared." in f".{found['path']}.":
            continue
        if found["alias"]:
            modules[found["alias"]] = found["path"]
            continue
        for item in found["names"].split(","):
            name, _, alias = item.strip().partition(" as ")
            names[alias or name] = found["path"], name
    return names, modules


def definitions_of(path):
    """The definitions of a file, in its order."""
    crate, _, *inner = path.relative_to(TOP / "crates").with_suffix("").parts
    module = ".".join([crate, "specs", *inner])
    lines, comment, number = path.read_text().splitlines(), [], 0
    while number < len(lines):
        line, start = lines[number], number
        number += 1
        if line.lstrip().startswith("-- "):
            comment.append(line.strip()[3:])
            continue
        found = HEAD.match(line)
        if found and "use Rattle" not in line and not line.lstrip().startswith("pub mod"):
            while number < len(lines) and lines[number].strip():
                number += 1
            yield Definition(
                module, found["name"], path.relative_to(TOP), start + 1, " ".join(comment), "\n".join(lines[start:number])
            )
        comment = []


class Sentences:
    """The sentences of the tables of `docs/`, by crate and name. A table tells of the crates that the headings above it name, or
    else of those that the page names before its first heading of the second rank; where none is named, of all."""

    def __init__(self, crates):
        self.told, self.crates = {}, crates
        for path in sorted((TOP / "docs").glob("*.md")):
            if path.name != "AUDIT.md":
                self.read(path.read_text().splitlines())

    def read(self, lines):
        page, headings = [], {}
        for line in lines:
            rank = len(line) - len(line.lstrip("#"))
            if rank:
                headings = {above: crates for above, crates in headings.items() if above < rank}
                headings[rank] = self.crates_in(line)
            elif max(headings, default=1) < 2:
                page += self.crates_in(line)
            cells = [cell.strip() for cell in line.strip("|").split(" | ")]
            if line.startswith("| `") and len(cells) > 1:
                above = [crate for crates in headings.values() for crate in crates]
                for name in re.findall(r"`([^`\s]+)[^`]*`", cells[0]):
                    for crate in above or page or [None]:
                        self.told.setdefault((crate, name), " | ".join(cells[1:]))

    def crates_in(self, line):
        return [word for word in re.findall(r"`(\w+)`", line) if word in self.crates]

    def of(self, definition):
        crate = definition.module.partition(".")[0]
        return definition.sentence or self.told.get((crate, definition.name)) or self.told.get((None, definition.name), "")


class Specs:
    """All definitions of the repository by module and name, and what each file imports."""

    def __init__(self):
        self.found, self.imports = {}, {}
        for path in sorted((TOP / "crates").glob("*/specs/**/*.antt")):
            defined = list(definitions_of(path))
            for definition in defined:
                self.found[definition.module, definition.name] = definition
                self.imports[definition.module] = imports_of(path.read_text())

    def cited(self, text, module, imports):
        """The definitions that a text names, in the order in which it does."""
        names, modules = imports
        cited = []
        for word in WORD.findall(text):
            front, _, rest = word.partition(".")
            keys = [names.get(front), (module, front), (modules.get(front), rest)]
            cited += [self.found[key] for key in keys if key in self.found]
        return list(dict.fromkeys(cited))


def clauses_of(path, function):
    """The comments and clauses of a function, up to its body."""
    text = path.read_text()
    start = re.search(rf"^( *)pub fn {function}\b", text, re.M)
    return text[start.start() : text.index(f"\n{start[1]}{{", start.start())], imports_of(text)


def main(crate="qual_core", file="top", function="qual"):
    specs = Specs()
    sentences = Sentences({path.name for path in (TOP / "crates").iterdir()})
    clauses, imports = clauses_of(TOP / "crates" / crate / "src" / f"{file}.rt", function)
    reached = dict.fromkeys(specs.cited(clauses, f"{crate}.specs", imports))
    waiting = deque(reached)
    while waiting:
        definition = waiting.popleft()
        for cited in specs.cited(definition.text, definition.module, specs.imports[definition.module]):
            if cited not in reached:
                reached[cited] = None
                waiting.append(cited)
    by_file = {}
    for definition in reached:
        by_file.setdefault(definition.path, []).append(definition)
    print(f"# What the promises of `{function}` rest on\n")
    print(f"Made by `tools/audit.py`. The clauses stand in `crates/{crate}/src/{file}.rt`. Below are the {len(reached)} definitions that")
    print("they reach, file by file, each file behind those that cite it first. Whoever has read these, and trusts what the README")
    print("names as trusted, has read all that the promises say; lemmas and proofs needn't be read.")
    for path, definitions in by_file.items():
        print(f"\n## `{path}`\n")
        for definition in sorted(definitions, key=lambda one: one.line):
            sentence = sentences.of(definition)
            print(f"- `{definition.name}`{': ' if sentence else ''}{sentence}")


main(*sys.argv[1:])
