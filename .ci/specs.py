"""What the folders specs/ define, with the comments that stand there, and what the contracts of public calls cite of it."""
import os, re
from typing import NamedTuple

import crates

# What begins a definition; the lines of a mutual block have no `abbrev` of their own. A block's members are further in.
HEAD = re.compile(
    r"(?P<kind>(?:abbrev |unfoldable )?pub |(?:abbrev |unfoldable )(?!mutual$))(?:data |record )?"
    r"(?P<name>[^\s(){}]+)(?= [({]| :|$)"
)
BLOCK = re.compile(r"(?:abbrev )?mutual$|module ")
# How a record and a data type begin, and their fields and cases.
RECORD = re.compile(r"(?:pub )?record "), re.compile(r"pub (\S+) :")
DATA = re.compile(r"(?:pub )?data "), re.compile(r"(\S+) :")
USE = re.compile(r"^ *(?:pub )?(?:ghost )?use Rattle\.(\w+)\.specs\.(\w+)(?:\.\{([^}]*)\})?(?: as (\w+))?;?$", re.M)
WORD = re.compile(r"[^\s(){}\[\],;.]+(?:\.[^\s(){}\[\],;.]+)*")


class Definition:
    """A definition: where it stands, the part of its file, its name, the comment over it, that over its group, its fields with
    their comments, its cases, and its text without comments. Without `pub` only its own file can cite it."""

    def __init__(self, crate, file, name, is_public):
        self.place, self.name, self.is_public = (crate, file, name), name, is_public
        self.part, self.comment, self.block = "", "", ""
        self.fields, self.cases, self.text = [], [], []


class File(NamedTuple):
    """A file of specs/: its name, its first comment, and its definitions in their order."""

    name: str
    comment: str
    definitions: list


def plain(name):
    """A name without the places of an operator's operands."""
    return name.replace("◌", "")


def first_comment(text):
    """The first paragraph of the comment that a file begins with."""
    found = re.match(r"(?:-- .*\n)*", text)[0]
    return " ".join(line[3:].strip() for line in found.splitlines())


class Reading:
    """A file that is read line by line: the part of it, the comment right above the line, the line's definition and block."""

    def __init__(self, crate, file):
        self.crate, self.file, self.part, self.found, self.comment = crate, file, "", [], []
        # the definition that the line is in, its indentation, and whether it is a record, a data type or neither
        self.current, self.depth, self.kind = None, 0, None
        # the comment over the block, and its indentation; that over what stands above without a blank line between
        self.block, self.edge, self.above = "", None, ""

    def line(self, line):
        """Reads a line."""
        words, depth = line.strip(), len(line) - len(line.lstrip(" "))
        if not words:
            self.comment, self.above = [], ""
        elif words.startswith("-- ----"):
            self.part = words[7:].strip()
        elif words.startswith("--"):
            self.comment.append(words[2:].strip())
        elif not words.startswith("infix"):
            self.code(words, depth)
            self.comment = []

    def code(self, words, depth):
        """Reads a line that is no comment."""
        if self.edge is not None and depth <= self.edge:
            self.block, self.edge = "", None
        if BLOCK.match(words):
            self.block, self.edge, self.current = " ".join(self.comment), depth, None
        elif self.current and self.kind and depth > self.depth:
            self.member(words)
        elif HEAD.match(words):
            self.begin(words, depth)
        elif self.current:
            self.current.text.append(words)

    def begin(self, words, depth):
        """Begins a definition."""
        head = HEAD.match(words)
        self.current = Definition(self.crate, self.file, plain(head["name"]), "pub " in head["kind"])
        self.above = " ".join(self.comment) or self.above
        self.current.part, self.current.comment, self.current.block = self.part, " ".join(self.comment), self.above or self.block
        self.current.text.append(words)
        self.depth, self.kind = depth, next((it for it in (RECORD, DATA) if it[0].match(words)), None)
        self.found.append(self.current)

    def member(self, words):
        """Reads a field of a record, a case of a data type, or another line of theirs."""
        found = self.kind[1].match(words)
        if found and self.kind is RECORD:
            self.current.fields.append((found[1], " ".join(self.comment)))
        elif found:
            self.current.cases.append(found[1])
        self.current.text.append(words)


def file_of(crate, name):
    """A file of a crate's specs/."""
    text = crates.text_of(f"{crates.TOP}/crates/{crate}/specs/{name}.antt")
    reading = Reading(crate, name)
    for line in text.splitlines():
        reading.line(line)
    return File(name, first_comment(text), reading.found)


def names_of(crate):
    """The names of the files of a crate's specs/, in the order of Lib.antt."""
    path = f"{crates.TOP}/crates/{crate}/specs/Lib.antt"
    return re.findall(r"^pub mod (\w+)$", crates.text_of(path), re.M) if os.path.isfile(path) else []


# ---- what cites what


class Scope:
    """What the names of a file mean: those that it imports, files that it imports under a name, and, in specs/, its own."""

    def __init__(self, text, own=()):
        self.names, self.files = {}, {}
        for crate, file, names, alias in USE.findall(text):
            if names:
                self.take_in(crate, file, names)
            else:
                self.files[alias or file] = (crate, file)
        self.names.update(own)

    def take_in(self, crate, file, names):
        """Takes in names that a line imports."""
        for word in names.split(","):
            name, _, alias = word.strip().partition(" as ")
            self.names[plain(alias or name)] = (crate, file, plain(name))

    def cited(self, text):
        """The places of what a text cites."""
        for word in WORD.findall(text):
            first, *rest = word.split(".")
            if first in self.files and rest:
                yield (*self.files[first], rest[0])
            elif first in self.names:
                yield self.names[first]


class Citations:
    """Of each definition what its text cites."""

    def __init__(self, files_by_crate):
        # a case, or a name that a file hands on, stands for the definition that it belongs to
        self.homes, self.cited = {}, {}
        for crate, files in files_by_crate.items():
            for file in files:
                self.read(crate, file)

    def read(self, crate, file):
        """Reads the definitions of a file."""
        text = crates.text_of(f"{crates.TOP}/crates/{crate}/specs/{file.name}.antt")
        own = {it.name: it.place for it in file.definitions}
        for it in file.definitions:
            self.homes.update({(crate, file.name, case): it.place for case in it.cases})
        handed = Scope("\n".join(line for line in text.splitlines() if line.startswith("pub use")))
        self.homes.update({(crate, file.name, name): place for name, place in handed.names.items()})
        scope = Scope(text, own)
        for it in file.definitions:
            self.cited.setdefault(it.place, set()).update(scope.cited("\n".join(it.text)))

    def reached(self, places):
        """The definitions at these places, and what they cite, and so on."""
        found, left = set(), list(places)
        while left:
            place = left.pop()
            place = self.homes.get(place, place)
            if place in self.cited and place not in found:
                found.add(place)
                left.extend(self.cited[place])
        return found
