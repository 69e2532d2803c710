"""The contracts of public calls: what the files of src/ say to those who call a crate."""
import os, re

import crates

BLOCK = re.compile(r"^(?:pub(?:\([\w:]+\))? )?(?:unsafe )?(?:impl|trait)\b[^{]*\{", re.M)
FUNCTION = re.compile(r"((?:pub(?:\([\w:]+\))? )?(?:const |unsafe |extern \"[^\"]*\" )*)fn (\w+)")
CLAUSE = re.compile(r"\b(?:requires|ensures)\b[^{}]*$")


def masked(text):
    """A text with spaces for its comments, texts and characters."""
    text = re.sub(r"//[^\n]*", lambda it: " " * len(it[0]), text)
    text = re.sub(r'"(?:\\.|[^"\\])*"', lambda it: '"' + " " * (len(it[0]) - 2) + '"', text)
    return re.sub(r"'(?:\\.|[^'\\])'", lambda it: " " * len(it[0]), text)


def closing(text, at):
    """Where the bracket is closed that stands there."""
    depth = 0
    for it in re.compile("[{}]").finditer(text, at):
        depth += 1 if it[0] == "{" else -1
        if not depth:
            return it.start()
    return len(text)


class Exports:
    """What a crate shows: the names that its lib.rt hands on, and its public modules. A program shows all."""

    def __init__(self, crate):
        self.shows_all, self.names, self.modules = crates.is_program(crate), {"lib"}, set()
        if not self.shows_all:
            text = masked(crates.text_of(f"{crates.TOP}/crates/{crate}/src/lib.rt"))
            self.modules = set(re.findall(r"^pub mod (\w+);", text, re.M))
            for names in re.findall(r"^pub use ([^;]*);", text, re.M):
                self.names.update(re.findall(r"\w+", names.rpartition("{" if "{" in names else "::")[2]))
            self.names.update(re.findall(r"^pub (?:struct|enum|trait|fn|const|type) (\w+)", text, re.M))

    def shows(self, name, module):
        """Whether a caller can name an item of this name in this module."""
        return self.shows_all or name in self.names or module in self.modules


class Block:
    """An impl or a trait: where it stands, of what it is, and whether that is of a trait."""

    def __init__(self, text, found):
        self.start, self.end = found.start(), closing(text, found.end() - 1)
        head = re.sub(r"\bwhere\b.*", "", found[0][:-1], flags=re.S)
        kind, _, of = head.rpartition(" for ")
        self.of_trait = bool(kind) or "impl" not in head
        self.is_model = bool(re.search(r"\bModel$", kind))
        words = re.findall(r"(?:\w+::)*(\w+)", re.sub(r"'\w+|\bmut\b|^.*\b(?:impl|trait)\b(?:<.*?> )?", " ", of if kind else head))
        self.name = words[0] if words else ""

    def ghosts(self, text):
        """The ghost items of a trait that callers see. Of a model that is the type of the values alone."""
        kind = "Value" if self.is_model else r"\w+"
        return re.findall(rf"\bghost {kind}(?: =|:) (\{{[^;]*\}});", text[self.start : self.end])


def clauses_after(text, at):
    """The clauses of the function whose name ends there."""
    while True:
        found = re.compile("[{;]").search(text, at)
        if not found or found[0] == ";" or not CLAUSE.search(text[at : found.start()]):
            return
        at = closing(text, found.start())
        yield text[found.start() : at]


def is_public(found, block, module, exports):
    """Whether a caller can call this function."""
    is_open = found[1].startswith("pub ")
    if block:
        return exports.shows_all or exports.shows(block.name, module) and (block.of_trait or is_open)
    return exports.shows_all or is_open and ("extern" in found[1] or exports.shows(found[2], module))


def public_clauses(crate):
    """For each file of a crate its text, and the clauses, ghost items and ghost fields in it that a caller sees."""
    exports = Exports(crate)
    for path in crates.sources_of(crate):
        text, module = masked(crates.text_of(path)), os.path.basename(path)[:-3]
        yield text, list(clauses_in(text, module, exports))


def clauses_in(text, module, exports):
    """The same of one file."""
    blocks = [Block(text, found) for found in BLOCK.finditer(text)]
    for found in FUNCTION.finditer(text):
        block = next((it for it in blocks if it.start <= found.start() < it.end), None)
        if is_public(found, block, module, exports):
            yield from clauses_after(text, found.end())
    for block in blocks:
        if exports.shows(block.name, module):
            yield from block.ghosts(text)
    yield from re.findall(r"\bpub ghost \w+: (\{[^}]*\})", text)
