"""Sources of Rattle, taken apart by text alone: functions, structs, enums, constants and calls, for tools/forms.

Comments, strings and characters are spaces in what is read, so that places stay places.
"""
import re
from functools import cache

MARKS = re.compile(r'//[^\n]*|b?"(?:\\.|[^"\\])*"|b?\'(?:\\.|[^\'\\\n])\'')
CLAUSE = re.compile(r"\b(requires|ensures)\*?(?:\s+(\w+))?\s*\{")
CLOSE = {"(": ")", "[": "]", "{": "}", "<": ">"}


def blank(text):
    return MARKS.sub(lambda m: re.sub(r"[^\n]", " ", m.group()), text)


def closing(text, at):
    """The place behind the bracket that closes the one at this place."""
    depth, opens, closes = 0, text[at], CLOSE[text[at]]
    for end in range(at, len(text)):
        depth += (text[end] == opens) - (text[end] == closes and text[end - 1 : end + 1] != "->")
        if depth == 0:
            return end + 1
    return len(text)


def squeezed(text):
    return re.sub(r"\s+", " ", text).strip()


def parts(text, separator=","):
    """A text taken apart at a separator that no bracket holds, without empty ones."""
    found, depth = [""], 0
    text = re.sub(r"(?<=[\w:])<(?=\S)|(?<=\S)(?<!-)>(?=[^=]|$)", lambda m: "\1" if m.group() == "<" else "\2", text)
    for c in text:
        depth += (c in "([{\1") - (c in ")]}\2")
        if c == separator and depth <= 0:
            found.append("")
        else:
            found[-1] += c
    return [squeezed(part.replace("\1", "<").replace("\2", ">")) for part in found if part.strip()]


class Item:
    def __init__(self, file, at, name):
        self.file, self.at, self.name, self.line = file, at, name, file.line(at)

    @property
    def place(self):
        return f"{self.file.name}:{self.line}"

    @property
    def crate(self):
        return self.file.crate


class Function(Item):
    """Its owner (the type of the impl around it), parameters as (name, type), answer, contract as (word, text), and body; `raw` is the body with comments and strings."""

    def __init__(self, file, match):
        super().__init__(file, match.start(), match.group(3))
        text = file.text
        self.public, self.extern, self.owner = bool(match.group(1)), bool(match.group(2)), file.owner(match.start())
        at = match.end()
        at = closing(text, at) if text[at] == "<" else at
        at = text.index("(", at)
        end = closing(text, at)
        self.parameters = [self.parameter(part) for part in parts(text[at + 1 : end - 1])]
        stop = re.compile(r"\brequires\b|\bensures\b|[{;]").search(text, end)
        self.answer = squeezed(text[end : stop.start()]).removeprefix("->").strip()
        self.contract, at = [], end
        while (clause := CLAUSE.search(text, at)) and clause.start() <= text.index("{", at):
            at = closing(text, clause.end() - 1)
            self.contract.append((clause.group(1), squeezed(text[clause.end() : at - 1])))
        found = re.compile(r"[{;]").search(text, at)
        self.start = found.start() if found else len(text)
        self.end = closing(text, self.start) if found and found.group() == "{" else self.start
        self.body, self.raw = text[self.start + 1 : self.end - 1], file.raw[self.start + 1 : self.end - 1]

    @staticmethod
    def parameter(text):
        name, _, kind = text.partition(":")
        return re.sub(r"^mut ", "", name.strip()), kind.strip() or text

    @property
    def path(self):
        return f"{self.crate}::{self.owner + '::' if self.owner else ''}{self.name}"

    def named(self):
        """The parameters without `self`."""
        return [(name, kind) for name, kind in self.parameters if not name.endswith("self")]


class Type(Item):
    """A struct (fields as (name, type)) or an enum (variants as (name, what they hold)), with the attributes above it."""

    def __init__(self, file, match, body):
        super().__init__(file, match.start(2), match.group(3))
        self.attributes, self.fields = match.group(1), []
        for part in parts(body):
            part = re.sub(r"^pub(?:\([^)]*\))? ", "", re.sub(r"#\[[^\]]*\] *", "", part))
            self.fields.append(self.field(part, match.group(2)))
        self.enum = match.group(2) == "enum"

    @staticmethod
    def field(text, word):
        if word == "struct":
            name, _, kind = text.partition(":")
            return name.strip(), kind.strip()
        found = re.match(r"(\w+) ?(.*)", text)
        return found.group(1), re.sub(r"^= .*", "", found.group(2)).strip()

    @property
    def repr_c(self):
        return "repr(C)" in self.attributes


class File:
    """A file of a crate's src/: its functions, types and constants (name, type, value)."""

    def __init__(self, name, text):
        self.name, self.crate, self.raw, self.text = name, name.split("/")[1], text, blank(text)
        self.impls = []
        for found in re.finditer(r"^impl\b([^{;]*)\{", self.text, re.M):
            owner = re.sub(r".* for ", "", re.sub(r"^<[^>]*>", "", squeezed(found.group(1)))).strip()
            self.impls.append((found.start(), closing(self.text, found.end() - 1), owner))
        heads = re.finditer(r'(?:\b(pub(?:\([^)]*\))? )?)(?:(extern) +"?[ C]*"? *)?\bfn (\w+)(?=[(<])', self.text)
        self.functions = [Function(self, head) for head in heads]
        self.types = []
        for head in re.finditer(r"((?:^#\[[^\n]*\n)*)^(?:pub(?:\([^)]*\))? )?(struct|enum) (\w+)[^{;(]*\{", self.text, re.M):
            self.types.append(Type(self, head, self.text[head.end() : closing(self.text, head.end() - 1) - 1]))
        self.constants = []
        for found in re.finditer(r"^ *(?:pub(?:\([^)]*\))? )?const (\w+): ([^=;]+|\[[^\]]*\]) = ", self.text, re.M):
            item = Item(self, found.start(1), found.group(1))
            item.kind, item.value = squeezed(found.group(2)), squeezed(text[found.end() : self.text.index(";", found.end())])
            self.constants.append(item)

    def line(self, at):
        return self.text.count("\n", 0, at) + 1

    def owner(self, at):
        return next((re.sub(r"<.*", "", name) for start, end, name in self.impls if start < at < end), "")


class Call:
    """A call in a function: the name, its arguments, and the place."""

    def __init__(self, function, name, arguments, at):
        self.function, self.name, self.arguments, self.at = function, name, arguments, at


@cache
def calls(function):
    found = []
    for match in re.finditer(r"\b([a-z_]\w*)(?:::<[^>()]*>)?\(", function.body):
        if not re.search(r"\bfn $", function.body[: match.start()]):
            end = closing(function.body, match.end() - 1)
            found.append(Call(function, match.group(1), parts(function.body[match.end() : end - 1]), match.start()))
    return found


def read(folder):
    """The files of crates/*/src below a folder, in order of names."""
    paths = sorted(folder.glob("crates/*/src/**/*.rt"))
    return [File(str(path.relative_to(folder)), path.read_text()) for path in paths]
