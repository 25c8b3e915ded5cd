"""Must-fail edits as files have them, for tools/edits and tools/mutants.

The first line says `# NAME, ..: the mutant in words`. Then come either lines `# input: `, Rattle statements that end in a bool, true of the crate as it is
and false of the mutant, or, where no program can tell (an edit of a definition or a statement), a line `# differs: ` with the input in words.
A mutant that a fault of its own stops on the input says so in a line `# stops`, and one that does not end in a line `# endless`.
"""
import re
from pathlib import Path

ROOT = Path(__file__).resolve().parent.parent

# How a mutant differs on its input.
OTHER, STOPS, ENDLESS = "another answer", "stopped by a fault", "without an end"


def crates():
    """The crates that crates.txt lists, each with what it stands on."""
    return {name: needs.split() for name, needs in re.findall(r"^(\w+)(?: staticlib)?:(.*)$", (ROOT / "crates.txt").read_text(), re.M)}


CLAUSE = re.compile(r"//.*|\b(?:requires|ensures)\*?(?: \w+)? *\{")


def clauses(text):
    """Where each clause of a contract is: its word, what its brackets hold, its start and its end. What a comment has is none."""
    at = 0
    while found := CLAUSE.search(text, at):
        at = found.end()
        if not found.group().startswith("//"):
            depth = 1
            while depth and at < len(text):
                depth += (text[at] == "{") - (text[at] == "}")
                at += 1
            yield re.match(r"\w+", found.group()).group(), text[found.end() : at - 1].strip(), found.start(), at


def without_clauses(text):
    """A source with spaces for its clauses; lines stay lines."""
    for _, _, start, end in clauses(text):
        text = text[:start] + re.sub(r"[^\n]", " ", text[start:end]) + text[end:]
    return text


class Edit:
    """What its first line names, the mutant in words, its input, how it ends there, and what it replaces: file, old text, new text."""

    def __init__(self, path, text=None):
        lines = (path.read_text() if text is None else text).split("\n")
        title = re.match(r"# ([^:]+(?:::[^:]+)*): (.+)", lines[0])
        self.path, self.label = path, path.stem
        self.names = title.group(1).split(", ") if title else []
        self.words = title.group(2) if title else ""
        self.input = [line[len("# input: ") :] for line in lines if line.startswith("# input: ")]
        self.end = STOPS if "# stops" in lines else ENDLESS if "# endless" in lines else OTHER
        self.differs = any(line.startswith("# differs: ") for line in lines)
        self.replaced, file, old = [], "", ""
        for line in lines:
            if line.startswith("file: "):
                file = line[len("file: ") :]
            elif line.startswith("old: "):
                old = line[len("old: ") :]
            elif line.startswith("new:"):
                self.replaced.append((file, old, line[len("new:") :].removeprefix(" ")))

    def __str__(self):
        return str(self.path.relative_to(ROOT))

    def of_code(self):
        """Whether it replaces code, and not only a contract, a definition or what these cite."""
        contract = r"[^\x00-\x7f]|\b(?:requires|ensures)\b|\.(?:now|old|new)\b|^ghost "
        return any(file.startswith("src/") and not re.search(contract, old) for file, old, _ in self.replaced)

    def of(self, function):
        return function in self.names and self.of_code()


def edits_of(crate):
    return [Edit(path) for path in sorted((ROOT / "crates" / crate / "must-fail").glob("*.edit"))]
