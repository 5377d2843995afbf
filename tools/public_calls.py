"""Reads the public calls and laws of the crates from their sources, with the names of their clauses.

A call is a public function, a method of a public type or a function of a public trait. A law is a public function with
an empty body and a contract. Public is what a crate's root declares or hands on by `pub use`.
"""
import pathlib
import re

TOP = pathlib.Path(__file__).resolve().parent.parent
CLAUSE = re.compile(r"\s*(requires|ensures)\b\s*(\w+)?\s*\{")
FUNCTION = re.compile(r"( {4})?(pub )?(?:const )?fn (\w+)")
BLOCK = re.compile(r"(?:impl(?:<.*?>)? (\w+)(?:<.*>)? \{|(pub trait) (\w+))")
DECLARED = re.compile(r"pub (?:const |unsafe )?(?:fn|struct|enum|trait|type|const) (\w+)")


class Call:
    """A public call or law: its name, its sentence, the type of its result and the names of its clauses."""

    def __init__(self, name, sentence, head, is_law):
        self.name, self.sentence, self.is_law = name, sentence, is_law
        found = re.search(r"\) -> (.*?)\s*(?:\bwhere\b.*|\{\}?|;)?$", head.signature)
        self.result = found[1] if found else ""
        self.clauses = head.clauses

    def named(self, kind):
        """The names of the clauses of a kind, `requires` or `ensures`."""
        return [name for found, name in self.clauses if found == kind and name]

    def unnamed(self, kind):
        """How many clauses of a kind have no name."""
        return sum(found == kind and not name for found, name in self.clauses)

    def can_fail(self):
        """Whether the result is a `Result` or an `Option`."""
        return bool(re.match(r"(Result|Option)\b", self.result))


class Head:
    """The signature and the contract of a function, read from its first line on."""

    def __init__(self, lines, start):
        indent = re.match(r"\s*", lines[start])[0]
        self.signature, self.clauses, self.is_empty, depth = "", [], False, 0
        for line in lines[start:]:
            depth += sum(line.count(mark) for mark in "([{") - sum(line.count(mark) for mark in ")]}")
            clause = CLAUSE.match(line)
            if clause:
                self.clauses.append((clause[1], clause[2]))
            elif not self.clauses and line != indent + "{" and not line.strip().startswith("//"):
                self.signature = (self.signature + " " + line.strip()).strip()
            self.is_empty = line == indent + "{}" or not self.clauses and line.endswith(" {}")
            has_body = line == indent + "{" or not self.clauses and line.endswith(" {")
            if self.is_empty or has_body or depth == 0 and line.endswith(";"):
                return


def first_sentence(lines):
    """The first sentence of a doc comment."""
    text = " ".join(lines).strip()
    found = re.match(r"(.*?[.!?])(?= [A-Z`]|$)", text)
    return found[1] if found else text


def rooms(top=TOP):
    """The rooms of crates.txt in order, each with its crates."""
    found, title = [], None
    for line in (top / "crates.txt").read_text().splitlines():
        if line.startswith("# ") and not line.endswith("."):
            title = line[2:]
        elif re.match(r"\w+:", line):
            if not found or found[-1][0] != title:
                found.append((title, []))
            found[-1][1].append(line.split(":")[0])
    return found


def root_of(crate, top=TOP):
    """The file of a crate's root."""
    source = top / "crates" / crate / "src"
    return next(path for path in (source / "lib.rt", source / "main.rt") if path.exists())


def exported(crate, top=TOP):
    """The names that a crate's root makes public."""
    text = root_of(crate, top).read_text()
    uses = [re.sub(r"\s", "", found) for found in re.findall(r"^pub use ([^;]+);", text, re.MULTILINE)]
    handed_on = {name for use in uses for name in re.findall(r"\w+", use[use.rindex("::"):])}
    return handed_on | set(re.findall(r"^" + DECLARED.pattern, text, re.MULTILINE))


def calls_in(text, public):
    """The public calls and laws of a file, in their order."""
    lines, owner, in_trait, comment = text.splitlines(), None, None, []
    for number, line in enumerate(lines):
        block, function = BLOCK.match(line), FUNCTION.match(line)
        if block:
            owner, in_trait = block[1] or block[3], block[2]
        elif line.startswith("}"):
            owner = None
        if function:
            is_method = function[1] and owner in public and (function[2] or in_trait)
            if is_method or function[2] and not function[1] and function[3] in public:
                head = Head(lines, number)
                name = owner + "::" + function[3] if is_method else function[3]
                yield Call(name, first_sentence(comment), head, head.is_empty and bool(head.clauses))
        if line.strip().startswith("///"):
            comment.append(line.strip()[3:].strip())
        elif not line.strip().startswith("#["):
            comment = []


def calls(crate, top=TOP):
    """The public calls and laws of a crate, file by file."""
    files = sorted((top / "crates" / crate / "src").rglob("*.rt"))
    public = exported(crate, top)
    return [call for path in files if not path.stem.endswith("tests") for call in calls_in(path.read_text(), public)]
