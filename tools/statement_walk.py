"""Walks what the contract of a public function rests on: definitions, and the declarations of Rust that they speak of.

A part is a piece of a file: in a file of definitions (crates/CRATE/specs/NAME.antt) a definition with its comment; in a
source (crates/CRATE/src/NAME.rt) the declaration of a type, a trait or a function with its contract, without bodies, the
model of a type (`impl Model for`), and what a box of a trait stands for. A part rests on all parts that its names may stand
for, in its own file and by imports. So a line that isn't needed may count, and each line that a name leads to counts. What
the toolchain and its crates define is outside.
"""
import functools
import pathlib
import re

import public_calls

IMPORT = re.compile(r"^\s*(?:pub )?(?:ghost )?use Rattle\.([\w.]+?)(?:\.\{([^}]*)\}|\s+as\s+(\w+))?;?\s*$", re.MULTILINE)
RUST_USE = re.compile(r"^\s*(?:pub(?:\(\w+\))? )?use ([^;]+);", re.MULTILINE)
DECLARED = r"(?:pub(?:\(\w+\))? )?(?:const (?=fn))?(fn|struct|enum|trait|type|const) %s\b"
MODEL, BOXED = r"impl(?:<.*>)? Model for %s\b", r"impl %s for Box<dyn"
DEFINED = re.compile(r"(?:^|\s)(?:pub|abbrev|record|data) (?!record |data |pub |mutual)([^\s:({]+)|^\s*([^\s:]+) :",
                     re.MULTILINE)
DECLARATIONS, VARIANTS, SPLIT = ("declared", "contracts"), "TheVariants", r"[\s(){};,.\[\]]+"


class WalkError(Exception):
    """What can't be resolved, with the file that names it."""


class Part:
    """A piece of a file: the numbers of its lines, and its text without comments."""

    def __init__(self, path, lines, numbers):
        self.path, self.numbers = path, frozenset(numbers)
        self.text = re.sub(r"(--|//).*", "", "\n".join(lines[number] for number in sorted(numbers)))


class Import:
    """An import of a file: the module, and the names that it brings, each with its name in the module."""

    def __init__(self, module, names, alias):
        self.module, self.alias = module, alias or module.split(".")[-1] if not names else None
        pairs = [re.split(r"\s+as\s+", name.strip()) for name in names.split(",") if name.strip()]
        self.names = [(pair[-1], pair[0]) for pair in pairs]

    def used_in(self, part, used):
        """The names of the module that a part uses."""
        if self.alias:
            return re.findall(r"\b%s\.([\w-]+)" % re.escape(self.alias), part.text)
        return [name for here, name in self.names if is_used(here, used)]


def is_used(name, used):
    """Whether a name, or each piece of an operator, is among the words of a text."""
    return all(piece in used for piece in name.split("◌") if piece)


@functools.lru_cache(maxsize=None)
def lines_of(path):
    return path.read_text().splitlines()


@functools.lru_cache(maxsize=None)
def imports_of(path):
    return [Import(*found) for found in IMPORT.findall("\n".join(lines_of(path)))]


def words_of(text):
    """The words of a text, with and without the marks of Rust around them."""
    text = re.sub(r"\b(?:requires|ensures)\b\s*\w*", "", text)
    return set(re.split(SPLIT, text)) | set(re.findall(r"\w+", text))


@functools.lru_cache(maxsize=None)
def definitions_of(path):
    """The parts of a file of definitions, each with the names that it defines."""
    lines, groups = lines_of(path), []
    for number, line in enumerate(lines):
        before = lines[number - 1] if number else ""
        if not groups or line and not line[0].isspace() and not before:
            groups.append([])
        if line.strip():
            groups[-1].append(number)
    parts = [Part(path, lines, [at for at in group if not re.match(r"(pub )?use ", lines[at])]) for group in groups]
    return [(part, {first or second for first, second in DEFINED.findall(part.text)}) for part in parts]


def head_end(lines, start):
    """The last line of a function's head, which has its contract."""
    indent = re.match(r"\s*", lines[start])[0]
    for number in range(start, len(lines)):
        if lines[number] in (indent + "{", indent + "{}"):
            return number - 1
        if number == start and lines[number].endswith((" {", " {}")):
            return number
    return len(lines) - 1


def block_end(lines, start):
    """The last line of an item that begins at the left edge."""
    if lines[start].endswith((";", "{}")):
        return start
    return next((at for at in range(start + 1, len(lines)) if lines[at].startswith(("}", ")"))), start)


@functools.lru_cache(maxsize=None)
def declaration(path, name):
    """The part that declares a name of Rust, with the model of a type; nothing if the file declares no such name."""
    lines, numbers = lines_of(path), set()
    for number, line in enumerate(lines):
        found = re.match(DECLARED % re.escape(name), line)
        if found:
            end = head_end(lines, number) if found[1] == "fn" else block_end(lines, number)
            while number and lines[number - 1].startswith(("///", "#[")):
                number -= 1
            numbers |= set(range(number, end + 1))
        elif re.match(MODEL % re.escape(name), line):
            numbers |= set(range(number, block_end(lines, number) + 1))
        elif re.match(BOXED % re.escape(name), line):
            numbers |= {at for at in range(number, block_end(lines, number)) if at == number or "ghost " in lines[at]}
    return Part(path, lines, numbers) if numbers else None


def paths_of(tree):
    """The paths of a `use` tree of Rust, each as the list of its parts."""
    head, brace, rest = re.sub(r"\s", "", tree).partition("{")
    start = [part for part in head.split("::") if part]
    if not brace:
        return [start]
    found, depth, part = [], 0, ""
    for letter in rest[:rest.rindex("}")] + ",":
        depth += (letter == "{") - (letter == "}")
        if letter == "," and not depth:
            found += [start + path for path in paths_of(part)] if part else []
            part = ""
        else:
            part += letter
    return found


def longest(path, folder, parts, suffix):
    """The file that the longest front of some parts names, and the parts behind it."""
    for count in range(len(parts), 0, -1):
        found = folder.joinpath(*parts[:count - 1], parts[count - 1] + suffix)
        if found.is_file():
            return found, parts[count:]
    raise WalkError("%s imports %s, and %s has no such file" % (path, ".".join(parts), folder))


class Walk:
    """All that an item rests on."""

    def __init__(self, top=public_calls.TOP):
        self.crates, self.parts, self.outside = top / "crates", {}, set()

    def from_item(self, path, name):
        """Walks on from a declaration of Rust."""
        todo = [self.declared(self.crates / path, name)]
        while todo:
            part = todo.pop()
            if (part.path, part.numbers) not in self.parts:
                self.parts[part.path, part.numbers] = part
                todo += self.targets(part)
        return self

    def declared(self, path, name):
        part = declaration(path, name)
        if part is None:
            raise WalkError("%s declares no %s" % (path, name))
        return part

    def targets(self, part):
        """The parts that the names of a part may stand for."""
        used, found = words_of(part.text), []
        for one in imports_of(part.path):
            names = one.used_in(part, used)
            if names:
                found += self.imported(part.path, one.module, names)
        if part.path.suffix == ".antt":
            return found + [other for other, names in definitions_of(part.path)
                            if any(is_used(name, used) for name in names)]
        types = {name for name in used if name[:1].isupper()}
        own = [declaration(part.path, name) for name in types]
        return found + [other for other in own if other] + self.rust(part, types)

    def imported(self, path, module, names):
        """The parts that names of a module stand for; none if it is outside."""
        crate, *parts = module.split(".")
        if not (self.crates / crate).is_dir():
            self.outside.add(module)
            return []
        if parts[0] == "specs" and parts[1] in DECLARATIONS:
            return [self.declared(*self.place(path, crate, [part for part in parts[2:] if part != VARIANTS]))]
        target = longest(path, self.crates / crate, parts, ".antt")[0]
        return [part for name in names for part in self.defined(target, name)]

    def defined(self, path, name):
        """The parts of a file that define a name, or that it hands on."""
        found = [part for part, names in definitions_of(path) if name in names]
        for one in imports_of(path) if not found else ():
            found += [part for here, there in one.names if here == name for part in self.imported(path, one.module, [there])]
        if not found and not self.is_known_outside(path, name):
            raise WalkError("%s defines no %s" % (path, name))
        return found

    def is_known_outside(self, path, name):
        """Whether a file hands on a name from outside."""
        return any(here == name for one in imports_of(path) for here, _ in one.names)

    def place(self, path, crate, parts):
        """The file and the name of an item that a crate declares."""
        if len(parts) == 1:
            return public_calls.root_of(crate, self.crates.parent), parts[0]
        found, rest = longest(path, self.crates / crate / "src", parts, ".rt")
        return found, rest[0]

    def rust(self, part, types):
        """The declarations that a source takes from others by `use`, of those that a part names."""
        found = []
        for tree in RUST_USE.findall("\n".join(lines_of(part.path))):
            found += [self.rust_item(part.path, parts, name) for *parts, name in paths_of(tree)
                      if name in types and parts and self.is_ours(parts[0])]
        return found

    def is_ours(self, crate):
        return crate == "crate" or (self.crates / crate).is_dir()

    def rust_item(self, path, parts, name):
        """The declaration that a path of Rust names."""
        crate = path.relative_to(self.crates).parts[0] if parts[0] == "crate" else parts[0]
        source = self.crates / crate / "src"
        root = public_calls.root_of(crate, self.crates.parent)
        target = source.joinpath(*parts[1:]).with_suffix(".rt") if parts[1:] else root
        if target.is_file():
            if declaration(target, name):
                return declaration(target, name)
            for tree in RUST_USE.findall("\n".join(lines_of(target))):
                for *inner, last in paths_of(tree):
                    if last == name and inner:
                        return self.rust_item(target, inner if self.is_ours(inner[0]) else ["crate", *inner], name)
        raise WalkError("%s uses %s, which isn't found" % (path, "::".join([*parts, name])))

    def lines(self):
        """How many lines of each file count, by its path below crates/."""
        numbers = {}
        for part in self.parts.values():
            numbers.setdefault(str(part.path.relative_to(self.crates)), set()).update(part.numbers)
        return {path: len(found) for path, found in sorted(numbers.items()) if found}
