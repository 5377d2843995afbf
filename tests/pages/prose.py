"""What a page's prose has to meet: sentences, table cells, the field's words, and names that exist.

Prose is what isn't in a block of four spaces. In it, code between backticks counts as one word, and so does a link's text
in brackets with its destination left out.
"""
import functools
import re

import pages

LONGEST, LONG, LONG_ONES = 40, 30, 1  # words of a sentence; how many sentences of a page may have more than LONG
CELL = 25  # words of a table's cell
MOST_WORDS = 25000  # of all pages together, as `wc -w` counts

# What isn't written, and what is written instead. A name of the code in backticks is no such word.
WORDS = (
    (r"want of memory", "out of memory"),
    (r"moments?", "timestamp"),
    (r"words? (of|for|in) (a|the|its|this) (commands?|programs?|replayer|command line)", "arguments"),
    (r"command's words?", "arguments"),
    (r"in no form|not in form|out of form", "malformed, does not parse"),
    (r"tells?|told", "says, reports; is known to the contract"),
    (r"stands?|stood", "is at, is in, is"),
    (r"behind", "after, following"),
    (r"so many", "N, that many"),
    (r"first part of", "a prefix of"),
    (r"refus(es?|ed|ing|als?)", "rejects, error"),
    (r"lent|lends?", "may be opened"),
    (r"packets? (that )?(comes?|came|coming|left|leaves?|leaving)", "arrived, departed, remaining"),
    (r"(the|has) one fault", "the first error"),
    (r"(on|along) (the|its|their) way|way of (a|the|each) packet", "path"),
    (r"sort(s|ed|ing)? (the |its )?packets", "classify"),
    (r"link (of|in) (a|the) capture", "link type"),
    (r"source and target", "source and destination address"),
    (r"(?<!readers )(?<!people )(?<!those )(?<!engineers )who", "the child or flow; name the actor"),
    (r"held", "queued"),
    (r"places?", "index, position, line number"),
    (r"as (it|they) (was|were)", "unchanged"),
)
FORBIDDEN = tuple((re.compile(r"\b(?:%s)\b" % word, re.IGNORECASE), better) for word, better in WORDS)

# Names on pages that are no names of this repository: programs, fields and words that an example makes wrong.
ELSEWHERE = {"tc", "clap", "if_tsoffset", "if_tsresol", "ruleset", "X_defs", "X_core", "sched_", "policy_", "embed_", "c1",
             "c257"}

CODE = re.compile(r"(`+)(?!`)(.+?)(?<!`)\1(?!`)")
LINK = re.compile(r"!?\[([^\]]*)\]\([^)]*\)")
ITEM = re.compile(r"^\s*(?:[-*]|\d+\.) +")
NUMBERED = re.compile(r"(?<=[.?!])[)\"*]*\s+(?=\S)")
PATH = re.compile(r"(?<![\w/.:<$~-])(?:\.{0,2}/)?[\w.*-]+(?:/[\w.*-]+)*/?")
KINDS = ("rt", "antt", "py", "md", "txt", "jsonl", "edit", "svg", "png")
TOPS = ("crates", "docs", "tests", "tools", "examples", "bin", ".ci", "src", "specs", "proofs", "must-fail")
OWN_TEST = "test_prose.py"  # it names what doesn't exist
MADE = ("out", "dist")  # folders whose files are built
STAND_INS = re.compile(r"\b(NAME|ROOM|PATH|CRATE|VERSION)\b")
IDENTIFIER = re.compile(r"[A-Za-z_][\w-]*(?:::\w+)*")
DEFINED = re.compile(r"`(\w+)`(?: of `(\w+)`)? \(((?:\w+/)*(?:src|specs|proofs|tools|tests)/[\w/]+\.(?:rt|antt|py))")


def paragraphs(text):
    """The paragraphs, list items, headings and cells of a page, each with its line number and whether it is a cell."""
    lines, start = [], 0
    for number, line in enumerate(text.splitlines() + [""], 1):
        is_block = line.startswith(pages.INDENT) and not lines
        is_alone = is_block or not line.strip() or line.startswith(("|", "#", "<!--"))
        if lines and (is_alone or ITEM.match(line)):
            yield start, " ".join(lines), False
            lines = []
        if line.startswith("|") and not re.fullmatch(r"[|\s:-]+", line):
            yield from ((number, cell.strip(), True) for cell in line.strip().strip("|").split("|"))
        elif line.startswith("#"):
            yield number, line.lstrip("# "), False
        elif not is_alone:
            start = start if lines else number
            lines.append(ITEM.sub("", line).strip())


def plain(text):
    """A paragraph with `x` for each code, and the texts of links alone."""
    return LINK.sub(r"\1", CODE.sub("x", text)).replace("**", "")


def without_names(text):
    """A paragraph without code, paths, and names with an underscore or in capitals."""
    return re.sub(r"[\w.-]*[_/][\w./*-]*|\b[\w-]+\.(?:%s)\b|\b[A-Z]{3,}\b" % "|".join(KINDS), "x", plain(text))


def sentences(text):
    """The sentences of a paragraph."""
    return NUMBERED.split(plain(text))


def word_faults(text):
    """What is written that isn't, in a paragraph or a message: each with what is written instead."""
    return ["'%s': write %s" % (found.group(), better) for pattern, better in FORBIDDEN for found in pattern.finditer(text)]


def prose_faults(text):
    """What is wrong with the sentences, cells and words of a page; each with its line."""
    faults, long_ones = [], []
    for number, paragraph, is_cell in paragraphs(text):
        for sentence in sentences(paragraph):
            count = len(sentence.split())
            if count > LONG:
                long_ones.append((number, count))
            if count > LONGEST:
                faults.append("%d: a sentence of %d words" % (number, count))
        if is_cell and len(plain(paragraph).split()) > CELL:
            faults.append("%d: a cell of %d words" % (number, len(plain(paragraph).split())))
        faults += ["%d: %s" % (number, fault) for fault in word_faults(without_names(paragraph))]
    if len(long_ones) > LONG_ONES:
        faults += ["%d: a sentence of %d words, and not the only one above %d" % (*found, LONG) for found in long_ones]
    return faults


def length_faults(texts):
    """What is wrong with the length of all pages together."""
    count = sum(len(text.split()) for text in texts)
    return ["all pages together have %d words, more than %d" % (count, MOST_WORDS)] if count > MOST_WORDS else []


# names ----------------------------------------------------------------------

def sources(top=pages.TOP):
    """The files in which a name may be: code, definitions, tools and inputs; no page, no conformance case."""
    for folder in ("crates", "tools", "tests", "examples", ".ci"):
        for path in sorted((top / folder).rglob("*")):
            is_case = path.suffix in (".jsonl", ".md", ".edit", ".pcapng", ".pyc") or path.name == "capture"
            if path.is_file() and not is_case and path.name != OWN_TEST and "out" not in path.relative_to(top).parts:
                yield path
    yield top / "zovatsemo"


@functools.lru_cache
def known_words(top=pages.TOP):
    """The identifiers that are in the sources, and the names of files without their endings."""
    found = set()
    for path in sources(top):
        found.update(re.findall(r"[A-Za-z_][\w-]*", path.read_text(errors="ignore")))
        found.add(path.stem)
    for form in ("crates/*", "crates/*/must-fail/**/*", "tests/wrong_bodies/*/*", "tests/cases/*"):
        found.update(path.stem for path in top.glob(form))
    return found | {word for each in found for word in each.split("-")}


@functools.lru_cache
def file_names(top=pages.TOP):
    """The names of all files of the repository."""
    return {path.name for path in top.rglob("*") if path.is_file() and ".git" not in path.parts}


def exists(name, page, top=pages.TOP):
    """Whether a path of a page leads to a file: from the top, crates/, a crate or the page's folder."""
    form = STAND_INS.sub("*", name.strip("/").removeprefix("./"))
    if set(form.split("/")) & set(MADE):
        return True
    if "/" not in form:
        return form in file_names(top) or any(top.glob(form)) or any(page.parent.glob(form))
    return any(any(folder.glob(form)) for folder in (top, page.parent, top / "crates", top / "docs", top / "tests") if
               ".." not in form) or any(top.glob("crates/*/" + form)) or any(top.glob("tests/wrong_bodies/" + form))


def paths_in(text):
    """The paths of a paragraph: a file with an ending of the repository, or one below a folder of it."""
    for found in PATH.findall(LINK.sub(r"\1", text).replace("`", " ").replace("**", " ")):
        found = found.rstrip(".")
        first, is_deep = found.removeprefix("./").split("/")[0], "/" in found.strip("/")
        if found.split(".")[-1] in KINDS and "." in found[1:] or is_deep and first in TOPS:
            yield found


def name_faults(text, page, top=pages.TOP):
    """The names of files and functions on a page that the repository doesn't have; each with its line."""
    faults, shown = [], set(re.findall(r"[\w-]+", "\n".join(line for line in text.splitlines() if line.startswith(pages.INDENT))))
    for number, paragraph, _ in paragraphs(text):
        faults += ["%d: there is no file %s" % (number, name) for name in paths_in(paragraph) if not exists(name, page, top)]
        for _, code in CODE.findall(paragraph):
            names = code.split("::") if IDENTIFIER.fullmatch(code) else []
            faults += ["%d: no source has the name %s" % (number, name) for name in names
                       if name not in known_words(top) | ELSEWHERE | shown]
        for name, owner, path in DEFINED.findall(paragraph):
            files = [file for form in ("", "crates/", "crates/*/") for file in top.glob(form + path)]
            words = [set(re.findall(r"\w+", file.read_text())) for file in files]
            if files and not any({name, owner or name} <= found for found in words):
                faults.append("%d: %s isn't in %s" % (number, " of ".join(filter(None, (name, owner))), path))
    return faults


# messages -------------------------------------------------------------------

def messages(source):
    """The texts between quotation marks of a source, each with its line; comments and attributes have none."""
    clean = "\n".join("" if line.strip().startswith(("//", "#[")) else line for line in source.splitlines())
    for found in re.finditer(r'"((?:[^"\\]|\\.)*)"', clean, re.DOTALL):
        yield clean.count("\n", 0, found.start()) + 1, re.sub(r"\\\n\s*", "", found[1]).replace("\\n", "\n")
