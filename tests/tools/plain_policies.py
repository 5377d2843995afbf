"""Policies of version 3 in plain Python, by what docs/POLICY.md says of them: tokens, names, the statements `policy`, `class`, `leaf`
and `node`, their canonical text, and the class of a packet. Nothing of the program is used. plain_runs.py has what a run does.
"""
import collections
import re

import plain_fields as plain

Class = collections.namedtuple("Class", "name attributes alternatives")
Leaf = collections.namedtuple("Leaf", "name using attributes queueing classes")
Node = collections.namedtuple("Node", "name using attributes queueing children")
Queueing = collections.namedtuple("Queueing", "packets bytes per_flow by", defaults=[None] * 4)  # limits, and by what flows are told apart
Test = collections.namedtuple("Test", "negated subject values")  # ranges; version, address and bits; value and mask; or nothing

MOST = {"vlan": 4095, "dscp": 63, "proto": 255, "sport": 65535, "dport": 65535, "len": 2**32 - 1, "pcp": 7, "ethertype": 65535}
FLAGS = ("fin", "syn", "rst", "psh", "ack", "urg", "ece", "cwr")
ATTRIBUTES = {"prio": (0, 65535), "weight": (1, 65535), "slack": (0, 10**12)}
RESERVED = frozenset("""policy transaction keep each push pop node leaf class using children classes when and or not min max if prio weight slack len
    now rank src dst sport dport proto dscp vlan ipv4 ipv6 tcp udp icmp shape limit""".split())
LATER_RESERVED = frozenset("flow packets bytes per by tcpflags pcp ethertype any".split())  # in version 3 alone
LIMITS = {"packets": 4194304, "bytes": 2**32 - 1, "per_flow": 4194304}  # the greatest ones
UNITS = {"packets": "", "bytes": " bytes", "per_flow": " per flow"}
KEYS = "src", "dst", "src dst", "5tuple"
MOST_NUMBER, MOST_NAME, MOST_TEXT = 2**62 - 1, 64, 1048576
NOT_TEXT, MALFORMED, SHAPING, TOO_LONG = 22, 23, 24, 21

MARKS = r"\.\.|==|!=|<=|>=|[./+*(),=<>-]"
CLASSIC = re.compile(r"(?P<word>[A-Za-z_]\w*)|(?P<number>\d+)(?!\w)|(?P<mark>%s)|(?P<blank>[ \t]+)" % MARKS, re.ASCII)
THIRD = re.compile(r"(?P<number>\d+)(?![\w:-])|(?P<word>[\w:][\w:-]*)|(?P<mark>[{}]|%s)|(?P<blank>[ \t]+)" % MARKS, re.ASCII)
NAME = re.compile(r"[A-Za-z_](?:[\w-]*\w)?", re.ASCII)
GROUP = re.compile(r"[0-9A-Fa-f]{1,4}")


class Rejected(Exception):
    """A text that isn't a policy: its code and line."""

    def __init__(self, code=MALFORMED, line=0):
        super().__init__(code, line)
        self.code, self.line = code, line


# tokens and names -----------------------------------------------------------

def tokens(line, form=THIRD):
    """The tokens of a line: numbers as numbers, words and marks as pairs of a kind and a text."""
    found, at = [], 0
    while at < len(line):
        token = form.match(line, at)
        if token is None or token.lastgroup == "number" and int(token.group()) > MOST_NUMBER:
            raise Rejected
        at = token.end()
        if token.lastgroup != "blank":
            found.append(int(token.group()) if token.lastgroup == "number" else (token.lastgroup, token.group()))
    return found


def is_name(word):
    return bool(NAME.fullmatch(word)) and len(word) <= MOST_NAME and word not in RESERVED | LATER_RESERVED


def ipv6_number(word):
    """The address that a word without dots writes (RFC 4291, section 2.2), or None."""
    parts = word.split("::")
    groups = [part.split(":") if part else [] for part in parts]
    count = sum(map(len, groups))
    if len(parts) > 2 or (count > 7 if len(parts) == 2 else count != 8) or not all(GROUP.fullmatch(one) for part in groups for one in part):
        return None
    if len(parts) == 2:
        groups.insert(1, ["0"] * (8 - count))
    number = 0
    for one in sum(groups, []):
        number = number << 16 | int(one, 16)
    return number


class Reader:
    """The tokens of a line, from the left."""

    def __init__(self, given):
        self.given, self.at = given, 0

    def ahead(self, *wanted):
        """Passes a token if it is one of these words or marks, and returns its text."""
        token = self.given[self.at] if self.at < len(self.given) else None
        if isinstance(token, tuple) and token[1] in wanted:
            self.at += 1
            return token[1]
        return None

    def next(self):
        if self.at == len(self.given):
            raise Rejected
        self.at += 1
        return self.given[self.at - 1]

    def word(self):
        token = self.next()
        if not isinstance(token, tuple) or token[0] != "word":
            raise Rejected
        return token[1]

    def need(self, text):
        if self.ahead(text) is None:
            raise Rejected

    def number(self, least, most):
        token = self.next()
        if not isinstance(token, int) or not least <= token <= most:
            raise Rejected
        return token

    def name(self):
        word = self.word()
        if not is_name(word):
            raise Rejected
        return word

    def names(self):
        found = [self.name()]
        while self.at < len(self.given):
            found.append(self.name())
        return tuple(found)

    def attributes(self):
        found = {}
        while (word := self.ahead(*ATTRIBUTES)) is not None:
            if word in found:
                raise Rejected
            found[word] = self.number(*ATTRIBUTES[word])
        return tuple((word, found[word]) for word in ATTRIBUTES if word in found)

    def unit(self):
        """What a limit counts."""
        if self.ahead("per"):
            self.need("flow")
            return "per_flow"
        return self.ahead("packets", "bytes") or "packets"

    def keys(self):
        """By what flows are told apart."""
        first = self.word()
        return "src dst" if first == "src" and self.ahead("dst") else first

    def settings(self):
        """The attributes of a leaf or node, and its limits and flows, in any order."""
        found = {}
        while (word := self.ahead(*ATTRIBUTES, "limit", "flow")) is not None:
            if word == "limit":
                value = self.number(1, LIMITS["bytes"])
                word = self.unit()
                is_right = value <= LIMITS[word]
            elif word == "flow":
                self.need("by")
                word, value = "by", self.keys()
                is_right = value in KEYS
            else:
                value, is_right = self.number(*ATTRIBUTES[word]), True
            if word in found or not is_right:
                raise Rejected
            found[word] = value
        queueing = Queueing(**{word: value for word, value in found.items() if word not in ATTRIBUTES})
        return tuple((word, found[word]) for word in ATTRIBUTES if word in found), queueing


# conditions -----------------------------------------------------------------

def separated(reader, mark, part):
    """Parts with a word or mark between them."""
    found = [part(reader)]
    while reader.ahead(mark):
        found.append(part(reader))
    return tuple(found)


def a_range(reader, field):
    if field == "proto":
        named = reader.ahead(*plain.PROTOCOLS)
        if named:
            return (plain.PROTOCOLS[named],) * 2
    low = reader.number(0, MOST[field])
    return low, reader.number(low, MOST[field]) if reader.ahead("..") else low


def prefix(reader):
    token = reader.next()
    if isinstance(token, int):
        version, most, address = 4, 32, token
        octets = [token] + [reader.need(".") or reader.number(0, 255) for _ in range(3)]
        if token > 255:
            raise Rejected
        address = int.from_bytes(bytes(octets), "big")
    else:
        version, most, address = 6, 128, ipv6_number(token[1]) if token[0] == "word" else None
        if address is None:
            raise Rejected
    return version, address, reader.number(0, most) if reader.ahead("/") else most


def flag_set(reader):
    """The number of a set of flags, in a TCP header's order of bits."""
    word, found = reader.word(), 0
    if word == "none":
        return 0
    while True:
        bit = 1 << FLAGS.index(word) if word in FLAGS else 0
        if not bit or found & bit:
            raise Rejected
        found |= bit
        if not reader.ahead("+"):
            return found
        word = reader.word()


def a_test(reader):
    negated, subject = bool(reader.ahead("not")), reader.word()
    if subject in MOST:
        if reader.ahead("{"):
            values = separated(reader, ",", lambda reader: a_range(reader, subject))
            reader.need("}")
        else:
            values = (a_range(reader, subject),)
    elif subject in ("src", "dst"):
        values = prefix(reader)
    elif subject == "tcpflags":
        value = flag_set(reader)
        reader.need("/")
        values = value, flag_set(reader)
        if value & ~values[1]:
            raise Rejected
    elif subject in ("ipv4", "ipv6"):
        values = ()
    else:
        raise Rejected
    return Test(negated, subject, values)


def alternatives(reader):
    """The alternatives after `when`, or none without it."""
    return separated(reader, "or", lambda reader: separated(reader, "and", a_test)) if reader.ahead("when") else ()


# statements -----------------------------------------------------------------

def statement(given):
    """The statement of a line's tokens; `transaction` and its lines are not among them."""
    reader = Reader(given)
    keyword = reader.word()
    if keyword == "policy":
        found = reader.number(1, 3)
    elif keyword == "class":
        found = Class(reader.name(), reader.attributes(), alternatives(reader))
    elif keyword in ("leaf", "node"):
        name = reader.name()
        reader.need("using")
        using, (attributes, queueing) = reader.name(), reader.settings()
        reader.need("classes" if keyword == "leaf" else "children")
        found = (Leaf if keyword == "leaf" else Node)(name, using, attributes, queueing, reader.names())
    else:
        raise Rejected
    if reader.at < len(given):
        raise Rejected
    return found


def statements(text):
    """The statements of a text of version 3; raises what is wrong with its first malformed line."""
    if len(text) > MOST_TEXT:
        raise Rejected(TOO_LONG)
    found = []
    for number, line in enumerate(text.split("\n"), 1):
        line, comment, _ = line.partition("#")
        line = line[:-1] if not comment and line.endswith("\r") else line
        if any(letter != "\t" and not " " <= letter <= "~" for letter in line):
            raise Rejected(NOT_TEXT, number)
        if re.match(r"[ \t]*shape(?!\w)", line, re.ASCII):
            raise Rejected(SHAPING, number)
        try:
            given = tokens(line, THIRD if found else CLASSIC)
            found += [statement(given)] if given else []
        except Rejected:
            raise Rejected(MALFORMED, number) from None
        if found and found[0] != 3:
            raise ValueError("a text of another version")
    return found


# canonical text -------------------------------------------------------------

def ipv6_text(number):
    """The groups of an address without leading zeros, and `::` for the first of the longest runs of two or more 0 (RFC 5952)."""
    groups = [number >> 112 - 16 * at & 0xFFFF for at in range(8)]
    runs = [(at, next((end for end in range(at, 8) if groups[end]), 8)) for at in range(8)]
    begin, end = max(runs, key=lambda run: (run[1] - run[0], -run[0]))
    shown = lambda some: ":".join("%x" % group for group in some)
    return shown(groups) if end - begin < 2 else shown(groups[:begin]) + "::" + shown(groups[end:])


def flags_text(number):
    return "+".join(name for at, name in enumerate(FLAGS) if number >> at & 1) or "none"


def test_text(test):
    if test.subject in MOST:
        ranges = ["%d..%d" % pair if pair[0] < pair[1] else "%d" % pair[0] for pair in test.values]
        shown = " " + (ranges[0] if len(ranges) == 1 else "{%s}" % ", ".join(ranges))
    elif test.subject in ("src", "dst"):
        version, address, bits = test.values
        shown = " %s/%d" % (".".join(map(str, address.to_bytes(4, "big"))) if version == 4 else ipv6_text(address), bits)
    else:
        shown = " " + "/".join(map(flags_text, test.values)) if test.subject == "tcpflags" else ""
    return ("not " if test.negated else "") + test.subject + shown


def conditions_text(given):
    return " or ".join(" and ".join(map(test_text, tests)) for tests in given)


def queueing_parts(given):
    """The limits of packets, of bytes and for each flow, and then by what flows are told apart."""
    limits = ["limit %d%s" % (value, UNITS[word]) for word in UNITS if (value := getattr(given, word)) is not None]
    return limits + (["flow by " + given.by] if given.by else [])


def text_of(found):
    """A statement in canonical text."""
    if isinstance(found, int):
        return "policy %d" % found
    parts = ["%s %d" % pair for pair in found.attributes]
    if isinstance(found, Class):
        return " ".join(["class", found.name, *parts, *(["when " + conditions_text(found.alternatives)] if found.alternatives else [])])
    parts += queueing_parts(found.queueing)
    if isinstance(found, Leaf):
        return " ".join(["leaf", found.name, "using", found.using, *parts, "classes", *found.classes])
    return " ".join(["node", found.name, "using", found.using, *parts, "children", *found.children])


def check(text):
    """What `check --plain` prints of a text whose statements break no rule, and its status."""
    try:
        return "".join(text_of(found) + "\n" for found in statements(text)), 0
    except Rejected as fault:
        return "fault policy %d %d\n" % (fault.code, fault.line), 3


# classes --------------------------------------------------------------------

def number(test, found, more, length):
    """The value of the field that a test asks for, if the packet has it."""
    if test.subject == "len":
        return length
    return getattr(more if test.subject in ("pcp", "ethertype") else found, test.subject)


def holds(test, found, more, length):
    """Whether a packet meets a test, without its negation: it doesn't if it has no such field."""
    if test.subject in MOST:
        value = number(test, found, more, length)
        return value is not None and any(low <= value <= high for low, high in test.values)
    if test.subject in ("src", "dst"):
        version, address, bits = test.values
        rest = (32 if version == 4 else 128) - bits
        return found.version == version and int.from_bytes(getattr(found, test.subject), "big") >> rest == address >> rest
    if test.subject == "tcpflags":
        value, mask = test.values
        return more.flags is not None and more.flags & mask == value
    return found.version == int(test.subject[3])


def belongs(given, found, more, length):
    """Whether a packet meets all tests of one of the alternatives; without alternatives each does."""
    return not given or any(all(holds(test, found, more, length) != test.negated for test in tests) for tests in given)


def class_of(classes, link, data, length=None):
    """The name of the first class to which a packet belongs."""
    found, more = plain.fields(3, link, data), plain.more(link, data)
    length = len(data) if length is None else length
    return next(one.name for one in classes if belongs(one.alternatives, found, more, length))


def conditions(text):
    """The alternatives that a text after `when` writes, or none for no text."""
    reader = Reader(tokens(("when " if text else "") + text))
    found = alternatives(reader)
    if reader.at < len(reader.given):
        raise Rejected
    return found
