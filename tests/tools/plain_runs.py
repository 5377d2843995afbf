"""Runs of policies of version 3 in plain Python, with lists for queues, by what docs/POLICY.md, docs/FORMATS.md and docs/commands say
of transactions, limits, flows, links and reports. Nothing of the program is used. A policy has no error here.
"""
import collections
import functools
import operator

import plain_fields
import plain_policies as plain

Packet = collections.namedtuple("Packet", "number link data length timestamp")
Transaction = collections.namedtuple("Transaction", "keep each push pop")
Node = collections.namedtuple("Node", "name marks transaction queueing above")

GREATEST = 2**62 - 1
MARKS = {"prio": 0, "weight": 1, "slack": 0}
COMPARISONS = {"<": operator.lt, "<=": operator.le, "==": operator.eq, "!=": operator.ne, ">=": operator.ge, ">": operator.gt}
BUILT_IN = """transaction fifo
transaction strict
push rank = prio
transaction shortest
push rank = len
transaction lstf
push rank = now + slack
transaction rr
keep cur 0..4611686018427387903 = 0
each next 0..4611686018427387903 = 0
push rank = max(cur, next)
push next = rank + 1
pop cur = rank
transaction stfq
keep vt 0..4611686018427387903 = 0
each last 0..4611686018427387903 = 0
push rank = max(vt, last)
push last = rank + len * 1000 / weight
pop vt = rank"""


# transactions ---------------------------------------------------------------

def divided(one, other):
    """Without the fraction."""
    return abs(one) // abs(other) * (1 if (one < 0) == (other < 0) else -1)


def grouped(reader, part, operators):
    """Operators of one strength, from the left."""
    value = part(reader)
    while (mark := reader.ahead(*operators)) is not None:
        value = (lambda one, other, use: lambda known: use(one(known), other(known)))(value, part(reader), operators[mark])
    return value


def summed(reader):
    product = lambda reader: grouped(reader, factor, {"*": operator.mul, "/": divided})
    return grouped(reader, product, {"+": operator.add, "-": operator.sub})


def expression(reader):
    """A function that gives the value for known names."""
    one = summed(reader)
    mark = reader.ahead(*COMPARISONS)
    if mark is None:
        return one
    other = summed(reader)
    return lambda known: COMPARISONS[mark](one(known), other(known))


def factor(reader):
    token = reader.next()
    if isinstance(token, int):
        return lambda known: token
    if token[1] == "(":
        value = expression(reader)
        reader.need(")")
        return value
    if not reader.ahead("("):
        return lambda known: known[token[1]]
    given = plain.separated(reader, ",", expression)
    reader.need(")")
    calls = {"min": min, "max": max, "and": lambda one, other: one and other, "or": lambda one, other: one or other, "not": operator.not_,
             "if": lambda asked, one, other: one if asked else other}
    return lambda known: calls[token[1]](*(value(known) for value in given))


def transactions(lines):
    """The transactions of lines, by their names."""
    found = {}
    for line in lines:
        reader = plain.Reader(plain.tokens(line))
        keyword, name = reader.word(), reader.word()
        if keyword == "transaction":
            last = found[name] = Transaction({}, {}, [], [])
        elif keyword in ("keep", "each"):
            low, _, high, _, first = (reader.next() for _ in range(5))
            getattr(last, keyword)[name] = low, high, first
        else:
            reader.need("=")
            getattr(last, keyword).append((name, expression(reader)))
    return found


# policies -------------------------------------------------------------------

class Policy:
    """Classes with their marks and leaves, and nodes and leaves by name."""

    def __init__(self, text):
        lines = [line.split("#")[0] for line in text.splitlines()]
        is_step = lambda line: line.split()[:1] and line.split()[0] in ("transaction", "keep", "each", "push", "pop")
        known = transactions(BUILT_IN.splitlines() + [line for line in lines if is_step(line)])
        found = plain.statements("\n".join(line for line in lines if not is_step(line)))
        self.classes = [one for one in found if isinstance(one, plain.Class)]
        self.leaf_of = {name: one.name for one in found if isinstance(one, plain.Leaf) for name in one.classes}
        above = {name: one.name for one in found if isinstance(one, plain.Node) for name in one.children}
        self.nodes = {one.name: Node(one.name, {**MARKS, **dict(one.attributes)}, known[one.using], one.queueing, above.get(one.name))
                      for one in found if isinstance(one, (plain.Leaf, plain.Node))}

    def path(self, leaf):
        """The nodes from the root to a leaf."""
        node = self.nodes[leaf]
        return [node] if node.above is None else [*self.path(node.above), node]


@functools.lru_cache(maxsize=4096)
def flow_of(packet):
    """The packet's own flow, by the names of its parts."""
    found = plain_fields.fields(3, packet.link, packet.data)
    return {"version": found.version, "src": found.src, "dst": found.dst, "proto": found.proto, "sport": found.sport, "dport": found.dport}


def group(by, packet):
    """What the packets of one flow have in common, as a leaf or node tells flows apart."""
    flow = flow_of(packet)
    return tuple(flow.values() if by in (None, "5tuple") else (flow["version"], *(flow[part] for part in by.split())))


# runs -----------------------------------------------------------------------

class Run:
    """The queues of a policy: lists of ranks and values in the order of pushes."""

    def __init__(self, policy):
        self.policy, self.now, self.events, self.lines, self.classes = policy, 0, 0, [], {}
        self.queues = {name: [] for name in policy.nodes}
        self.keep = {name: {each: first for each, (_, _, first) in node.transaction.keep.items()} for name, node in policy.nodes.items()}
        self.each, self.queued, self.dropped, self.counts = {}, {}, [], collections.Counter()

    def told(self, kind, *words):
        self.events += 1
        self.lines.append(" ".join(map(str, (kind, self.events, *words))))

    def class_of(self, packet):
        if packet.number not in self.classes:
            name = plain.class_of(self.policy.classes, packet.link, packet.data, packet.length)
            self.classes[packet.number] = next(one for one in self.policy.classes if one.name == name)
        return self.classes[packet.number]

    def leaf(self, packet):
        return self.policy.leaf_of[self.class_of(packet).name]

    def is_full(self, packet):
        """Whether with the packet a limit of a node on its path would be passed."""
        for node in self.policy.path(self.leaf(packet)):
            below = [one for one in self.queued.values() if node in self.policy.path(self.leaf(one))]
            same = [one for one in below if group(node.queueing.by, one) == group(node.queueing.by, packet)]
            sums = {"packets": len(below) + 1, "bytes": sum(one.length for one in below) + packet.length, "per_flow": len(same) + 1}
            if any(getattr(node.queueing, word) is not None and sums[word] > getattr(node.queueing, word) for word in sums):
                return True
        return False

    def step(self, kind, node, below, packet, rank):
        """The rank at the end of a push or a pop at a node, for the child below it or for the packet's flow."""
        which = (node.name, below.name if below else group(node.queueing.by, packet))
        marks = below.marks if below else {**MARKS, **dict(self.class_of(packet).attributes)}
        eaches = self.each.setdefault(which, {name: first for name, (_, _, first) in node.transaction.each.items()})
        known = {**marks, "len": packet.length, "now": self.now, "rank": rank, **self.keep[node.name], **eaches}
        ranges = {"rank": (0, GREATEST, 0), **node.transaction.keep, **node.transaction.each}
        for name, value in getattr(node.transaction, kind):
            low, high, _ = ranges[name]
            known[name] = min(high, max(low, value(known)))
            for some in (self.keep[node.name], eaches):
                if name in some:
                    some[name] = known[name]
        return known["rank"]

    def arrive(self, packet):
        self.now = max(self.now, packet.timestamp)
        leaf = self.leaf(packet)
        if self.is_full(packet):
            self.counts["dropped"] += 1
            self.dropped.append(packet.number)
            return self.told("x", packet.number, leaf)
        path, ranks = self.policy.path(leaf), []
        for node, below in zip(path, [*path[1:], None]):
            ranks.append(self.step("push", node, below, packet, 0))
            self.queues[node.name].append((ranks[-1], below.name if below else packet))
        self.queued[packet.number] = packet
        self.counts["pushed"] += 1
        return self.told("a", packet.number, leaf, "/".join(map(str, ranks)))

    def depart(self, *start):
        """The packet that departs, if there is one."""
        if not self.queued:
            self.counts["empty"] += 1
            return self.told("e")
        at, ranks = "root", []
        while not isinstance(at, Packet):
            queue = self.queues[at]
            rank, at = queue.pop(min(range(len(queue)), key=lambda each: queue[each][0]))
            ranks.append(rank)
        path = self.policy.path(self.leaf(at))
        for node, below, rank in zip(path, [*path[1:], None], ranks):
            self.step("pop", node, below, at, rank)
        del self.queued[at.number]
        self.counts["popped"] += 1
        self.told("d", at.number, path[-1].name, "/".join(map(str, ranks)), *start)
        return at

    def report(self, unsent):
        counts = self.counts
        return self.lines + ["end pushed %d popped %d empty %d held %d unsent %d dropped %d" % (
            counts["pushed"], counts["popped"], counts["empty"], len(self.queued), unsent, counts["dropped"])]


def packets_of(link, given):
    """Packets from triples of captured bytes, a length and a timestamp, or with a link type first if `link` is None."""
    given = given if link is None else [(link, *one) for one in given]
    return [Packet(number, *one) for number, one in enumerate(given, 1)]


def scripted(policy, packets, script):
    """A run by a script whose every line can be done."""
    run, rest = Run(policy), list(packets)
    for line in script.splitlines():
        word, *count = line.split()
        if word in ("a", "rest"):
            for _ in range(len(rest) if word == "rest" else int(count[0]) if count else 1):
                run.arrive(rest.pop(0))
        else:
            for _ in range(len(run.queued) if word == "drain" else int(count[0]) if count else 1):
                run.depart()
    return run, run.report(len(rest))


def linked(policy, packets, rate, overhead=0):
    """A run on a link of this rate in bytes a second."""
    run, free, rest = Run(policy), 0, list(packets)
    while rest or run.queued:
        timestamp = max(run.now, rest[0].timestamp) if rest else None
        start = max(free, run.now)
        if run.queued and (timestamp is None or start < timestamp):
            gone = run.depart(start)
            free = start - -(gone.length + overhead) * 10**9 // rate
        else:
            run.arrive(rest.pop(0))
    return run, run.report(0)
