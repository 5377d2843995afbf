"""The size of a target's queues in a run, reckoned with plain lists from the text of `plan` and the report, by what
docs/commands/size.md says: nothing of the program is used but what it writes. Prints the text of `size`, or its JSON.

Usage: plain_size.py [--json] [--stores] PLAN REPORT

The queues take each arrival along the path to its leaf's image, and what they let leave has to be what the report says.
"""
import json
import pathlib
import sys

import plain_fabric


class Entry:
    """A queued packet at a node: its rank there, the child or packet, and whether it spilled."""

    def __init__(self, rank, value, flow):
        self.rank, self.value, self.flow, self.spilled = rank, value, flow, False


class Node:
    """A node's queue, as a list in the order of the pushes, and the greatest figures so far."""

    def __init__(self):
        self.queue, self.pushes, self.entries, self.rank, self.difference = [], 0, 0, 0, 0
        self.heads = self.stored = self.spilled = self.spills = 0

    def push(self, rank, value, flow):
        entry = Entry(rank, value, flow)
        entry.spilled = any(other.rank > rank for other in self.queue if other.flow == flow and not other.spilled)
        self.queue.append(entry)
        self.pushes += 1
        self.spills += entry.spilled
        self.rank = max(self.rank, rank)
        self.see()

    def pop(self):
        """Takes the entry of least rank, and of those the first pushed."""
        least = min(entry.rank for entry in self.queue)
        entry = next(entry for entry in self.queue if entry.rank == least)
        self.queue.remove(entry)
        self.see()
        return entry.value

    def see(self):
        """Compares the figures to what is queued now."""
        ranks = [entry.rank for entry in self.queue]
        stores = {}
        for entry in self.queue:
            if not entry.spilled:
                stores.setdefault(entry.flow, []).append(entry)
        self.entries = max(self.entries, len(ranks))
        self.difference = max(self.difference, max(ranks) - min(ranks) if ranks else 0)
        self.heads = max(self.heads, len(stores))
        self.stored = max([self.stored, *map(len, stores.values())])
        self.spilled = max(self.spilled, sum(entry.spilled for entry in self.queue))


def in_order(images):
    """The target's nodes in the order of the policy's nodes, a parent before its children, and transit nodes before the node
    that they lead to."""
    found = []
    for source in sorted(images):
        image = images[source]
        found += [image[:depth] for depth in range(len(image) + 1) if image[:depth] not in found]
    return found


class Sizes:
    """The size of each node, of all nodes, and the first push that passes a limit: its event, packet, node and limit."""

    def __init__(self, plan, report, entries=None, bits=None):
        self.fabric = plain_fabric.Fabric(plan)
        names = {self.fabric.images[source]: name for name, source in self.fabric.sources.items()}
        self.nodes = [(at, names.get(at), Node()) for at in in_order(self.fabric.images)]
        self.by_address = {at: node for at, _, node in self.nodes}
        self.limits, self.entries, self.passed = (entries, bits), 0, None
        for line in report.splitlines():
            words = line.split(" ")
            if words[0] == "a":
                self.arrive(int(words[1]), int(words[2]), words[3], [int(rank) for rank in words[4].split("/")])
            elif words[0] == "d" and self.depart() != int(words[2]):
                raise plain_fabric.Differs("another packet leaves at: " + line)

    def arrive(self, event, packet, leaf, ranks):
        for at, rank, digit in self.fabric.steps(leaf, ranks):
            node = self.by_address[at]
            node.push(rank, packet if digit is None else digit, digit)
            self.passed = self.passed or self.passes(node, event, packet, at, rank)
        self.entries = max(self.entries, sum(len(node.queue) for _, _, node in self.nodes))

    def passes(self, node, event, packet, at, rank):
        entries, bits = self.limits
        if entries is not None and len(node.queue) > entries:
            return event, packet, at, "entries"
        if bits is not None and rank.bit_length() > bits:
            return event, packet, at, "rank_bits"
        return None

    def depart(self):
        """The packet that leaves."""
        at = ()
        while at not in self.fabric.ends:
            at += (self.by_address[at].pop(),)
        return self.by_address[at].pop()

    def used(self):
        """The nodes that a packet passed."""
        return [(at, name, node) for at, name, node in self.nodes if node.pushes]

    def memory(self, widths):
        """The bits of all nodes, for ranks and the rest of an entry of these widths."""
        return None if widths is None else sum(node.entries * sum(widths) for _, _, node in self.nodes)


def shown(at):
    """An address as text."""
    return "/" + "/".join(str(digit) for digit in at)


def lines_of(sizes, stores, widths):
    for at, name, node in sizes.used():
        yield "node %s %s: at most %d entries of %d pushed; greatest rank %d, %d bits; greatest difference %d, %d bits" % (
            shown(at), name or "transit", node.entries, node.pushes, node.rank, node.rank.bit_length(), node.difference,
            node.difference.bit_length())
        if stores:
            yield "  stores: at most %d heads, %d entries in a store, %d spilled; %d spills" % (
                node.heads, node.stored, node.spilled, node.spills)
    yield "all nodes: at most %d entries" % sizes.entries
    if widths is not None:
        yield "memory: %d bits, for %d bits of rank and %d of entry" % (sizes.memory(widths), *widths)
    if sizes.passed:
        event, packet, at, limit = sizes.passed
        yield "limit passed: event %d, packet %d, node %s, by its %s" % (
            event, packet, shown(at), {"entries": "entries", "rank_bits": "rank bits"}[limit])


def text_of(sizes, stores=False, widths=None):
    """The text of `size`."""
    return "".join(line + "\n" for line in lines_of(sizes, stores, widths))


def object_of(at, name, node, stores):
    found = {"address": list(at), "serves": name, "pushes": node.pushes, "entries": node.entries, "rank": node.rank,
             "rank_bits": node.rank.bit_length(), "difference": node.difference, "difference_bits": node.difference.bit_length()}
    use = {"heads": node.heads, "entries": node.stored, "spilled": node.spilled, "spills": node.spills}
    return {**found, "stores": use if stores else None}


def json_of(sizes, stores=False, widths=None):
    """The JSON object of `size`, with a newline."""
    passed = sizes.passed and dict(zip(("event", "packet", "address", "limit"), sizes.passed))
    found = {"nodes": [object_of(*one, stores) for one in sizes.used()], "entries": sizes.entries,
             "memory": sizes.memory(widths), "passed": passed}
    return json.dumps(found, separators=(",", ":")) + "\n"


def main(words):
    show = json_of if "--json" in words else text_of
    plan, report = (pathlib.Path(word).read_text() for word in words if not word.startswith("--"))
    sys.stdout.write(show(Sizes(plan, report), "--stores" in words))


if __name__ == "__main__":
    main(sys.argv[1:])
