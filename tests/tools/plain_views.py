"""The JSON lines and the sums of a run, made of its report, its capture and the class of each packet by what docs/FORMATS.md says
of them: nothing of the program is used.
"""
import collections
import json
import struct


def packets_of(capture):
    """The original length and the timestamp in nanoseconds of each packet of a classic capture in little-endian, which may be cut."""
    factor = {0xA1B2C3D4: 1000, 0xA1B23C4D: 1}[struct.unpack_from("<I", capture)[0]]
    packets, at = [], 24
    while at + 16 <= len(capture):
        seconds, fraction, captured, length = struct.unpack_from("<IIII", capture, at)
        packets.append((length, seconds * 10**9 + fraction * factor))
        at += 16 + captured
    return packets


def times_of(start, length, rate, overhead):
    """When a packet of this length is on the link, in nanoseconds, rounded up."""
    return {"start": start, "finish": start - -(length + overhead) * 10**9 // rate}


def event_of(words, packets, classes, rate, overhead):
    """The object of a line of a report, from its words."""
    kinds = {"a": "arrive", "d": "depart", "x": "drop", "e": "empty"}
    found = {"kind": kinds[words[0]], "event": int(words[1])}
    if words[0] == "e":
        return found
    number = int(words[2])
    length, timestamp = packets[number - 1]
    found.update({"packet": number, "leaf": words[3], "class": classes[number - 1], "bytes": length})
    if words[0] in "ax":
        found["timestamp"] = timestamp
    if words[0] in "ad":
        found["ranks"] = [int(rank) for rank in words[4].split("/")]
    if words[0] == "d" and rate:
        found.update(times_of(int(words[5]), length, rate, overhead))
    return found


def last_of(words, kinds):
    """The last object, from the words of the last line and the kinds of the lines before it."""
    if words[0] == "fault":
        return {"kind": "fault", "input": words[1], "code": int(words[2]), "place": int(words[3])}
    arrived, departed, dropped, empty = (kinds.count(kind) for kind in "adxe")
    return {"kind": "end", "arrived": arrived, "departed": departed, "dropped": dropped, "empty": empty,
            "queued": arrived - departed, "unread": int(words[words.index("unsent") + 1])}


def lines(report, packets, classes, rate=None, overhead=0):
    """The JSON lines of a run that ended with an `end` line or an error in its script or capture. `packets` are lengths and
    timestamps in nanoseconds, `classes` the number of each packet's class from 1, and the rate is in bytes a second."""
    shown = [line.split() for line in report.splitlines()]
    found = [event_of(words, packets, classes, rate, overhead) for words in shown[:-1]]
    found.append(last_of(shown[-1], [words[0] for words in shown[:-1]]))
    return "".join(json.dumps(one, separators=(",", ":")) + "\n" for one in found)


# sums -----------------------------------------------------------------------

Group = collections.namedtuple("Group", "arrived departed dropped queued bytes throughput delays mean jitter most_queued most_queued_bytes")


def names_of(policy, statement):
    """The names that a policy's classes or leaves have, each with its weight."""
    found = {}
    for line in policy.splitlines():
        words = line.split("#")[0].split()
        if words[:1] == [statement]:
            found[words[1]] = int(words[words.index("weight") + 1]) if "weight" in words else 1
    return found


def in_tree(policy, name="root"):
    """The names of the leaves below a node, in the order of the policy's tree."""
    statements = {words[1]: words for words in (line.split("#")[0].split() for line in policy.splitlines()) if words[:1] in (["leaf"], ["node"])}
    words = statements[name]
    return [name] if words[0] == "leaf" else [leaf for child in words[words.index("children") + 1:] for leaf in in_tree(policy, child)]


def backlogs(events):
    """The packets and bytes that are queued after each event."""
    packets = size = 0
    for event in events:
        sign = {"arrive": 1, "depart": -1, "drop": 0}[event["kind"]]
        packets, size = packets + sign, size + sign * event["bytes"]
        yield packets, size


def delays_of(events, packets):
    """The delays of departures on a link, in their order."""
    return [max(0, event["start"] - packets[event["packet"] - 1][1]) for event in events if "start" in event]


def throughput(events, size):
    """Bytes a second from the first timestamp to the last finish, if there are any."""
    finishes = [event["finish"] for event in events if "finish" in event]
    span = max(finishes) - next(event["timestamp"] for event in events if event["kind"] == "arrive") if finishes else 0
    return size * 10**9 // span if span > 0 else None


def group_of(events, packets):
    """The sums of a group of packets, from their objects."""
    arrived, departed, dropped = (sum(event["kind"] == kind for event in events) for kind in ("arrive", "depart", "drop"))
    size = sum(event["bytes"] for event in events if event["kind"] == "depart")
    delays = delays_of(events, packets)
    changes = [abs(one - other) for one, other in zip(delays, delays[1:])]
    backlog = [(0, 0), *backlogs(events)]
    return Group(arrived, departed, dropped, arrived - departed, size, throughput(events, size), sorted(delays),
                 sum(delays) // len(delays) if delays else None, sum(changes) // len(changes) if changes else None,
                 max(count for count, _ in backlog), max(count for _, count in backlog))


def percentile(delays, percent):
    """By nearest rank: the least delay that this part of all delays doesn't exceed."""
    return delays[-(-percent * len(delays) // 100) - 1]


def five(delays):
    """The delays that are shown, with their keys in JSON and their words in text."""
    return [("least", "least", delays[0]), ("median", "median", percentile(delays, 50)), ("p95", "95 %", percentile(delays, 95)),
            ("p99", "99 %", percentile(delays, 99)), ("greatest", "greatest", delays[-1])]


def jain(leaves, weights):
    """Jain's index in millionths over the leaves with packets, by departed bytes in thousandths of a byte for each weight."""
    shares = [leaf.bytes * 1000 // max(1, weight) for leaf, weight in zip(leaves, weights) if leaf.arrived or leaf.dropped]
    under = len(shares) * sum(share * share for share in shares)
    return sum(shares) ** 2 * 10**6 // under if under else None


class Sums:
    """The sums of a run: of all packets, of each leaf and of each class, and the fairness."""

    def __init__(self, json_lines, packets, policy):
        events = [event for event in map(json.loads, json_lines.splitlines()) if "packet" in event]
        weights, classes = names_of(policy, "leaf"), list(names_of(policy, "class"))
        leaves = {name: weights[name] for name in in_tree(policy)}
        of = lambda key, value: group_of([event for event in events if event[key] == value], packets)
        self.all = group_of(events, packets)
        self.leaves = [(name, of("leaf", name)) for name in leaves]
        self.classes = [(name, of("class", number)) for number, name in enumerate(classes, 1)]
        self.index = jain([leaf for _, leaf in self.leaves], leaves.values())


def lines_of(name, group):
    """The lines of a group."""
    rate = "" if group.throughput is None else "; %d bytes a second" % group.throughput
    yield "%s: %d packets departed, %d dropped, %d queued; %d bytes%s" % (name, group.departed, group.dropped, group.queued, group.bytes, rate)
    if group.delays:
        jitter = "" if group.jitter is None else "; jitter %d" % group.jitter
        shown = ", ".join("%s %d" % (words, delay) for _, words, delay in five(group.delays))
        yield "  delay in ns: %s, mean %d%s" % (shown, group.mean, jitter)
    yield "  backlog: at most %d packets, at most %d bytes" % (group.most_queued, group.most_queued_bytes)


def text_of(sums):
    """The text of sums."""
    found = [*lines_of("all", sums.all)]
    for kind, groups in (("leaf", sums.leaves), ("class", sums.classes)):
        for name, group in groups:
            found += lines_of("%s %s" % (kind, name), group)
    index = "no bytes departed" if sums.index is None else "%d.%06d" % divmod(sums.index, 10**6)
    return "\n".join([*found, "fairness of the leaves by weight (Jain): " + index, ""])


def object_of(group):
    """The object of a group."""
    delay = {**{key: value for key, _, value in five(group.delays)}, "mean": group.mean} if group.delays else None
    return {"arrived": group.arrived, "departed": group.departed, "dropped": group.dropped, "queued": group.queued, "bytes": group.bytes,
            "throughput": group.throughput, "delay": delay, "jitter": group.jitter, "most_queued": group.most_queued,
            "most_queued_bytes": group.most_queued_bytes}


def json_of(sums):
    """The JSON object of sums, with a newline."""
    named = lambda groups: [{"name": name, **object_of(group)} for name, group in groups]
    found = json.dumps({"all": object_of(sums.all), "leaves": named(sums.leaves), "classes": named(sums.classes)}, separators=(",", ":"))
    index = "null" if sums.index is None else "%d.%06d" % divmod(sums.index, 10**6)
    return '%s,"jain":%s}\n' % (found[:-1], index)
