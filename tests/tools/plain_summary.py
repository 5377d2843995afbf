"""Sums of a run reckoned with plain lists, from its report, its capture and its policy, by what specs/ of summary_core says of
them: nothing of the program is used. Prints the text that the program prints of them, or its JSON.

Usage: plain_summary.py [--json] REPORT CAPTURE POLICY RATE [OVERHEAD]

REPORT has the lines of a report or the JSON lines of one. A report's lines don't give the class of a packet, so they serve only
where each leaf has one class. CAPTURE is in libpcap's classic format, little-endian. RATE is in bytes a second, and OVERHEAD in
bytes a packet. Leaves and classes are in the order of the policy's text.
"""
import json
import pathlib
import struct
import sys


def packets_of(capture):
    """The original length and the timestamp in nanoseconds of each packet."""
    factor = {0xA1B2C3D4: 1000, 0xA1B23C4D: 1}[struct.unpack_from("<I", capture)[0]]
    packets, at = [], 24
    while at < len(capture):
        seconds, fraction, captured, original = struct.unpack_from("<IIII", capture, at)
        packets.append((original, seconds * 10**9 + fraction * factor))
        at += 16 + captured
    return packets


def policy_of(policy):
    """The leaves of a policy, each with its weight and the names of its classes, and the names of the classes, in order."""
    leaves, classes = {}, []
    for line in policy.splitlines():
        words = line.split("#")[0].split()
        if words[:1] == ["class"]:
            classes.append(words[1])
        if words[:1] == ["leaf"]:
            weight = int(words[words.index("weight") + 1]) if "weight" in words else 1
            leaves[words[1]] = (weight, words[words.index("classes") + 1:])
    return leaves, classes


def only_class(leaf, leaves):
    """The class of a leaf that has one."""
    if len(leaves[leaf][1]) != 1:
        raise SystemExit("leaf %s has several classes: use the JSON lines of the run" % leaf)
    return leaves[leaf][1][0]


def events_of(report, leaves, classes):
    """The arrivals, departures and drops of a report: the kind, the packet's number from 1, the leaf, the class and the start."""
    kinds = {"arrive": "a", "drop": "x", "depart": "d"}
    for line in report.splitlines():
        if line.startswith("{"):
            said = json.loads(line)
            if said["kind"] in kinds:
                yield kinds[said["kind"]], said["packet"], said["leaf"], classes[said["class"] - 1], said.get("start")
        else:
            words = line.split()
            if words[0] in kinds.values():
                start = int(words[5]) if words[0] == "d" and len(words) > 5 else None
                yield words[0], int(words[2]), words[3], only_class(words[3], leaves), start


def percentile(delays, percent):
    """By nearest rank: the least delay that has so many percent of all at or below it."""
    return next(d for d in sorted(delays) if 100 * sum(1 for e in delays if e <= d) >= percent * len(delays))


def backlogs(events, packets):
    """The number and the bytes of the queued packets after each event, from none."""
    queued = []
    yield 0, 0
    for kind, number, *_ in events:
        if kind == "a":
            queued.append(number)
        elif kind == "d":
            queued.remove(number)
        yield len(queued), sum(packets[n - 1][0] for n in queued)


def sums(events, packets, rate, overhead):
    """The sums of one group, from its events in order."""
    arrived = [number for kind, number, *_ in events if kind == "a"]
    gone = [(packets[number - 1], start) for kind, number, _, _, start in events if kind == "d"]
    timed = [(length, timestamp, start) for (length, timestamp), start in gone if start is not None]
    delays = [max(0, start - timestamp) for _, timestamp, start in timed]
    finish = max((start - -(length + overhead) * 10**9 // rate for length, _, start in timed), default=0)
    span = finish - packets[arrived[0] - 1][1] if delays else 0
    size = sum(length for (length, _), _ in gone)
    changes = [abs(a - b) for a, b in zip(delays, delays[1:])]
    backlog = list(backlogs(events, packets))
    ranks = (("least", 0), ("median", 50), ("p95", 95), ("p99", 99), ("greatest", 100))
    return {
        "arrived": len(arrived),
        "departed": len(gone),
        "dropped": sum(1 for kind, *_ in events if kind == "x"),
        "queued": backlog[-1][0],
        "bytes": size,
        "throughput": size * 10**9 // span if span > 0 else None,
        "delay": {**{word: percentile(delays, n) for word, n in ranks}, "mean": sum(delays) // len(delays)} if delays else None,
        "jitter": sum(changes) // len(changes) if changes else None,
        "most_queued": max(n for n, _ in backlog),
        "most_queued_bytes": max(n for _, n in backlog),
    }


def jain(leaves, weights):
    """Jain's index of the leaves to which packets came, in millionths, or why there is none."""
    shares = [leaf["bytes"] * 1000 // max(1, weights[leaf["name"]]) for leaf in leaves if leaf["arrived"] or leaf["dropped"]]
    if sum(shares) >= 2**54 or len(shares) >= 2**20:
        return "too large"
    under = len(shares) * sum(share * share for share in shares)
    return sum(shares) ** 2 * 10**6 // under if under else "no bytes departed"


def summary(report, capture, policy, rate, overhead=0):
    """The sums of all packets, of each leaf and of each class, and Jain's index."""
    leaves, classes = policy_of(policy)
    events, packets = list(events_of(report, leaves, classes)), packets_of(capture)

    def group(place, name):
        return {"name": name, **sums([e for e in events if e[place] == name], packets, rate, overhead)}

    found = {
        "all": sums(events, packets, rate, overhead),
        "leaves": [group(2, name) for name in leaves],
        "classes": [group(3, name) for name in classes],
    }
    return {**found, "jain": jain(found["leaves"], {name: weight for name, (weight, _) in leaves.items()})}


def millionths(number):
    return "%d.%06d" % divmod(number, 10**6)


def group_text(head, group):
    line = "%s: %d packets departed, %d dropped, %d queued; %d bytes" % (
        head, group["departed"], group["dropped"], group["queued"], group["bytes"])
    if group["throughput"] is not None:
        line += "; %d bytes a second" % group["throughput"]
    lines = [line]
    if group["delay"]:
        line = "  delay in ns: least {least}, median {median}, 95 % {p95}, 99 % {p99}, greatest {greatest}, mean {mean}".format(
            **group["delay"])
        lines.append(line if group["jitter"] is None else "%s; jitter %d" % (line, group["jitter"]))
    lines.append("  backlog: at most %d packets, at most %d bytes" % (group["most_queued"], group["most_queued_bytes"]))
    return "".join(line + "\n" for line in lines)


def text(found):
    """The text that the program prints."""
    groups = [("all", found["all"])] + [
        ("%s %s" % (kind, group["name"]), group) for kind, of in (("leaf", "leaves"), ("class", "classes")) for group in found[of]]
    index = found["jain"] if isinstance(found["jain"], str) else millionths(found["jain"])
    return "".join(group_text(*group) for group in groups) + "fairness of the leaves by weight (Jain): %s\n" % index


def as_json(found):
    """The JSON that the program prints."""
    index = "null" if isinstance(found["jain"], str) else millionths(found["jain"])
    rest = {key: found[key] for key in ("all", "leaves", "classes")}
    return json.dumps(rest, separators=(",", ":"))[:-1] + ',"jain":%s}\n' % index


def main(words):
    shown = as_json if words[:1] == ["--json"] else text
    words = words[1:] if shown is as_json else words
    report, capture, policy = (pathlib.Path(name) for name in words[:3])
    rate, overhead = int(words[3]), int(words[4]) if len(words) > 4 else 0
    sys.stdout.write(shown(summary(report.read_text(), capture.read_bytes(), policy.read_text(), rate, overhead)))


if __name__ == "__main__":
    main(sys.argv[1:])
