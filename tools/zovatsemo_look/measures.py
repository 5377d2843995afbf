"""Numbers of a run by leaf or by class: counts, bytes, shares, delays, throughput. All are integers or fractions."""
import array
import fractions

from zovatsemo_look import units
from zovatsemo_look.report import IS_DROPPED, Leaf

ALL = "all leaves"
BILLION = 10 ** 9
BITS = 8
SHOWN = {"min": 0, "median": 50, "p95": 95, "p99": 99, "max": 100}  # the percentiles of the table


def is_time(runs, capture, rate):
    """Whether delays are in nanoseconds: the runs were paced by a link, and the timestamps are known. A run without
    departures says nothing of that."""
    is_link = rate is not None or any(run.is_paced for run in runs)
    return bool(capture) and is_link and all(run.is_paced or not run.order for run in runs)


def delays_of(run, capture, in_time):
    """The delay of each packet that departed, in the order of departures."""
    if in_time:
        moments = capture.moments
        return array.array("q", (start - moments[packet - 1] for packet, start in zip(run.order, run.starts)))
    arrived, left = run.arrived, run.left
    return array.array("q", (left[packet - 1] - arrived[packet - 1] for packet in run.order))


def percentile(ordered, percent):
    """The nearest rank: the least value that so many percent of the ordered values don't exceed. None if there are
    none."""
    if not ordered:
        return None
    rank = -(-fractions.Fraction(percent) * len(ordered) // 100)
    return ordered[max(1, int(rank)) - 1]


def share_text(share):
    """A share in percent with one digit after the point, rounded to the nearest."""
    return units.decimal(share * 100, 1) + "%"


class Numbers:
    """The numbers of one leaf or class, or of all."""

    def __init__(self, counts, delays, total_bytes, share, throughput):
        self.name = counts.name
        self.arrived, self.departed, self.drops = counts.arrived, counts.departed, counts.drops
        self.queued, self.backlog, self.overtaken = counts.queued, counts.backlog, counts.overtaken
        self.delays, self.kept = delays, {}  # in order
        self.bytes, self.share, self.throughput = total_bytes, share, throughput

    def percentile(self, percent):
        """A percentile of the delays; None if no packet departed."""
        return self.kept[percent] if percent in self.kept else percentile(self.delays, percent)

    def release(self):
        """Keeps the percentiles of the table, and lets go of the delays."""
        self.kept = {percent: self.percentile(percent) for percent in SHOWN.values()}
        self.delays = array.array("q")


class RunNumbers:
    """The numbers of one run, by name and of all. `groups` splits the packets by class in place of leaf."""

    def __init__(self, run, capture, in_time, rate=None, groups=None):
        names, group_of, counts = groups or ([leaf.name for leaf in run.leaves], run.leaf_of, run.leaves)
        lengths = capture.lengths if capture else None
        delays, sent = [array.array("q") for _ in names], [0] * len(names)
        for packet, delay in zip(run.order, delays_of(run, capture, in_time)):
            group = group_of[packet - 1]
            delays[group].append(delay)
            if lengths:
                sent[group] += lengths[packet - 1]
        delays = [ordered(values) for values in delays]
        self.duration = duration_of(run, capture, rate) if in_time and rate else None
        self.sent = sum(sent) if capture else None
        self.by_name = {name: self.numbers(*rest) for name, *rest in zip(names, counts, delays, sent)}
        every = ordered([value for part in delays for value in part])
        self.all = self.numbers(run.all, every, self.sent)

    def numbers(self, counts, delays, sent):
        """The numbers of a group of packets. Of nothing there is no share, and in no time no throughput."""
        if self.sent is None:
            return Numbers(counts, delays, None, None, None)
        share = fractions.Fraction(sent, self.sent) if self.sent else None
        throughput = fractions.Fraction(sent * BITS * BILLION, self.duration) if self.duration else None
        return Numbers(counts, delays, sent, share, throughput)

    def of(self, name):
        """The numbers of a name, with zeros if no packet arrived there."""
        if name not in self.by_name:
            self.by_name[name] = self.numbers(Leaf(name), array.array("q"), 0)
        return self.by_name[name]


def ordered(values):
    """Values in order, in as little memory as they need."""
    return array.array("q", sorted(values))


def duration_of(run, capture, rate):
    """The nanoseconds from the first timestamp until the last packet is sent."""
    if not len(capture.moments):
        return 0
    if not len(run.order):
        return max(capture.moments[:len(run.arrived)], default=capture.moments[0]) - capture.moments[0]
    sending = -(-capture.lengths[run.order[-1] - 1] * BILLION // rate)
    return run.starts[-1] + sending - capture.moments[0]


def counts_of(run, names, group_of):
    """The counts of groups of packets, from the events of a run, as the report's reader makes those of leaves."""
    counts, next_packet, last = [Leaf(name) for name in names], 0, 0
    for packet in list(run.order) + [0]:
        event = run.left[packet - 1] if packet else run.events + 1
        while next_packet < len(run.arrived) and run.arrived[next_packet] < event:
            group = counts[group_of[next_packet]]
            group.drop() if run.left[next_packet] == IS_DROPPED else group.arrive()
            next_packet += 1
        if packet:
            counts[group_of[packet - 1]].depart(packet < last)
            last = max(last, packet)
    return counts


def places(run):
    """The position of each packet among all departures, from 1; 0 if it didn't depart."""
    found = array.array("q", bytes(8 * len(run.left)))
    for place, packet in enumerate(run.order, 1):
        found[packet - 1] = place
    return found


def leaf_names(runs):
    """The names of all leaves, those of the first run first."""
    return list(dict.fromkeys(leaf.name for run in runs for leaf in run.leaves))


def fault_of(run, name):
    """Why nothing can be judged about a run; None if it came to its end."""
    if run.fault:
        return "%s: the run ended with %s" % (name, run.fault)
    return "%s: broken at %s" % (name, run.broken) if run.broken else None
