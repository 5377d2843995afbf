"""The report of a run, read in one pass into arrays that have an entry for each packet."""
import array
import functools
import re

MOST_LINE = 4096  # bytes of a line; 65 ranks of 19 digits and a name of 64 letters are fewer
MOST_LEAVES = 1024
MOST_NUMBER = 2 ** 63 - 1
IS_QUEUED, IS_DROPPED = 0, -1  # in place of the event at which a packet departed

MOST_NAME = 64  # letters of a leaf's name

MOVE = re.compile(rb"([ad]) (\d+) (\d+) ([\w-]+) (\d+(?:/\d+)*)(?: (\d+))?\n")
DROP = re.compile(rb"x (\d+) (\d+) ([\w-]+)\n")
EMPTY = re.compile(rb"e (\d+)\n")
END = re.compile(rb"end pushed (\d+) popped (\d+) empty (\d+) held (\d+) unsent (\d+)(?: dropped (\d+))?\n")
FAULT = re.compile(rb"fault [a-z]+ \d+ \d+\n")
TAP = re.compile(rb"tap (bytes|order|first|drops)((?: \d+)*)\n")
SPILLS = re.compile(rb"spills (\d+)\n")
MOST_FIRST = 8  # numbers that the tap `first` has


class Leaf:
    """What the packets of one leaf, or of all of them, amount to."""

    __slots__ = ("name", "arrived", "departed", "drops", "queued", "backlog", "overtaken")

    def __init__(self, name):
        self.name = name
        self.arrived = self.departed = self.drops = self.queued = self.backlog = self.overtaken = 0

    def arrive(self):
        """A packet arrived and is queued."""
        self.arrived += 1
        self.queued += 1
        if self.queued > self.backlog:
            self.backlog = self.queued

    def depart(self, is_overtaken):
        """A packet that was queued departed."""
        self.departed += 1
        self.queued -= 1
        self.overtaken += is_overtaken

    def drop(self):
        """A packet arrived and was dropped."""
        self.arrived += 1
        self.drops += 1


class Run:
    """What a report says. The arrays by packet have the index of its number less 1."""

    def __init__(self, ranks_kept=0):
        self.leaves = []
        self.all = Leaf("all leaves")
        self.leaf_of = array.array("H")  # by packet: the index of its leaf in `leaves`
        self.arrived = array.array("q")  # by packet: the event at which it arrived
        self.left = array.array("q")  # by packet: the event at which it departed, IS_QUEUED or IS_DROPPED
        self.order = array.array("q")  # the packets that departed, in turn
        self.starts = array.array("q")  # when they started, in nanoseconds; empty where no link paced them
        self.events = self.empty = 0
        self.unsent = None
        self.fault = None  # the line of the fault that ended the run
        self.broken = None  # where and why the report breaks off
        self.taps = {}  # by kind the line of the tap
        self.spills = None  # of a run on rank stores
        self.last_packet = 0  # the greatest number that departed
        self.ranks_kept = ranks_kept  # the ranks of that many packets are kept
        self.pushed_ranks, self.taken_ranks = [], []  # by packet, as the report writes them; None where it has none
        self._places = {}
        self._is_over = False

    @property
    def is_paced(self):
        """Whether the departures have starts, as those of a link. Without departures there is nothing to tell."""
        return bool(self.starts)

    @property
    def packets(self):
        """How many packets the report speaks of: those that arrived, and those that the script didn't ask for."""
        return len(self.arrived) + (self.unsent or 0)

    @property
    def is_whole(self):
        """Whether the run came to its end."""
        return self.unsent is not None

    def tapped_bytes(self, kind):
        """The bytes that the tap `bytes` or `drops` counted; None without that tap."""
        return int(self.taps[kind].split()[-1]) if kind in self.taps else None

    def release(self):
        """Lets go of the packets; the counts stay."""
        self.leaf_of, self.arrived, self.left, self.order, self.starts = (array.array("q") for _ in range(5))

    def take(self, line):
        """Takes one line, and returns what is wrong with it, or None."""
        move = None if self._is_over else MOVE.fullmatch(line)
        if move is None:
            return self._take_other(line)
        kind, event, packet, name, ranks, start = move.groups()
        if int(event) != self.events + 1:
            return self._is_not_next(event)
        packet = int(packet)
        if kind == b"a":
            wrong = "an arrival has no start" if start else self._arrive(packet, name)
        else:
            wrong = self._depart(packet, name, start)
        if packet <= self.ranks_kept and wrong is None:
            self._keep_ranks(kind == b"a", packet, ranks.decode("ascii"))
        return wrong

    def _keep_ranks(self, is_arrival, packet, ranks):
        """Keeps the ranks of a line. A packet that is dropped has none, so the lists are filled up to each packet."""
        for kept in (self.pushed_ranks, self.taken_ranks):
            kept.extend([None] * (packet - len(kept)))
        (self.pushed_ranks if is_arrival else self.taken_ranks)[packet - 1] = ranks

    def _take_other(self, line):
        """Takes a line that is no arrival and no departure."""
        if not line.endswith(b"\n"):
            return "the report is cut inside this line"
        if self._is_over:
            return "a line after the end of the run" if self.fault else self._take_after_end(line)
        for form, taking in ((DROP, self._drop), (EMPTY, self._find_nothing), (END, self._end), (FAULT, self._fail)):
            found = form.fullmatch(line)
            if found:
                return taking(found)
        return "this is no line of a report"

    def _take_after_end(self, line):
        """Takes a line after the line `end`: a tap's, or the spills of a run on rank stores."""
        tap, spills = TAP.fullmatch(line), SPILLS.fullmatch(line)
        if tap:
            return self._tap(tap)
        if spills is None:
            return "a line after the end of the run"
        if self.spills is not None:
            return "a second line of spills"
        self.spills = int(spills.group(1))
        return None

    def _is_not_next(self, event):
        return "event %d was to come here, and not %d" % (self.events + 1, int(event))

    def _place_of(self, name):
        """The index of a leaf by its name; a new one is added."""
        place = self._places.get(name)
        if place is None and len(self.leaves) < MOST_LEAVES:
            place = self._places[name] = len(self.leaves)
            self.leaves.append(Leaf(name.decode("ascii")))
        return place

    def _come(self, packet, name, left):
        """Notes a packet that arrived; returns its leaf, and what is wrong."""
        if packet != len(self.arrived) + 1:
            return None, "packet %d was to come here, and not %d" % (len(self.arrived) + 1, packet)
        if len(name) > MOST_NAME:
            return None, "a leaf's name has more than %d letters" % MOST_NAME
        place = self._place_of(name)
        if place is None:
            return None, "there are more than %d leaves" % MOST_LEAVES
        self.events += 1
        self.leaf_of.append(place)
        self.arrived.append(self.events)
        self.left.append(left)
        return self.leaves[place], None

    def _arrive(self, packet, name):
        leaf, wrong = self._come(packet, name, IS_QUEUED)
        if wrong is None:
            leaf.arrive()
            self.all.arrive()
        return wrong

    def _drop(self, found):
        event, packet, name = found.groups()
        if int(event) != self.events + 1:
            return self._is_not_next(event)
        leaf, wrong = self._come(int(packet), name, IS_DROPPED)
        if wrong is None:
            leaf.drop()
            self.all.drop()
        return wrong

    def _depart(self, packet, name, start):
        if not 1 <= packet <= len(self.left) or self.left[packet - 1] != IS_QUEUED:
            return "packet %d isn't queued" % packet
        leaf = self.leaves[self.leaf_of[packet - 1]]
        if self._places.get(name) != self.leaf_of[packet - 1]:
            return "packet %d arrived at the leaf %s" % (packet, leaf.name)
        if self.order and bool(self.starts) != (start is not None):
            return "some departures have a start and some have none"
        if start is not None:
            if int(start) > MOST_NUMBER:
                return "a start of more than 292 years isn't shown"
            self.starts.append(int(start))
        self.events += 1
        self.left[packet - 1] = self.events
        self.order.append(packet)
        is_overtaken = packet < self.last_packet
        self.last_packet = max(packet, self.last_packet)
        leaf.depart(is_overtaken)
        self.all.depart(is_overtaken)
        return None

    def _find_nothing(self, found):
        if int(found.group(1)) != self.events + 1:
            return self._is_not_next(found.group(1))
        self.events += 1
        self.empty += 1
        return None

    def _end(self, found):
        """The line of the run's end, whose numbers must be those of the lines before."""
        told = [int(number or 0) for number in found.groups()]
        pushed = self.all.arrived - self.all.drops
        here = [pushed, self.all.departed, self.empty, self.all.queued, told[4], self.all.drops]
        if told != here:
            names = ("pushed", "popped", "empty", "held", "unsent", "dropped")
            wrong = [(name, n, m) for name, n, m in zip(names, told, here) if n != m]
            return "the end says %s %d, and the lines before have %d" % wrong[0]
        self.unsent = told[4]
        self._is_over = True
        return None

    def _tap(self, found):
        """The line of a tap. Its numbers must be those of the lines before, except for sums of bytes."""
        kind, told = found.group(1).decode("ascii"), [int(number) for number in found.group(2).split()]
        here = {"bytes": [self.all.departed], "order": [self.all.overtaken, self.last_packet],
                "first": list(self.order[:MOST_FIRST]), "drops": [self.all.drops]}[kind]
        if kind in self.taps:
            return "a second line of the tap %s" % kind
        if told[:len(here)] != here or len(told) != len(here) + (kind in ("bytes", "drops")):
            return "by the lines before, the tap %s says %s" % (kind, " ".join(map(str, here)))
        self.taps[kind] = found.group().decode("ascii").rstrip("\n")
        return None

    def _fail(self, found):
        self.fault = found.group().decode("ascii").rstrip("\n")
        self._is_over = True
        return None

    def finish(self, lines):
        """Notes that the report has that many lines."""
        if self.broken is None and not self._is_over:
            self.broken = "line %d: the report stops before the end of the run" % (lines + 1)


def read_report(stream, progress, ranks_kept=0):
    """Reads the report of a run from a stream of bytes, up to the first line that is wrong."""
    run = Run(ranks_kept)
    number = 0
    for number, line in enumerate(iter(functools.partial(stream.readline, MOST_LINE), b""), 1):
        wrong = run.take(line)
        if wrong is not None:
            run.broken = "line %d: %s" % (number, wrong)
            break
        if not number & 0xFFFF:
            progress.at(stream)
    run.finish(number)
    return run
