"""What is drawn of a run, as positions on one axis of events or of time."""
import heapq

import numpy

from zovatsemo_look.report import IS_DROPPED, IS_QUEUED

MOST_STEPS = 1000  # of one line on the page
SCALES = ((10 ** 9, "s"), (10 ** 6, "ms"), (10 ** 3, "µs"), (1, "ns"))


class Scale:
    """The axis of a page: where it begins, how long it is, and what its unit is called."""

    def __init__(self, study):
        capture = study.capture
        self.is_time = study.is_time
        self.begin, self.divisor, self.unit = 0, 1, "events"
        if self.is_time:
            self.begin = min(capture.moments, default=0)
            self.divisor, self.unit = self.scale_for(max(self.end_of(run, capture) for run in study.runs) - self.begin)
        self.end = max(self.last(run, capture) for run in study.runs)

    @staticmethod
    def scale_for(nanoseconds):
        """The greatest unit of time of which there are ten."""
        return next((one for one in SCALES if nanoseconds >= 10 * one[0]), SCALES[-1])

    @staticmethod
    def end_of(run, capture):
        """The last start or timestamp of a run."""
        return max(max(run.starts, default=0), max(capture.moments[:len(run.arrived)], default=0))

    def last(self, run, capture):
        """Where a run ends on this axis."""
        return self.place(self.end_of(run, capture)) if self.is_time else run.events

    def place(self, value):
        """The position of a timestamp or an event on the axis."""
        return (value - self.begin) / self.divisor

    def amount(self, value):
        """A length of time, or a number of events, in the axis' unit."""
        return value / self.divisor


class Track:
    """A run's packets on the axis, by packet: where each arrived, and where it departed or the run ends."""

    def __init__(self, run, capture, scale):
        self.run = run
        self.leaf_of = as_numbers(run.leaf_of, "u2")
        self.left_at = as_numbers(run.left, "i8")
        self.is_queued = self.left_at == IS_QUEUED
        self.is_dropped = self.left_at == IS_DROPPED
        self.order = as_numbers(run.order, "i8") - 1
        self.arrived_at = as_numbers(run.arrived, "i8")
        self.last = scale.last(run, capture)
        if scale.is_time:
            self.begin = scale.place(as_numbers(capture.moments, "i8")[:len(self.arrived_at)])
            self.end = numpy.full(len(self.begin), self.last)
            self.end[self.order] = scale.place(as_numbers(run.starts, "i8"))
        else:
            self.begin = self.arrived_at.astype(float)
            self.end = numpy.where(self.is_queued, self.last, self.left_at).astype(float)

    def packets_of(self, leaf):
        """The indices of a leaf's packets that were queued, in the order in which they arrived."""
        return numpy.flatnonzero((self.leaf_of == leaf) & ~self.is_dropped)

    def drops_of(self, leaf):
        """The indices of a leaf's packets that were dropped."""
        return numpy.flatnonzero((self.leaf_of == leaf) & self.is_dropped)

    def departed_of(self, leaf):
        """The indices of a leaf's packets that departed, in the order of departures."""
        return self.order[self.leaf_of[self.order] == leaf]

    def backlog_of(self, leaf):
        """The steps of a leaf's backlog: positions, and how many packets are queued from there on."""
        packets = self.packets_of(leaf)
        gone = packets[~self.is_queued[packets]]
        events = numpy.concatenate((self.arrived_at[packets], self.left_at[gone]))
        positions = numpy.concatenate((self.begin[packets], self.end[gone]))
        changes = numpy.concatenate((numpy.ones(len(packets), "i8"), numpy.full(len(gone), -1, "i8")))
        turn = numpy.argsort(events, kind="stable")
        return thinned_to_greatest(numpy.maximum.accumulate(positions[turn]), numpy.cumsum(changes[turn]))

    def served_of(self, leaf, lengths):
        """The steps of what departed from a leaf: positions, and how many bytes, or packets, departed up to there."""
        packets = self.departed_of(leaf)
        amounts = lengths[packets] if lengths is not None else numpy.ones(len(packets), "i8")
        positions, totals = self.end[packets], numpy.cumsum(amounts, dtype="i8")
        if len(positions) > MOST_STEPS:
            kept = numpy.linspace(0, len(positions) - 1, MOST_STEPS).astype("i8")
            positions, totals = positions[kept], totals[kept]
        return positions, totals

    def sent_of(self, leaf, lengths, sending):
        """The bits that a leaf has sent up to each position, in a line from each start to the end of the packet;
        `sending` is how much of the axis a byte takes."""
        packets = self.departed_of(leaf)
        begins = self.end[packets]
        ends = begins + lengths[packets] * sending
        totals = numpy.cumsum(lengths[packets], dtype="i8") * 8
        before = numpy.concatenate(([0], totals[:-1])) if len(totals) else totals
        return numpy.column_stack((begins, ends)).ravel(), numpy.column_stack((before, totals)).ravel()


def as_numbers(values, kind):
    """An array as numpy sees it, without a copy."""
    return numpy.frombuffer(values, dtype=kind) if len(values) else numpy.zeros(0, kind)


def thinned_to_greatest(positions, values):
    """Steps, or the greatest of each stretch of them if there are many."""
    if len(positions) <= MOST_STEPS:
        return positions, values
    starts = numpy.linspace(0, len(positions), MOST_STEPS, endpoint=False).astype("i8")
    return positions[starts], numpy.maximum.reduceat(values, starts)


def rows_of_bars(begins, ends):
    """A row for each bar, so that no two of a row overlap, and how many rows there are."""
    free, rows = [], []
    for begin, end in zip(begins, ends):
        row = heapq.heappop(free)[1] if free and free[0][0] <= begin else len(free)
        heapq.heappush(free, (end, row))
        rows.append(row)
    return rows, len(free)


def density(begins, waits, ends, shape):
    """How many packets are in each cell of a grid: rows by how long they waited, columns by when they arrived."""
    rows, columns = shape
    across = numpy.minimum((begins * (columns / ends[0])).astype("i8"), columns - 1)
    up = numpy.minimum((waits * (rows / ends[1])).astype("i8"), rows - 1)
    return numpy.bincount(up * columns + across, minlength=rows * columns).reshape(shape)


def round_step(length, most):
    """The least of 1, 2 and 5 times a power of ten of which a length has at most so many."""
    power = 10.0 ** numpy.floor(numpy.log10(length / most))
    return next(power * digit for digit in (1, 2, 5, 10) if length / (power * digit) <= most)
