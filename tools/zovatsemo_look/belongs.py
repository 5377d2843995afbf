"""Whether reports and a capture belong together. A report has no name of its capture, so its numbers are compared."""
from zovatsemo_look import units
from zovatsemo_look.capture import CaptureError
from zovatsemo_look.guard import LookError

BILLION = 10 ** 9


def check_same_capture(runs, names):
    """Rejects two runs of which one speaks of packets that the other can't have."""
    for (run, name), (other, other_name) in ((pair, twin) for pair in zip(runs, names) for twin in zip(runs, names)):
        if other.is_whole and (run.packets > other.packets or run.is_whole and run.packets != other.packets):
            raise LookError("the runs are of different captures: %s speaks of %s packets, and %s of %s" % (
                name, format(run.packets, ","), other_name, format(other.packets, ",")))


def check_capture(capture, run, name):
    """Rejects a capture that can't be that of a run."""
    here, told = len(capture.lengths), run.packets
    if here < told:
        why = " (%s)" % capture.end if capture.end else ""
        raise CaptureError("it has %d whole packets%s, and %s speaks of %d" % (here, why, name, told))
    if here > told and run.is_whole:
        raise CaptureError("it has more than the %d packets of which %s speaks" % (told, name))
    check_taps(capture, run, name)
    if run.is_paced:
        check_starts(capture, run, name)


def check_taps(capture, run, name):
    """Rejects a capture whose lengths aren't those that a run's taps counted."""
    for kind, packets in (("bytes", run.order), ("drops", (at + 1 for at, left in enumerate(run.left) if left < 0))):
        told = run.tapped_bytes(kind)
        if told is not None:
            here = min(sum(capture.lengths[packet - 1] for packet in packets), 2 ** 62 - 1)
            if here != told:
                raise CaptureError("by its lengths the tap %s of %s would say %d bytes, and it says %d: it isn't the "
                                   "capture of this run" % (kind, name, here, told))


def check_starts(capture, run, name):
    """Rejects a capture whose timestamps don't fit the starts of a link, event by event. At a departure all packets
    that arrived before have timestamps up to its start; at an arrival all departures before started earlier."""
    arrived, left, moments = run.arrived, run.left, capture.moments
    clock, next_packet, last, count = 0, 0, -1, len(arrived)
    for packet, start in zip(run.order, run.starts):
        event = left[packet - 1]
        while next_packet < count and arrived[next_packet] < event:
            clock = max(clock, moments[next_packet])
            if last >= clock:
                raise CaptureError("packet %d has the timestamp %d, and %s has a departure before it that starts at %d:"
                                   " it isn't the capture of this run" % (next_packet + 1, clock, name, last))
            next_packet += 1
        if start < clock:
            raise CaptureError("packet %d starts at %d in %s, before the timestamp %d of packet %d: it isn't the capture"
                               " of this run" % (packet, start, name, clock, next_packet))
        last = start


class Pace:
    """The rates in bytes a second, from `least` to `most`, at which a link can have made the starts of a run. `is_tight`
    says whether the link was busy at least once, so that both ends come from the run."""

    def __init__(self, capture, run):
        self.least, self.most, self.is_tight = 1, units.MOST_RATE, False
        arrived, left, moments, lengths = run.arrived, run.left, capture.moments, capture.lengths
        clock = next_packet = last = length = 0
        for packet, start in zip(run.order, run.starts):
            while next_packet < len(arrived) and arrived[next_packet] < left[packet - 1]:
                clock = max(clock, moments[next_packet])
                next_packet += 1
            if length:
                self.narrow(length * BILLION, start - last, start > clock)
            last, length = start, lengths[packet - 1]

    def narrow(self, amount, time, is_busy):
        """Takes the time from one start to the next. A busy link starts the next packet as soon as the last is sent."""
        self.least = max(self.least, -(-amount // time) if time > 0 else units.MOST_RATE + 1)
        if is_busy:
            self.is_tight = True
            if time > 1:
                self.most = min(self.most, -(-amount // (time - 1)) - 1)


def check_rate(capture, run, name, rate):
    """Returns how a run was paced; rejects lengths or a rate that no link fits."""
    pace = Pace(capture, run)
    if pace.least > pace.most:
        raise LookError("the lengths of the capture fit the starts of %s at no rate: it isn't the capture of this run"
                        % name)
    if rate is not None and not pace.least <= rate <= pace.most:
        raise LookError("the starts of %s aren't those of a link of %s; they fit %s to %s bytes a second" % (
            name, units.rate_name(rate), format(pace.least, ","), format(pace.most, ",")))
    return pace
