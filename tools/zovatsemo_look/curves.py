"""The pictures whose lines are counted: bytes and throughput over the axis of the run, and the distribution of delays."""
import numpy
from matplotlib.patches import Rectangle
from matplotlib.ticker import MaxNLocator, PercentFormatter, StrMethodFormatter

from zovatsemo_look import belongs, units
from zovatsemo_look.guard import LookError
from zovatsemo_look.page import GREY
from zovatsemo_look.study import common_unit
from zovatsemo_look.tracks import MOST_STEPS, as_numbers, round_step

PERCENTS = (0, 25, 50, 75, 99, 100)  # that a box shows
MOST_WINDOWS = 60  # of a throughput
ROOM = 0.4  # inches from one rate's name to the next


class Line:
    """How a leaf's line looks in a run."""

    def __init__(self, page, lane, name, which):
        colour, marker = page.look_of(name)
        self.words = {"color": colour, "linewidth": 1.3, "linestyle": "--" if which else "-", "marker": marker,
                      "markevery": (0.03 + 0.02 * (lane % 3) + 0.05 * which, 0.1), "markersize": 5, "clip_on": False,
                      "markerfacecolor": "white" if which else colour}


def height_in(page):
    """How high a picture of lines is, in inches."""
    return max(1.2, min(2.2, 0.45 * page.look.width))


class Served:
    """Bytes that departed from each leaf, or packets if no capture tells lengths."""

    is_laned, has_run_axis = False, True

    def __init__(self, page):
        self.page = page
        self.word = "bytes" if page.capture else "packets"

    def title(self):
        """What the picture shows."""
        return "%s served by each leaf" % self.word.capitalize()

    def details(self):
        """How to read it."""
        return ["of more than %s steps, as many are drawn" % format(MOST_STEPS, ",")] if self.page.is_thinned() else []

    def height(self):
        """Inches."""
        return height_in(self.page)

    def widest(self):
        """The widest number of the vertical axis."""
        total = sum(self.page.capture.lengths) if self.page.capture else max(run.all.departed for run in self.page.runs)
        return format(total, ",")

    def draw(self, axes):
        """Draws a line for each leaf and run."""
        page, lengths = self.page, as_numbers(self.page.capture.lengths, "u4") if self.page.capture else None
        for lane, name in page.lanes():
            for which, track, index in page.parts(name):
                positions, totals = track.served_of(index, lengths)
                last = totals[-1:] if len(totals) else [0]
                axes.step(numpy.concatenate(([0], positions, [track.last])), numpy.concatenate(([0], totals, last)),
                          where="post", **Line(page, lane, name, which).words)
        axes.set_ylabel(self.word)
        axes.yaxis.set_major_locator(MaxNLocator(nbins=5, integer=True))
        axes.yaxis.set_major_formatter(StrMethodFormatter("{x:,.0f}"))
        axes.set_ylim(bottom=0)


class Throughput:
    """Bits a second that each leaf sent, over windows of time."""

    is_laned, has_run_axis = False, True

    def __init__(self, page):
        self.page = page
        if not page.scale.is_time:
            raise LookError("a picture of throughput needs the capture, and reports of `link`")
        self.sending, self.ends = [], []
        for run, name in zip(page.runs, page.study.names):
            pace = belongs.check_rate(page.capture, run, name, page.study.rate)
            rate = page.study.rate or (pace.least if pace.is_tight else None)
            self.sending.append(10 ** 9 / rate / page.scale.divisor if rate else 0)
            last = page.capture.lengths[run.order[-1] - 1] * self.sending[-1] if run.order else 0
            self.ends.append(page.scale.place(run.starts[-1]) + last if run.order else 0)
        self.window = round_step(max(*self.ends, page.scale.end) or 1, MOST_WINDOWS)

    def title(self):
        """What the picture shows."""
        return "Throughput of each leaf"

    def details(self):
        """How to read it."""
        found, rate = ["averages over windows of %g %s" % (self.window, self.page.scale.unit)], self.page.study.rate
        return found + (["dotted: the link's rate, %s" % units.rate_name(rate)] if rate else [])

    def height(self):
        """Inches."""
        return height_in(self.page)

    @staticmethod
    def widest():
        """The widest number of the vertical axis."""
        return "999.9"

    def windows_of(self, which, track, index):
        """The ends of the windows, and the bits a second in each."""
        lengths = as_numbers(self.page.capture.lengths, "u4").astype("i8")
        positions, totals = track.sent_of(index, lengths, self.sending[which])
        count = max(1, int(numpy.ceil(max(self.ends[which], track.last) / self.window)))
        edges = numpy.arange(count + 1) * self.window
        edges[-1] = max(self.ends[which], track.last) or self.window
        if self.sending[which]:
            sent = numpy.interp(edges, positions, totals, left=0) if len(positions) else numpy.zeros(count + 1)
        else:
            sent = numpy.concatenate(([0], totals[1::2]))[numpy.searchsorted(positions[::2], edges, side="left")]
            sent[-1] = totals[-1] if len(totals) else 0
        return edges, numpy.diff(sent) / numpy.diff(edges) / self.page.scale.divisor * 10 ** 9

    def draw(self, axes):
        """Draws a line for each leaf and run."""
        page = self.page
        found = [(lane, name, which, *self.windows_of(which, track, index)) for lane, name in page.lanes()
                 for which, track, index in page.parts(name)]
        most = max([values.max() for *_, values in found] + [8 * (page.study.rate or 0), 1])
        size, unit = next((pair for pair in units.BIT_NAMES if most >= pair[0]), units.BIT_NAMES[-1])
        for lane, name, which, edges, values in found:
            words = {**Line(page, lane, name, which).words, "markevery": (2 * (lane % 3) + which, 6), "clip_on": True}
            axes.step(edges, numpy.append(values, values[-1]) / size, where="post", **words)
        if page.study.rate:
            axes.axhline(8 * page.study.rate / size, color=GREY, linewidth=0.8, linestyle=":")
        axes.set_ylabel(unit)
        axes.yaxis.set_major_locator(MaxNLocator(nbins=5))
        axes.yaxis.set_major_formatter(StrMethodFormatter("{x:,g}"))
        axes.set_ylim(0, 1.05 * most / size)


class Delays:
    """The distribution of delays by leaf: boxes in lanes, or curves."""

    has_run_axis = False

    def __init__(self, page):
        self.page = page
        self.is_laned = not page.look.is_cdf
        self.word = "delay"

    def title(self):
        """What the picture shows."""
        return "Distribution of delays"

    def details(self):
        """How to read it."""
        if self.page.look.is_cdf:
            return ["each curve: the share of a leaf's departed packets with this delay or less"]
        return ["box: 25th to 75th percentile, thick: median, line: min to 99th, cross: max"]

    def height(self):
        """Inches."""
        if self.page.look.is_cdf:
            return height_in(self.page)
        return max(0.9, len(self.page.names) * (0.4 if len(self.page.runs) == 2 else 0.24))

    @staticmethod
    def widest():
        """The widest number of the vertical axis of curves."""
        return "100%"

    def draw(self, axes):
        """Draws the boxes or the curves, and the axis of delays."""
        page = self.page
        found = [(lane, name, which, page.study.numbers[which].of(name)) for lane, name in page.lanes()
                 for which, _, _ in page.parts(name)]
        for lane, name, which, numbers in found:
            if numbers.delays and self.is_laned:
                values = [page.scale.amount(numbers.percentile(percent)) for percent in PERCENTS]
                draw_box(axes, values, page.lane_part(lane, which), page.look_of(name)[0], which)
            elif numbers.delays:
                self.draw_curve(axes, numbers, Line(page, lane, name, which))
        if self.is_laned:
            page.label_lanes(axes)
            page.label_runs(axes)
        else:
            axes.set_ylim(0, 1)
            axes.set_ylabel("packets")
            axes.yaxis.set_major_formatter(PercentFormatter(1))
        self.set_axis(axes, [numbers for *_, numbers in found if numbers.delays])

    def draw_curve(self, axes, numbers, line):
        """The part of the packets that had a delay or less; of many packets, at evenly spaced ranks."""
        ordered = as_numbers(numbers.delays, "i8")
        count = len(ordered)
        ranks = numpy.unique(numpy.linspace(0, count - 1, min(count, MOST_STEPS)).astype("i8"))
        values = ordered[ranks] / self.page.scale.divisor
        axes.step(numpy.concatenate((values[:1], values)), numpy.concatenate(([0], (ranks + 1) / count)), where="post",
                  **line.words)

    def set_axis(self, axes, found):
        """The axis of delays, logarithmic if that is asked for; on a logarithmic axis, 0 is at the left end."""
        page = self.page
        most = max([page.scale.amount(numbers.percentile(100)) for numbers in found], default=0)
        page.set_axis(axes, most, "%s in %s" % (self.word, page.scale.unit))
        positive = [delay for numbers in found for delay in numbers.delays[least_positive(numbers.delays):][:1]]
        if page.look.is_log and positive:
            least = 10 ** numpy.floor(numpy.log10(page.scale.amount(min(positive))))
            has_zero = any(numbers.delays[0] == 0 for numbers in found)
            axes.set_xscale("symlog", linthresh=least, linscale=0.8) if has_zero else axes.set_xscale("log")
            axes.set_xlim(-0.1 * least if has_zero else 0.8 * page.scale.amount(min(positive)), 1.3 * most)
            axes.xaxis.set_major_formatter(StrMethodFormatter("{x:,g}"))
            axes.set_xlabel("%s in %s, logarithmic" % (self.word, page.scale.unit))


class Sweep:
    """The 99th percentile of each leaf's delays at each rate of a sweep."""

    is_laned, has_run_axis, percent = False, False, 99

    def __init__(self, page):
        self.page = page
        self.unit = common_unit(page.studies, None)

    @staticmethod
    def title():
        """What the picture shows."""
        return "99th percentile of delays by rate"

    @staticmethod
    def details():
        """How to read it."""
        return ["both axes are logarithmic", "a delay of 0 is at the lower end"]

    def height(self):
        """Inches."""
        return height_in(self.page)

    @staticmethod
    def widest():
        """The widest number of the vertical axis."""
        return "100,000"

    def points_of(self, name, which):
        """The rates in bits a second, and the percentiles there, of a leaf in one run of each study."""
        found = [(8 * study.rate, study.numbers[which].of(name).percentile(self.percent))
                 for study in self.page.studies if study.has(which, name)]
        return zip(*sorted((rate, delay / self.unit.divisor) for rate, delay in found if delay is not None))

    def draw(self, axes):
        """Draws a line for each leaf and run, with a mark at each rate."""
        page, delays = self.page, [0]
        for lane, name in page.lanes():
            for which in range(len(page.runs)):
                points = list(self.points_of(name, which))
                if points:
                    axes.plot(*points, **{**Line(page, lane, name, which).words, "markevery": None})
                    delays += points[1]
        least = min((delay for delay in delays if delay), default=1)
        axes.set_yscale("symlog", linthresh=10 ** numpy.floor(numpy.log10(least)), linscale=0.3)
        axes.set_ylim(0, 1.5 * max(*delays, least))
        axes.yaxis.set_major_formatter(StrMethodFormatter("{x:,g}"))
        axes.set_ylabel("delay in %s" % self.unit.name)
        self.label_rates(axes)

    def label_rates(self, axes):
        """Names the rates, as far as their names have room beside each other."""
        rates = sorted(8 * study.rate for study in self.page.studies)
        size, unit = next(pair for pair in units.BIT_NAMES if rates[0] >= pair[0])
        inch = axes.bbox.width / axes.figure.dpi / max(0.01, numpy.log(rates[-1] / rates[0])) * 0.9
        named = rates[:1]
        for rate in rates[1:]:
            if numpy.log(rate / named[-1]) * inch >= ROOM:
                named.append(rate)
        axes.set_xscale("log")
        axes.set_xticks(named, [format(rate / size, ",g") for rate in named])
        axes.minorticks_off()
        axes.set_xlabel("rate of the link in %s" % unit)


def least_positive(ordered):
    """The index of the first positive value of ordered ones."""
    return int(numpy.searchsorted(as_numbers(ordered, "i8"), 1))


def draw_box(axes, numbers, part, colour, which):
    """One leaf's box, line and cross."""
    least, low, median, high, most99, greatest = numbers
    middle = part[0] + part[1] / 2
    axes.plot([least, most99], [middle, middle], color="black", linewidth=0.8, zorder=1)
    axes.add_patch(Rectangle((low, part[0] + part[1] * 0.2), high - low, part[1] * 0.6, edgecolor=colour if which else
                             "black", facecolor="white" if which else colour, linewidth=0.8, zorder=2))
    axes.plot([median, median], [part[0] + part[1] * 0.1, part[0] + part[1] * 0.9], color="black", linewidth=2,
              zorder=3)
    axes.plot([greatest], [middle], "x", color="black", markersize=5, zorder=3, clip_on=False)
