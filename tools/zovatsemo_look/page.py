"""What the pictures of a page share: the runs on one axis, and the leaves with their lanes and looks."""
import collections

from matplotlib.font_manager import FontProperties
from matplotlib.textpath import text_to_path
from matplotlib.ticker import MaxNLocator, StrMethodFormatter

from zovatsemo_look import measures
from zovatsemo_look.study import LETTERS
from zovatsemo_look.tracks import MOST_STEPS, Scale, Track

MOST_LEAVES = 16
MOST_BARS = 3000  # of one run; more packets are drawn as a density
TEXT, SMALL, HEAD, SMALLEST = 9, 8, 10.5, 4  # points
NARROW, NARROW_TEXT = 5, 7.5  # inches below which a picture has smaller letters, and these in points
EDGE = 0.15  # inches that are left free at the edges of the page
WIDEST_NAME = 2.4  # inches; a longer name is written smaller, and on two lines beside its lane
COLOURS = ("#0072B2", "#E69F00", "#009E73", "#D55E00", "#56B4E9", "#CC79A7", "#444444", "#999933")
MARKERS = ("o", "s", "^", "D", "v", "P", "X", "*", "<", ">", "p")
GREY = "#555555"

Look = collections.namedtuple("Look", "width is_log is_cdf has_own_scale is_single prefix")
Look.__doc__ = """How pictures are drawn: the width in inches, what axes and scales they have, whether there is one picture
alone, and what precedes the ids of packets."""


def look_of(given, is_single, prefix=""):
    """How pictures are drawn by the arguments of the command."""
    return Look(given.width, given.log, given.cdf, given.own_scale, is_single, prefix)


def plain(text):
    """A text in which no part is taken for a formula."""
    return text.replace("$", r"\$")


def inches_of(text, size=TEXT):
    """How wide a text is on the page."""
    font = FontProperties(size=size)
    return max(text_to_path.get_text_width_height_descent(line, font, False)[0] for line in text.split("\n")) / 72


def halves(name):
    """A long name on two lines."""
    half = name.rfind("_", len(name) // 3, len(name) * 2 // 3)
    half = half if half > 0 else len(name) // 2
    return name[:half], name[half:]


class Page:
    """The runs, their leaves and their axis."""

    def __init__(self, study, chosen, look, studies=()):
        self.study, self.look, self.studies = study, look, studies  # the studies are those of a sweep
        self.runs, self.capture = study.runs, study.capture
        self.scale = Scale(study)
        self.tracks = [Track(run, self.capture, self.scale) for run in self.runs]
        self.all_names = list(dict.fromkeys(measures.leaf_names(self.runs) + study.all_names()))
        self.names = self.shown_of(chosen)
        self.left_out = len(chosen) - len(self.names)
        self.text = TEXT if look.width >= NARROW else NARROW_TEXT
        self.small = SMALL if look.width >= NARROW else NARROW_TEXT - 0.5

    def shown_of(self, chosen):
        """The leaves that have room on the page, in their order."""
        arrived = collections.Counter()
        for run in self.runs:
            for leaf in run.leaves:
                arrived[leaf.name] += leaf.arrived
        kept = set(sorted(chosen, key=lambda name: -arrived[name])[:MOST_LEAVES])
        return [name for name in chosen if name in kept]

    def widest_name(self):
        """How wide the name of a leaf may be before it is written smaller."""
        return min(WIDEST_NAME, self.look.width / 3)

    def name_size(self, name):
        """The size in which the name of a leaf is written."""
        if inches_of(name, self.text) <= self.widest_name():
            return self.text
        half = max(inches_of(part, self.text) for part in halves(name))
        return min(SMALL - 1, max(SMALLEST, self.text * self.widest_name() / half))

    def lane_name(self, name):
        """The name of a leaf beside its lane; the end of a line that has no room in the smallest letters is left out."""
        if inches_of(name, self.text) <= self.widest_name():
            return name
        return "\n".join(self.cut(part, self.name_size(name)) for part in halves(name))

    def cut(self, text, size):
        """A text, or as much of it as has room."""
        while len(text) > 2 and inches_of(text, size) > 1.02 * self.widest_name():
            text = text[:-2] + "…"
        return text

    def look_of(self, name):
        """A leaf's colour and marker, the same on every page of these runs."""
        at = self.all_names.index(name)
        return COLOURS[at % len(COLOURS)], MARKERS[at % len(MARKERS)]

    def parts(self, name):
        """A leaf in each run in which packets arrived there: which run, its track, and the leaf's index there."""
        for which, track in enumerate(self.tracks):
            for index, leaf in enumerate(track.run.leaves):
                if leaf.name == name:
                    yield which, track, index

    def leaves(self, name):
        """What the runs that have a leaf count of it."""
        return [track.run.leaves[index] for _, track, index in self.parts(name)]

    def backlogs(self, name):
        """The greatest backlogs of a leaf in the runs, as text."""
        return " | ".join(format(leaf.backlog, ",") for leaf in self.leaves(name))

    def is_dense(self, track):
        """Whether a run has too many packets for a bar each."""
        return len(track.begin) > MOST_BARS

    def is_thinned(self):
        """Whether a line of the page has fewer steps than the run."""
        return any(leaf.arrived + leaf.departed > MOST_STEPS for run in self.runs for leaf in run.leaves)

    def id_of(self, which, packet):
        """The id of a packet's bar."""
        return "%spacket-%s%d" % (self.look.prefix, "other-" if which else "", packet)

    def lanes(self):
        """The leaves with their lanes, the first at the top."""
        return [(len(self.names) - 1 - at, name) for at, name in enumerate(self.names)]

    def label_lanes(self, axes):
        """Names the lanes, and sets a faint line between them."""
        axes.set_yticks([lane + 0.5 for lane, _ in self.lanes()])
        labels = axes.set_yticklabels([plain(self.lane_name(name)) for name in self.names])
        for name, label in zip(self.names, labels):
            label.set_fontsize(self.name_size(name))
        axes.tick_params(axis="y", length=0)
        axes.set_ylim(0, max(1, len(self.names)))
        for lane in range(1, len(self.names)):
            axes.axhline(lane, color="#BBBBBB", linewidth=0.5)

    def label_runs(self, axes):
        """With two runs, says at the right of each lane which is which."""
        for lane, name in self.lanes() if len(self.runs) > 1 else ():
            for which, _, _ in self.parts(name):
                bottom, height = self.lane_part(lane, which)
                self.say_beside(axes, bottom + height / 2, LETTERS[which])

    def say_beside(self, axes, height, text):
        """Writes a text at the right of a picture."""
        axes.text(1.008, height, text, transform=axes.get_yaxis_transform(), va="center", fontsize=self.small,
                  color=GREY)

    def lane_part(self, lane, which):
        """The bottom and the height of a run's part of a lane; the first run is above."""
        height = 0.84 / len(self.runs)
        return lane + 0.08 + height * (len(self.runs) - 1 - which), height * (0.94 if len(self.runs) > 1 else 1)

    def label_axis(self, axes):
        """Names the axis of events or of time."""
        words = "time in %s since the first timestamp" % self.scale.unit if self.scale.is_time else "event"
        self.set_axis(axes, self.scale.end, words)

    def set_axis(self, axes, end, words):
        """An axis from 0, with room for what is there, to an end."""
        end = end or 1
        axes.set_xlim(-0.006 * end, 1.01 * end)
        axes.set_xlabel(words)
        bins = max(2, min(9, round(1.8 * axes.bbox.width / axes.figure.dpi)))
        axes.xaxis.set_major_locator(MaxNLocator(nbins=bins, integer=not self.scale.is_time))
        axes.xaxis.set_major_formatter(StrMethodFormatter("{x:,g}" if self.scale.is_time else "{x:,.0f}"))
