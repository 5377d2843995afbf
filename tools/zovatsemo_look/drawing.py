"""A page of pictures of one run, or of two beside each other, with titles, legend and notes; or one picture alone."""
import io
import textwrap
import warnings

import matplotlib

matplotlib.use("Agg")

from matplotlib import pyplot  # noqa: E402
from matplotlib.lines import Line2D  # noqa: E402
from matplotlib.patches import Patch  # noqa: E402

from zovatsemo_look import curves, guard, lanes, svg  # noqa: E402
from zovatsemo_look.page import EDGE, GREY, HEAD, SMALL, Page, inches_of, look_of, plain  # noqa: E402
from zovatsemo_look.progress import Progress  # noqa: E402
from zovatsemo_look.study import LETTERS  # noqa: E402
from zovatsemo_look.texts import plural  # noqa: E402

LINE, LEGEND_LINE, NOTE = 0.2, 0.19, 0.16  # inches from one line to the next
GAP, AXIS = 0.45, 0.46  # inches above a picture for its title, and below one for its axis
BOLD = 1.15  # times as wide as other letters
LEAST_AXES = 0.5  # inches that a picture is wide without what is beside it
HANDLE = 0.6  # inches of a legend's entry beside its words
SETTINGS = {"svg.fonttype": "none", "svg.hashsalt": "zovatsemo", "pdf.fonttype": 42, "ps.fonttype": 42,
            "axes.spines.top": False, "axes.spines.right": False, "axes.unicode_minus": False, "hatch.linewidth": 0.6}
UNDATED = {"svg": {"Date": None, "Creator": None}, "png": {"Software": None},
           "pdf": {"CreationDate": None, "Creator": None, "Producer": None}}
KINDS = {"packets": lanes.Packets, "backlog": lanes.Backlog, "bytes": curves.Served, "throughput": curves.Throughput,
         "delay": curves.Delays}
SWEEP = "sweep"


def kinds_of(study):
    """The pictures of a page: all, but that of throughput only if the runs are those of a link."""
    return [kind for kind in KINDS if kind != "throughput" or study.is_time]


def signs_of(page, shown):
    """What the signs mean that aren't a leaf's."""
    signs, kinds = [], {type(one) for one in shown}
    is_dense = any(isinstance(one, lanes.Packets) and one.is_dense for one in shown)
    if len(page.runs) == 2:
        signs.append(Patch(facecolor="#888888", edgecolor="#888888", label="%s: filled, solid" % LETTERS[0]))
        signs.append(Patch(facecolor="white", edgecolor="black", linestyle="--",
                           label="%s: hollow or pale, dashed" % LETTERS[1]))
    if any(run.all.drops for run in page.runs) and lanes.Packets in kinds:
        signs.append(Line2D([], [], color="black", marker="|", markersize=7, linestyle="none", label="dropped"))
    if any(run.all.queued for run in page.runs) and lanes.Packets in kinds:
        signs.append(Patch(facecolor="#888888", label="grey strip: queued at the end") if is_dense else
                     Patch(facecolor="white", edgecolor=GREY, hatch=lanes.HATCH, label="hatched: queued at the end"))
    return signs


class Legend:
    """The leaves with their looks, and what the other signs mean. A picture whose lanes are named needs no leaves."""

    def __init__(self, page, shown):
        signs, width = signs_of(page, shown), page.look.width
        names = page.names if not page.look.is_single or not all(one.is_laned for one in shown) else []
        self.page, self.width = page, width
        self.handles = [self.leaf_handle(*page.look_of(name)) for name in names] + signs
        self.words = names + [sign.get_label() for sign in signs]
        self.sizes = [self.size_of(name) for name in names] + [page.text] * len(signs)
        widths = [inches_of(*both) + HANDLE for both in zip(self.words, self.sizes)]
        self.columns = next((count for count in range(len(widths), 1, -1) if self.fits(widths, count)), 1)

    def size_of(self, name):
        """The size of a leaf's name, which is on one line here."""
        most = self.width - 2 * EDGE - HANDLE
        return min(self.page.name_size(name), self.page.text * most / max(0.01, inches_of(name, self.page.text)))

    def fits(self, widths, columns):
        """Whether entries of such widths have room in so many columns; the first columns have those that are over."""
        lines, longer = divmod(len(widths), columns)
        begins = [column * lines + min(column, longer) for column in range(columns + 1)]
        return sum(max(widths[begin:end]) for begin, end in zip(begins, begins[1:])) <= self.width - 2 * EDGE

    @staticmethod
    def leaf_handle(colour, marker):
        """A piece of a leaf's line."""
        return Line2D([], [], color=colour, marker=marker, linewidth=4, markersize=6, markeredgecolor="black",
                      markeredgewidth=0.5)

    def lines(self):
        """How many lines it takes."""
        return -(-len(self.words) // max(1, self.columns))

    def draw(self, figure, top):
        """Draws it below a height of the page, in inches from the top. A word may begin with a mark that keeps it out
        of a legend, so the words are set afterwards."""
        if not self.words:
            return
        legend = figure.legend(self.handles, [str(at) for at in range(len(self.words))], loc="upper left",
                               ncol=self.columns, bbox_to_anchor=(EDGE / self.width, 1 - top / figure.get_figheight()),
                               frameon=False, borderpad=0, borderaxespad=0, columnspacing=1.6)
        for text, word, size in zip(legend.get_texts(), self.words, self.sizes):
            text.set_text(plain(word))
            text.set_fontsize(size)
        legend.set_gid("legend")


def wrapped(text, size, width, wider=1.0):
    """A text in lines, none wider than so many inches."""
    fitting = int(0.95 * len(text) * width / max(0.01, wider * inches_of(text, size)))
    return textwrap.wrap(text, max(12, fitting), break_on_hyphens=False)


def title_lines(titles, width):
    """The lines of the title, each with its size and weight."""
    lines = []
    for text, is_head in titles:
        size, wider = (HEAD, BOLD) if is_head else (SMALL, 1)
        for part in wrapped(text, size, width - 2 * EDGE, wider):
            lines.append((part, {"fontsize": size, "fontweight": "bold" if is_head else "normal",
                                 "color": "black" if is_head else GREY}))
    return lines


class Block:
    """One picture on the page: what is drawn, the lines of its heading, and how much room it takes."""

    def __init__(self, page, kind):
        self.page, self.kind, self.drawn = page, kind, curves.Sweep(page) if kind == SWEEP else KINDS[kind](page)
        self.details, width = "; ".join(self.drawn.details()), page.look.width - 2 * EDGE
        taken = inches_of(self.drawn.title(), HEAD) + 0.3 + inches_of(self.details, page.small)
        self.is_beside = not page.look.is_single and taken <= width
        self.lines = [] if self.is_beside or not self.details else wrapped(self.details, page.small, width)

    def above(self):
        """Inches above the picture, for its title and for details that have no room beside it."""
        return 0.08 if self.page.look.is_single else GAP + NOTE * len(self.lines)

    def write_heading(self, axes):
        """Says above the picture what it shows and how to read it; of a picture alone, below it."""
        figure, page = axes.figure, self.page
        width, height = figure.get_size_inches()
        right, top = axes.get_position().max
        if page.look.is_single:
            figure.text(EDGE / width, EDGE / height, "\n".join(self.lines), fontsize=page.small, color=GREY, va="bottom")
            return
        lifted = top + (0.1 + NOTE * len(self.lines)) / height
        figure.text(EDGE / width, lifted, self.drawn.title(), fontsize=HEAD)
        if self.is_beside:
            figure.text(right, lifted, self.details, fontsize=page.small, color=GREY, ha="right")
        for at, line in enumerate(self.lines):
            figure.text(EDGE / width, lifted - NOTE * (at + 1) / height, line, fontsize=page.small, color=GREY)


def margins_of(page, blocks):
    """What is left free beside the pictures, at the left and at the right, in inches."""
    is_laned = any(block.drawn.is_laned for block in blocks)
    names = max([inches_of(page.lane_name(name), page.name_size(name)) for name in page.names], default=0)
    numbers = [inches_of(block.drawn.widest(), page.text) + 0.4 for block in blocks if not block.drawn.is_laned]
    has_beside = any(block.kind == "backlog" for block in blocks)
    beside = max([inches_of(page.backlogs(name), page.small) for name in page.names if has_beside], default=0)
    least = 0.35 if len(page.runs) == 2 or not page.look.is_single else 0.15
    return max([names + 0.2 if is_laned else 0, *numbers]) + EDGE, max(least, beside + 0.15) + EDGE


def place_axes(page, figure, blocks, top, margins):
    """The pictures under each other. Those with the axis of the run share it, and the last of them has its numbers."""
    width, height = figure.get_size_inches()
    left, right = margins
    if width - left - right < LEAST_AXES:
        raise guard.LookError("--width %g leaves no room for pictures beside the names and numbers" % width)
    found, bottom = [], height - top
    shared = [block for block in blocks if block.drawn.has_run_axis]
    for block in blocks:
        bottom -= block.above() + block.drawn.height()
        axes = figure.add_axes([left / width, bottom / height, (width - left - right) / width,
                                block.drawn.height() / height])
        bottom -= AXIS if not block.drawn.has_run_axis or block is shared[-1] else 0
        if block.drawn.has_run_axis:
            page.label_axis(axes)
            if block is not shared[-1]:
                axes.set_xlabel("")
                axes.tick_params(labelbottom=False)
        found.append(axes)
    return found


def notes_of(page, endings):
    """What is said at the end of the page: leaves without room, and how runs ended that aren't whole."""
    notes = list(endings)
    if page.left_out:
        notes.insert(0, "%s with fewer packets left out; --leaf names others" % plural(page.left_out, "leaf").replace(
            "leafs", "leaves"))
    return notes


def draw_page(page, blocks, titles, endings, said, margins):
    """The figure with its titles, legend, pictures and notes."""
    width = page.look.width
    lines, legend = title_lines(titles, width), Legend(page, [block.drawn for block in blocks])
    top = EDGE + LINE * (len(lines) + 0.4 if lines else 0)
    above = top + (LEGEND_LINE * legend.lines() if legend.words else 0)
    notes = [line for note in notes_of(page, endings) for line in wrapped(note, page.small, width - 2 * EDGE)]
    below = EDGE + NOTE * (len(notes) + (len(blocks[0].lines) if page.look.is_single else 0))
    axes_below = AXIS * (1 + any(block.drawn.has_run_axis for block in blocks) - blocks[-1].drawn.has_run_axis)
    height = above + sum(block.above() + block.drawn.height() for block in blocks) + axes_below + below
    figure = pyplot.figure(figsize=(width, height))
    for at, (line, look) in enumerate(lines):
        figure.text(EDGE / width, 1 - (EDGE + LINE * at) / height, plain(line), va="top", **look)
    legend.draw(figure, top)
    for number, (block, axes) in enumerate(zip(blocks, place_axes(page, figure, blocks, above, margins)), 1):
        said.tell("drawing picture %d of %d" % (number, len(blocks)))
        block.drawn.draw(axes)
        block.write_heading(axes)
    low = EDGE + (NOTE * len(blocks[0].lines) if page.look.is_single else 0)
    figure.text(EDGE / width, low / height, plain("\n".join(notes)), fontsize=page.small, va="bottom")
    return figure


def bytes_of(page, blocks, titles, endings, form, dpi, said, margins=None):
    """The bytes of pictures in a format. `margins` are those of the pictures, unless others are given."""
    drawn = io.BytesIO()
    with matplotlib.rc_context({**SETTINGS, "font.size": page.text}), warnings.catch_warnings():
        warnings.filterwarnings("ignore", "Glyph .* missing")
        figure = draw_page(page, blocks, titles, endings, said, margins or margins_of(page, blocks))
        said.tell("writing")
        figure.savefig(drawn, format=form, dpi=dpi, metadata=UNDATED[form])
        pyplot.close(figure)
    return svg.shortened(drawn.getvalue()) if form == "svg" else drawn.getvalue()


def write(given, studies, chosen, titles, endings):
    """Writes the page, the picture of a sweep, or the one picture that is asked for, into a file whose name says in which
    format."""
    said, form, study = Progress(given.out), given.out.rsplit(".", 1)[1], studies[0]
    page = Page(study, chosen, look_of(given, bool(given.panel)), studies)
    kinds = [SWEEP] if len(studies) > 1 else [given.panel] if given.panel else kinds_of(study)
    blocks = [Block(page, kind) for kind in kinds]
    try:
        drawn = bytes_of(page, blocks, [] if given.panel else titles, endings, form, given.dpi, said)
    finally:
        said.end()
    guard.write_file(given.out, drawn)
