"""The picture of `size`: the target's tree, with the most entries of each node as a bar, and its numbers beside it."""
import collections
import io
import json
import sys

from zovatsemo_look import guard
from zovatsemo_look.texts import plural, shown

MOST_ROWS = 60
ROW, INDENT, BAR = 0.22, 0.17, 0.62  # inches of a row and of a level, and the part of a row that its bar takes
LINE, NOTE, AXIS, GAP = 0.2, 0.16, 0.46, 0.2  # inches of lines of the title and of notes, below the axis, and between columns
LEAST_BARS = 1.0  # inches that bars are wide at least
TRANSIT, PASSED = "#999999", "#D55E00"
LIMITS = {"entries": "entries", "rank_bits": "rank bits"}

Node = collections.namedtuple("Node", "address serves entries numbers")
Passed = collections.namedtuple("Passed", "event packet address limit")
Sizes = collections.namedtuple("Sizes", "nodes entries memory passed columns")
Sizes.__doc__ = """The nodes in the order of the target's tree, the most entries of all, the bits of memory if there are any, the
first event at which a node passes a limit, if there is one, and the heads of the columns."""


# reading --------------------------------------------------------------------

def number(found):
    """A number that may be in a size."""
    if not isinstance(found, int) or isinstance(found, bool) or found < 0:
        raise ValueError
    return found


def address_of(found):
    """The address of a node."""
    return tuple(number(digit) for digit in found["address"])


def node_of(found):
    """A node, with its numbers by the heads of their columns."""
    numbers = {"entries": found["entries"], "rank bits": found["rank_bits"], "difference bits": found["difference_bits"]}
    if found["stores"] is not None:
        stores = found["stores"]
        numbers.update({"heads": stores["heads"], "in a store": stores["entries"], "spilled": stores["spilled"], "spills": stores["spills"]})
    serves = None if found["serves"] is None else shown(found["serves"])
    return Node(address_of(found), serves, number(found["entries"]), {head: number(one) for head, one in numbers.items()})


def passed_of(found):
    """The first event at which a node passes a limit; None if there is none."""
    return found and Passed(number(found["event"]), number(found["packet"]), address_of(found), LIMITS[found["limit"]])


def sizes_of(found):
    """The sizes in an object of JSON."""
    nodes = sorted(map(node_of, found["nodes"]), key=lambda node: node.address)
    memory = None if found["memory"] is None else number(found["memory"])
    columns = list(nodes[0].numbers) if nodes else []
    if len({tuple(node.numbers) for node in nodes}) > 1:
        raise ValueError
    return Sizes(nodes, number(found["entries"]), memory, passed_of(found["passed"]), columns)


def read_sizes(file):
    """The sizes in a file; `-` is standard input."""
    if file == "-" and sys.stdin is None:
        raise guard.LookError("standard input is closed, so there are no sizes to read")
    if file == "-":
        data = sys.stdin.buffer.read()
    else:
        with open(file, "rb") as stream:
            data = stream.read()
    try:
        return sizes_of(json.loads(data))
    except (ValueError, KeyError, TypeError, AttributeError, RecursionError):
        name = "standard input" if file == "-" else shown(file)
        raise guard.LookError("%s: it isn't what `size` writes with --json" % name)


# what is said ---------------------------------------------------------------

def written(address):
    """An address as `size` writes it."""
    return "/" + "/".join(map(str, address))


def label_of(node):
    """The words at the left of a node's bar."""
    return "%s %s" % (written(node.address), node.serves or "transit")


def kept_of(nodes):
    """The nodes that have room, those with the most entries, and how many don't. A node has no more entries than its parent."""
    first = sorted(nodes, key=lambda node: (-node.entries, len(node.address), node.address))[:MOST_ROWS]
    return [node for node in nodes if node in first], max(0, len(nodes) - MOST_ROWS)


def notes_of(sizes, left_out):
    """The lines below the picture."""
    notes = ["%s with fewer entries left out" % plural(left_out, "node")] if left_out else []
    memory = "" if sizes.memory is None else "; memory: %s" % plural(sizes.memory, "bit")
    notes.append("all nodes: at most %s entries%s" % (format(sizes.entries, ","), memory))
    if sizes.passed:
        passed = sizes.passed
        notes.append("limit passed: event %s, packet %s, node %s, by its %s"
                     % (format(passed.event, ","), format(passed.packet, ","), written(passed.address), passed.limit))
    return notes


# drawing --------------------------------------------------------------------

class Picture:
    """Where everything is, in inches from the left and the top."""

    def __init__(self, sizes, titles, width, page):
        self.sizes, self.page, self.width = sizes, page, width
        self.text = page.TEXT if width >= page.NARROW else page.NARROW_TEXT
        self.nodes, left_out = kept_of(sizes.nodes)
        self.titles, self.notes = titles, notes_of(sizes, left_out)
        self.top = page.EDGE + LINE * (len(titles) + 0.4 if titles else 0) + ROW
        self.bottom = self.top + ROW * max(1, len(self.nodes))
        self.height = self.bottom + AXIS + NOTE * len(self.notes) + page.EDGE
        labels = [self.indent(node) + self.inches(label_of(node)) for node in self.nodes]
        self.left = page.EDGE + max(labels, default=0) + 0.12
        self.ends = self.column_ends()
        self.right = width - page.EDGE - sum(self.column_widths()) - 0.05
        if self.right - self.left < LEAST_BARS:
            raise guard.LookError("--width %g leaves no room for bars beside the names and numbers" % width)

    def inches(self, text):
        """How wide a text is."""
        return self.page.inches_of(text, self.text)

    def indent(self, node):
        """How far a node's words are to the right."""
        return INDENT * len(node.address)

    def middle(self, row):
        """How far down the middle of a row is."""
        return self.top + ROW * (row + 0.5)

    def column_widths(self):
        """How wide each column of numbers is."""
        texts = {head: [format(node.numbers[head], ",") for node in self.nodes] for head in self.sizes.columns}
        return [GAP + max(map(self.inches, [head, *texts[head]])) for head in self.sizes.columns]

    def column_ends(self):
        """Where each column of numbers ends."""
        widths = self.column_widths()
        return [self.width - self.page.EDGE - sum(widths[at + 1:]) for at in range(len(widths))]

    def say(self, figure, across, down, text, **look):
        """Writes a text at a place."""
        look = {"va": "center", "fontsize": self.text, **look}
        figure.text(across / self.width, 1 - down / self.height, self.page.plain(text), **look)

    def draw_tree(self, figure, line):
        """The names of the nodes, each below its parent and joined to it."""
        rows = {node.address: row for row, node in enumerate(self.nodes)}
        for row, node in enumerate(self.nodes):
            across = self.page.EDGE + self.indent(node)
            self.say(figure, across, self.middle(row), label_of(node), color="black" if node.serves else self.page.GREY)
            if node.address[:-1] in rows and node.address:
                stem = across - INDENT * 0.6
                begin = self.middle(rows[node.address[:-1]]) + ROW * 0.42
                across_of = [stem, stem, across - 0.03]
                down_of = [begin, self.middle(row), self.middle(row)]
                figure.add_artist(line([one / self.width for one in across_of], [1 - one / self.height for one in down_of],
                                       color="#BBBBBB", linewidth=0.7, transform=figure.transFigure))

    def draw_numbers(self, figure):
        """The columns of numbers at the right."""
        for head, end in zip(self.sizes.columns, self.ends):
            self.say(figure, end, self.top - ROW * 0.5, head, ha="right", color=self.page.GREY)
            for row, node in enumerate(self.nodes):
                self.say(figure, end, self.middle(row), format(node.numbers[head], ","), ha="right")

    def colour_of(self, node):
        """The colour of a node's bar."""
        if self.sizes.passed and node.address == self.sizes.passed.address:
            return PASSED
        return self.page.COLOURS[0] if node.serves else TRANSIT

    def draw_bars(self, axes):
        """A bar for each node."""
        colours = [self.colour_of(node) for node in self.nodes]
        axes.barh(range(len(self.nodes)), [node.entries for node in self.nodes], height=BAR, color=colours)
        axes.set_ylim(max(1, len(self.nodes)) - 0.5, -0.5)
        axes.set_yticks([])
        axes.set_xlim(0, 1.03 * max([node.entries for node in self.nodes], default=1) or 1)
        axes.set_xlabel("most entries at once")

    def draw(self, figure, line):
        """The whole picture."""
        page = self.page
        for at, (title, look) in enumerate(self.titles):
            self.say(figure, page.EDGE, page.EDGE + LINE * (at + 0.5), title, **look)
        axes = figure.add_axes([self.left / self.width, 1 - self.bottom / self.height, (self.right - self.left) / self.width,
                                (self.bottom - self.top) / self.height])
        self.draw_bars(axes)
        self.draw_tree(figure, line)
        self.draw_numbers(figure)
        for at, note in enumerate(self.notes):
            self.say(figure, page.EDGE, self.bottom + AXIS + NOTE * (at + 0.5), note, fontsize=page.SMALL)
        return axes


def bytes_of(sizes, titles, width, form, dpi):
    """The bytes of the picture in a format."""
    from matplotlib.ticker import MaxNLocator, StrMethodFormatter
    from zovatsemo_look import drawing, page, svg
    drawn = io.BytesIO()
    picture = Picture(sizes, drawing.title_lines(titles, width), width, page)
    with drawing.matplotlib.rc_context({**drawing.SETTINGS, "font.size": picture.text}):
        figure = drawing.pyplot.figure(figsize=(picture.width, picture.height))
        axes = picture.draw(figure, drawing.Line2D)
        axes.xaxis.set_major_locator(MaxNLocator(nbins=max(2, round(1.5 * (picture.right - picture.left))), integer=True))
        axes.xaxis.set_major_formatter(StrMethodFormatter("{x:,.0f}"))
        figure.savefig(drawn, format=form, dpi=dpi, metadata=drawing.UNDATED[form])
        drawing.pyplot.close(figure)
    return svg.shortened(drawn.getvalue()) if form == "svg" else drawn.getvalue()


def write(given):
    """Writes the picture that the arguments ask for, and returns the status."""
    guard.check_writable(given.out)
    sizes = read_sizes(given.sizes)
    titles = [(shown(given.command), True)] if given.command else []
    guard.write_file(given.out, bytes_of(sizes, titles, given.width, given.out.rsplit(".", 1)[1], given.dpi))
    return guard.DONE
