"""The pictures with a lane for each leaf over the axis of the run: its packets, and its backlog."""
import numpy
from matplotlib.colors import to_rgb
from matplotlib.image import AxesImage
from matplotlib.patches import Rectangle

from zovatsemo_look.tracks import MOST_STEPS, density, rows_of_bars

LEAST_OUTLINED = 3  # points that a bar is high and wide, if it has a dark edge
LEAST_GAP = 2  # points that a row of bars is high, if there is a gap to the next
STRIP = 0.2  # of a run's part of a lane, for packets that were dropped, and in a density for those still queued
CELLS = 72  # cells of a density to an inch
FAINTEST = 0.15  # of a cell with one packet
HATCH = "//////"


def points_of(axes):
    """How many points on the page a step of each axis takes."""
    box, (left, right), (bottom, top) = axes.bbox, axes.get_xlim(), axes.get_ylim()
    inch = axes.figure.dpi / 72
    return box.width / inch / (right - left), box.height / inch / (top - bottom)


def pale(colour):
    """A colour mixed with as much white."""
    return tuple(0.5 + part / 2 for part in to_rgb(colour))


class Packets:
    """A bar for each packet from its arrival to its departure, or the density of packets if there are many."""

    is_laned, has_run_axis = True, True

    def __init__(self, page):
        self.page = page
        self.is_dense = any(map(page.is_dense, page.tracks))
        self.darkest = 1

    def title(self):
        """What the picture shows."""
        if self.is_dense:
            return "Packets by arrival, and upwards by delay"
        return "Each packet from its arrival to its departure"

    def details(self):
        """How to read it."""
        if not self.is_dense:
            return ["bars that overlap in time lie above each other"]
        lanes = "each lane reaches up to its own maximum delay" if self.page.look.has_own_scale else (
            "each lane reaches up to %s %s" % (format(self.greatest(self.page.names), ",g"), self.page.scale.unit))
        return ["every packet counts: the darker a spot, the more packets (logarithmic)", lanes]

    def height(self):
        """Inches."""
        each = 0.56 if len(self.page.runs) == 2 else 0.36
        return max(1.6, len(self.page.names) * (each + 0.2 if self.is_dense else each))

    def draw(self, axes):
        """Draws every lane."""
        page = self.page
        page.label_lanes(axes)
        page.label_runs(axes)
        for lane, name in page.lanes():
            has_drops = any(leaf.drops for leaf in page.leaves(name))
            for which, track, index in page.parts(name):
                bottom, height = page.lane_part(lane, which)
                top = bottom + height * (1 - STRIP if has_drops else 1)
                if self.is_dense:
                    self.draw_density(axes, track, index, name, (bottom, top))
                else:
                    self.draw_bars(axes, track, track.packets_of(index), (bottom, top), name, which)
                if has_drops:
                    self.draw_drops(axes, track, track.drops_of(index), (top + height * 0.04, bottom + height),
                                    "%sdropped-%s%s" % (page.look.prefix, "other-" if which else "", name))

    def draw_bars(self, axes, track, packets, ends, name, which):
        """The bars of one leaf between two heights of its lane. A packet that is still queued is hatched, and one of the
        second run is hollow, or pale in low rows. Low rows have no gaps and no smooth edges, so that all look alike."""
        bottom, top = ends
        rows, count = rows_of_bars(track.begin[packets], track.end[packets])
        height, colour = (top - bottom) / max(1, count), self.page.look_of(name)[0]
        wide, high = points_of(axes)
        is_high, has_gap = height * high >= LEAST_OUTLINED, height * high >= LEAST_GAP
        for packet, row in zip(packets, rows):
            begin, end = track.begin[packet], track.end[packet]
            is_queued = bool(track.is_queued[packet])
            is_outlined = is_high and (end - begin) * wide >= LEAST_OUTLINED
            hollow = "white" if has_gap or is_queued else pale(colour)
            bar = Rectangle((begin, bottom + row * height), end - begin, height * (0.9 if has_gap else 1),
                            facecolor=hollow if which or is_queued else colour,
                            edgecolor="black" if is_outlined and not which and not is_queued else colour,
                            linewidth=(0.5 if is_high else 0.35) if has_gap else 0, antialiased=has_gap, clip_on=False,
                            hatch=HATCH if is_queued else None)
            bar.set_gid(self.page.id_of(which, packet + 1))
            axes.add_patch(bar)

    def draw_drops(self, axes, track, dropped, ends, name):
        """A tick for each packet that was dropped, or their density."""
        if not len(dropped):
            return
        if self.is_dense:
            columns = self.columns(axes)
            across = numpy.minimum((track.begin[dropped] * (columns / self.end())).astype("i8"), columns - 1)
            self.add_image(axes, numpy.bincount(across, minlength=columns)[None, :], "#000000", ends).set_gid(name)
            return
        axes.vlines(track.begin[dropped], *ends, color="black", linewidth=0.7, clip_on=False).set_gid(name)

    def greatest(self, names):
        """The greatest delay of some leaves in all runs, in the unit of the axis."""
        return max([float((track.end - track.begin)[track.departed_of(index)].max()) for name in names
                    for _, track, index in self.page.parts(name) if track.run.leaves[index].departed], default=0)

    def end(self):
        """Where the axis ends."""
        return self.page.scale.end or 1

    @staticmethod
    def columns(axes):
        """How many cells a density has across."""
        return max(10, int(axes.bbox.width / axes.figure.dpi * CELLS))

    def draw_density(self, axes, track, index, name, ends):
        """How many packets of a leaf arrived when and had which delay; packets still queued are a strip at the top."""
        departed, queued = track.departed_of(index), numpy.flatnonzero(track.is_queued & (track.leaf_of == index))
        bottom, top = ends
        if any(leaf.queued for leaf in self.page.leaves(name)):
            top = top - (top - bottom) * STRIP
        most = self.greatest([name] if self.page.look.has_own_scale else self.page.names) or 1
        shape = max(4, int((top - bottom) * points_of(axes)[1] / 72 * CELLS)), self.columns(axes)
        waits = track.end[departed] - track.begin[departed]
        counts = density(track.begin[departed], waits, (self.end(), most), shape)
        self.add_image(axes, counts, self.page.look_of(name)[0], (bottom, top)).set_gid(
            "%sdensity-%s" % (self.page.look.prefix, name))
        if len(queued):
            across = numpy.minimum((track.begin[queued] * (shape[1] / self.end())).astype("i8"), shape[1] - 1)
            self.add_image(axes, numpy.bincount(across, minlength=shape[1])[None, :], "#888888", (top, ends[1]))

    def add_image(self, axes, counts, colour, ends):
        """Adds cells of a colour that is the stronger the more packets they have."""
        most = max(1, counts.max(initial=0))
        cells = numpy.zeros((*counts.shape, 4))
        cells[..., :3] = to_rgb(colour)
        cells[..., 3] = numpy.where(counts, FAINTEST + (1 - FAINTEST) * numpy.log1p(counts) / numpy.log1p(most), 0)
        image = AxesImage(axes, extent=(0, self.end(), *ends), origin="lower", interpolation="nearest")
        image.set_data(cells)
        image.set_clip_on(False)
        return axes.add_artist(image)


class Backlog:
    """How many packets each leaf has queued."""

    is_laned, has_run_axis = True, True

    def __init__(self, page):
        self.page = page

    def title(self):
        """What the picture shows."""
        return "Backlog: packets queued at each leaf"

    def details(self):
        """How to read it."""
        scale = "each lane has its own scale" if self.page.look.has_own_scale else "all lanes have one scale"
        lines = [scale + "; the maximum of each is at the right"]
        if self.page.is_thinned():
            lines.append("of more than %s steps, each drawn one is the maximum of a stretch" % format(MOST_STEPS, ","))
        return lines

    def height(self):
        """Inches."""
        return max(1.1, len(self.page.names) * 0.3)

    def draw(self, axes):
        """Draws every lane."""
        page = self.page
        greatest = {name: max([leaf.backlog for leaf in page.leaves(name)], default=0) for name in page.names}
        for lane, name in page.lanes():
            most = greatest[name] if page.look.has_own_scale else max(greatest.values())
            for which, track, index in page.parts(name):
                positions, values = track.backlog_of(index)
                positions = numpy.concatenate(([0], positions, [track.last]))
                heights = lane + numpy.concatenate(([0], values, values[-1:] if len(values) else [0])) / max(1, most) * 0.9
                if which == 0:
                    axes.fill_between(positions, lane, heights, step="post", color=page.look_of(name)[0], alpha=0.75,
                                      linewidth=0)
                else:
                    axes.step(positions, heights, where="post", color="black", linewidth=0.8, linestyle="--")
            page.say_beside(axes, lane + 0.5, page.backlogs(name))
        page.label_lanes(axes)
