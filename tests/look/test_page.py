"""Pages of pictures: one bar a packet, the legend's leaves, the same bytes each time."""
import pathlib
import re
import tempfile
import unittest
import xml.etree.ElementTree

import runs

SVG = "{http://www.w3.org/2000/svg}"


def drawn(folder, *words):
    """The picture that tools/look draws for some words, as a tree of XML."""
    out = pathlib.Path(folder) / "page.svg"
    status, written, errors = runs.look(*words, "--out", out)
    if (status, errors) != (0, ""):
        raise AssertionError((status, written, errors))
    return xml.etree.ElementTree.parse(out).getroot()


def bars(page, form):
    """The numbers of the packets that have a bar, in the order in which they are drawn."""
    found = (re.fullmatch(form, bar.get("id", "")) for bar in page.iter(SVG + "path"))
    return [int(match.group(1)) for match in found if match]


def bar_of(page, packet):
    """The bar of a packet."""
    return next(bar for bar in page.iter(SVG + "path") if bar.get("id") == "packet-%d" % packet)


def width(page, packet):
    """How long the bar of a packet is."""
    data = bar_of(page, packet).get("d")
    return abs(float(re.search(r"H([\d.]+)", data).group(1)) - float(re.match(r"M([\d.]+)", data).group(1)))


def style_of(page, shape):
    """The style of a shape, its own or that of its class."""
    rules = dict(re.findall(r"\.(c\d+)\{(.*?)\}", "".join(style.text for style in page.iter(SVG + "style"))))
    return shape.get("style") or rules[shape.get("class")]


def group(page, name):
    """The group of a name; None where there is none."""
    return next((found for found in page.iter(SVG + "g") if found.get("id") == name), None)


def legend(page):
    """The words of the legend."""
    return [text.text for text in group(page, "legend").iter(SVG + "text")]


def words(page):
    """All words of the page."""
    return [text.text for text in page.iter(SVG + "text")]


def long_report(packets):
    """A report in which every packet leaves at once."""
    lines = ["a %d %d one 0\nd %d %d one 0\n" % (2 * at + 1, at + 1, 2 * at + 2, at + 1) for at in range(packets)]
    return "".join(lines) + "end pushed %d popped %d empty 0 held 0 unsent 0\n" % (packets, packets)


def left_of(page):
    """Where the leftmost word begins, as far as the picture tells."""
    moved = [(re.search(r"translate\((\S+) ", text.get("transform", "")), text) for text in page.iter(SVG + "text")]
    return min(float(found.group(1) if found else text.get("x")) for found, text in moved)


def images(page):
    """The names of the images on the page, which are densities."""
    return [found.get("id") for found in page.iter(SVG + "image")]


END = "end pushed %d popped %d empty 0 held %d unsent 0 dropped %d\n"


class Shortened(unittest.TestCase):
    """What is left out of a picture."""

    def test_paths(self):
        from zovatsemo_look import svg
        for data, expected in (("M 1 2 \nL 3 2 \nL 3 4 \nL 1 4 \nz\n", "M1 2H3V4H1z"),
                               ("M 0 0 \nL 1 0 \nL 2 0 \nL 2 5 \nL 2 1 \nL 9 9 \n", "M0 0H2V5V1L9 9"),
                               ("M 0 3 \nL 0 3 \nL 1 3 \nC 1 2 3 4 5 6 \nL 5 7 \nz\n", "M0 3H1C1 2 3 4 5 6V7z")):
            self.assertEqual(svg.path_of(data), expected)

    def test_styles(self):
        from zovatsemo_look import svg
        text = '<style>*{a: b}</style>' + '<path style="often"/>' * 4 + '<path style="once"/>'
        self.assertEqual(svg.with_classes(text), '<style>*{a: b}\n.c0{often}</style>' + '<path class="c0"/>' * 4
                         + '<path style="once"/>')


class Page(unittest.TestCase):
    """What tools/look draws with --out."""

    def setUp(self):
        folder = tempfile.TemporaryDirectory()
        self.addCleanup(folder.cleanup)
        self.folder = folder.name

    def test_office(self):
        page = drawn(self.folder, runs.OFFICE / "report", "--capture", runs.OFFICE / "capture",
                     "--command", "direct it")
        self.assertEqual(sorted(bars(page, r"packet-(\d+)")), list(range(1, 9)))
        self.assertEqual(legend(page), ["web", "voice", "other", "dns", "backup", "video"])
        self.assertIn("direct it", words(page))
        for packet, waited in ((1, 6), (2, 14), (3, 3), (4, 11), (5, 8), (6, 3), (7, 5), (8, 2)):
            self.assertAlmostEqual(width(page, packet) / width(page, 8), waited / 2, delta=0.01)

    def test_link_with_drops(self):
        report, capture = runs.write_link_run(self.folder)
        page = drawn(self.folder, report, "--capture", capture)
        self.assertEqual(sorted(bars(page, r"packet-(\d+)")), [1, 2, 3, 5, 7, 8, 9, 10])
        self.assertEqual(legend(page), ["web", "voice", "dropped"])
        self.assertEqual(len(group(page, "dropped-web").findall(SVG + "path")), 2)
        self.assertIsNone(group(page, "dropped-voice"))
        self.assertAlmostEqual(width(page, 2) / width(page, 1), 2.5, delta=0.01)
        self.assertIn("time in ns since the first timestamp", words(page))

    def test_two_runs(self):
        lines = "".join("a %d %d root 0\n" % (at, at) for at in range(1, 9))
        other = runs.write(self.folder, "other", lines + "end pushed 8 popped 0 empty 0 held 8 unsent 0\n")
        page = drawn(self.folder, runs.OFFICE / "report", "--against", other)
        self.assertEqual(sorted(bars(page, r"packet-(\d+)")), list(range(1, 9)))
        self.assertEqual(sorted(bars(page, r"packet-other-(\d+)")), list(range(1, 9)))
        self.assertEqual(legend(page)[:7], ["web", "voice", "other", "dns", "backup", "video", "root"])

    def test_a_held_packet_ends_with_its_own_run(self):
        short = "a 1 1 one 0\na 2 2 one 0\nd 3 2 one 0\nend pushed 2 popped 1 empty 0 held 1 unsent 0\n"
        end = "d 4 1 one 0\ne 5\ne 6\nend pushed 2 popped 2 empty 2 held 0 unsent 0\n"
        long = "a 1 1 one 0\na 2 2 one 0\nd 3 2 one 0\n" + end
        page = drawn(self.folder, runs.write(self.folder, "report", short), "--against", runs.write(self.folder, "b", long))
        self.assertAlmostEqual(width(page, 1) / width(page, 2), 2, delta=0.01)
        self.assertIn("hatched: queued at the end", legend(page))

    def test_chosen_leaves_keep_their_colours(self):
        whole = drawn(self.folder, runs.OFFICE / "report")
        chosen = drawn(self.folder, runs.OFFICE / "report", "--leaf", "dns", "web")
        self.assertEqual(legend(chosen), ["dns", "web"])
        self.assertEqual(sorted(bars(chosen, r"packet-(\d+)")), [1, 2, 4, 6])
        self.assertEqual(*(style_of(page, bar_of(page, 6)) for page in (whole, chosen)))

    def test_many_packets_are_a_density_of_all(self):
        page = drawn(self.folder, runs.write(self.folder, "report", long_report(3001)))
        self.assertEqual(bars(page, r"packet-(\d+)"), [])
        self.assertEqual(images(page), ["density-one"])
        self.assertIn("every packet counts: the darker a spot, the more packets (logarithmic); each lane reaches up to 1 "
                      "events", words(page))

    def test_many_drops_are_a_density_too(self):
        lines = "".join("x %d %d one\n" % (at, at) for at in range(1, 6002))
        page = drawn(self.folder, runs.write(self.folder, "report", lines + END % (0, 0, 0, 6001)))
        self.assertIn("dropped-one", images(page))

    def test_the_title_has_policy_capture_and_command(self):
        commands = ["zovatsemo link a/first b c 9", "zovatsemo direct a/second c d"]
        page = words(drawn(self.folder, runs.OFFICE / "report", "--against", runs.OFFICE / "report",
                           "--command", commands[0], "--against-command", commands[1]))
        begin = page.index("A: policy a/first")
        self.assertEqual(page[begin:begin + 5],
                         ["A: policy a/first", commands[0], "B: policy a/second", commands[1], "capture c"])
        report = runs.write(self.folder, "$x$", END % (0, 0, 0, 0))
        page = words(drawn(self.folder, report, "--command", "replay " + "word " * 60))
        begin = page.index("policy word") + 1
        self.assertEqual(" ".join(page[begin:begin + 3]), ("replay " + "word " * 60).strip())

    def test_names_of_every_length_stand_on_the_page(self):
        names = ["_", "_under", "a" * 20, "long_" * 12 + "name", "W" * 64]
        lines = "".join("a %d %d %s 0\n" % (at, at, name) for at, name in enumerate(names, 1))
        page = drawn(self.folder, runs.write(self.folder, "report", lines + END % (5, 0, 5, 0)))
        self.assertEqual(legend(page), names + ["hatched: queued at the end"])
        self.assertGreaterEqual(left_of(page), 10)

    def test_the_page_says_where_a_report_breaks(self):
        report = runs.write(self.folder, "report", "a 1 1 one 0\n")
        out = pathlib.Path(self.folder) / "page.svg"
        said = "%s: broken at line 2: the report stops before the end of the run" % report
        self.assertEqual(runs.look(report, "--out", out), (2, said + "\n", ""))
        self.assertIn(said, words(xml.etree.ElementTree.parse(out).getroot()))

    def test_a_page_without_packets(self):
        report = runs.write(self.folder, "report", "end pushed 0 popped 0 empty 0 held 0 unsent 7\n")
        self.assertEqual(bars(drawn(self.folder, report), r"packet-(\d+)"), [])

    def test_formats_and_the_same_bytes(self):
        for name, start in (("page.svg", b"<?xml"), ("page.png", b"\x89PNG"), ("page.pdf", b"%PDF")):
            out, found = pathlib.Path(self.folder) / name, []
            for _ in range(2):
                self.assertEqual(runs.look(runs.OFFICE / "report", "--out", out), (0, "", ""))
                found.append(out.read_bytes())
            self.assertTrue(found[0].startswith(start))
            self.assertEqual(found[0], found[1])


if __name__ == "__main__":
    unittest.main()
