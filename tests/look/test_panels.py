"""Single pictures: their sizes, formats, axes and scales; throughput and densities against numbers worked out by hand."""
import struct
import tempfile
import unittest

import runs
import test_page
from zovatsemo_look import page, sources, study

LOOK = page.Look(9, False, False, False, False, "")
PANELS = ("delay", "backlog", "bytes", "packets", "throughput")


def full_report(packets):
    """A report in which all packets arrive, and then all depart in the same order, so their bars touch each other."""
    lines = ["a %d %d one 0\n" % (at, at) for at in range(1, packets + 1)]
    lines += ["d %d %d one 0\n" % (packets + at, at) for at in range(1, packets + 1)]
    return "".join(lines) + "end pushed %d popped %d empty 0 held 0 unsent 0\n" % (packets, packets)


class Panels(runs.Case):
    """What tools/look draws with --panel and its companions."""

    def draw(self, name, *words):
        """The bytes of a picture of the run of a link."""
        out = self.folder / name
        self.assertEqual(runs.look(self.report, "--capture", self.capture, "--out", out, *words), (0, "", ""))
        return out.read_bytes()

    def words(self, *words):
        """The words of a picture of the run of a link."""
        return test_page.words(test_page.drawn(self.folder, self.report, "--capture", self.capture, *words))

    def test_each_panel_has_its_width_and_its_pixels(self):
        for panel in PANELS:
            for width, dpi in ((3.3, 300), (7, 100)):
                with self.subTest(panel, width=width):
                    data = self.draw("p.png", "--panel", panel, "--width", width, "--dpi", dpi)
                    across, high = struct.unpack(">II", data[16:24])
                    self.assertEqual(across, round(width * dpi))
                    self.assertLess(high, across)
                    self.assertIn(b"pHYs" + struct.pack(">II", round(dpi / 0.0254), round(dpi / 0.0254)), data)

    def test_long_names_have_room_in_narrow_pictures(self):
        names = ["W" * 64, "long_" * 12 + "name", "voice"]
        lines = "".join("a %d %d %s 0\n" % (at, at, name) for at, name in enumerate(names, 1))
        report = self.write("names", lines + "end pushed 3 popped 0 empty 0 held 3 unsent 0\n")
        for panel in ("delay", "backlog", "bytes", "packets"):
            drawn = test_page.drawn(self.folder, report, "--panel", panel, "--width", 2)
            with self.subTest(panel):
                self.assertIn("voice", test_page.words(drawn))
                self.assertGreaterEqual(test_page.left_of(drawn), 5)

    def test_the_page_has_its_width_too(self):
        self.assertEqual(struct.unpack(">I", self.draw("p.png", "--width", 7, "--dpi", 100)[16:20])[0], 700)

    def test_a_panel_alone_has_one_axis_and_no_title(self):
        self.assertNotIn("capture %s" % self.capture, self.words("--panel", "delay"))
        for panel, label in (("delay", "delay in ns"), ("bytes", "bytes"), ("throughput", "Gbit/s")):
            found = self.words("--panel", panel)
            self.assertIn(label, found)
            self.assertNotIn("Distribution of delays", found)

    def test_letters_of_a_pdf_are_truetype(self):
        data = self.draw("p.pdf")
        self.assertIn(b"/FontFile2", data)
        self.assertNotIn(b"/Type3", data)

    def test_no_bar_is_paler_than_another(self):
        from matplotlib import image
        report = self.write("full", full_report(50))
        for dpi in (110, 150, 300):
            out = self.folder / "p.png"
            self.assertEqual(runs.look(report, "--out", out, "--panel", "packets", "--dpi", dpi)[0], 0)
            colours = (image.imread(out)[..., :3] * 255).round().astype(int)
            orange = (colours[..., 2] > colours[..., 0] + 20).nonzero()  # blue, as the first leaf is
            shades = {tuple(shade) for shade in colours[orange]}
            with self.subTest(dpi):
                self.assertEqual(shades, {(0x00, 0x72, 0xB2)})

    def test_queued_packets_are_hatched(self):
        text = "a 1 1 one 0\nend pushed 1 popped 0 empty 0 held 1 unsent 0\n"
        drawn = test_page.drawn(self.folder, self.write("queued", text))
        self.assertIn("url(#", test_page.style_of(drawn, test_page.bar_of(drawn, 1)))
        self.assertIn("hatched: queued at the end", test_page.legend(drawn))

    def test_axes_of_delays(self):
        self.assertIn("delay in ns, logarithmic", self.words("--panel", "delay", "--log"))
        curves = self.words("--panel", "delay", "--cdf", "--log")
        self.assertIn("100%", curves)
        self.assertIn("each curve: the share of a leaf's departed packets with this delay or less", curves)
        self.assertEqual(self.words("--panel", "delay", "--cdf", "--leaf", "voice").count("web"), 0)

    def test_lanes_have_one_scale_or_their_own(self):
        self.assertIn("all lanes have one scale; the maximum of each is at the right", self.words("--panel", "backlog"))
        self.assertIn("each lane has its own scale; the maximum of each is at the right",
                      self.words("--panel", "backlog", "--own-scale"))
        shared, own = (self.draw("p.svg", "--panel", "backlog", *words) for words in ((), ("--own-scale",)))
        self.assertNotEqual(shared, own)

    def test_notes_are_at_their_pictures(self):
        lines = "".join("a %d %d one 0\n" % (at, at) for at in range(1, 1502))
        report = self.write("many", lines + "end pushed 1501 popped 0 empty 0 held 1501 unsent 0\n")
        drawn = test_page.drawn(self.folder, report)
        words = [word for word in test_page.words(drawn) if word]
        self.assertIn("of more than 1,000 steps, each drawn one is the maximum of a stretch",
                      "\n".join(words[words.index("Backlog: packets queued at each leaf"):][:3]))

    def test_what_does_not_go_together(self):
        for words, said in ((("--panel", "delay"), "--panel needs --out"), (("--log",), "--log needs --out"),
                            (("--out", "x.svg", "--width", "1"), "--width is from 5.5 to 20 inches here"),
                            (("--out", "x.svg", "--panel", "delay", "--width", "nan"), "--width is from 2 to 20"),
                            (("--out", "x.svg", "--dpi", "9999"), "--dpi is from 50 to 1200"),
                            (("--out", "x.html", "--panel", "delay"), "--panel draws a picture"),
                            (("--out", "x.gif"), "a file whose name ends with .html, .svg, .png, .pdf")):
            status, written, errors = runs.look(self.report, *words)
            with self.subTest(words):
                self.assertEqual((status, written), (2, ""))
                self.assertIn(said, errors)

    def test_throughput_needs_times(self):
        status, _, errors = runs.look(self.report, "--out", self.folder / "p.svg", "--panel", "throughput")
        self.assertEqual(status, 2)
        self.assertIn("throughput needs the capture, and reports of `link`", errors)


class Numbers(unittest.TestCase):
    """The numbers that are drawn."""

    def setUp(self):
        folder = tempfile.TemporaryDirectory()
        self.addCleanup(folder.cleanup)
        report, capture = runs.write_link_run(folder.name)
        run = sources.read_run(str(report))
        self.study = study.Study([run], ["report"], sources.read_capture(str(capture), [run], ["report"]), 10 ** 9)

    def test_windows_of_throughput(self):
        from zovatsemo_look import curves
        drawn = curves.Throughput(page.Page(self.study, ["web", "voice"], LOOK))
        self.assertEqual(drawn.window, 20)
        found = [drawn.windows_of(0, drawn.page.tracks[0], index) for index in (0, 1)]
        for (edges, values), sent in zip(found, (340, 200)):
            self.assertAlmostEqual(sum(values * (edges[1:] - edges[:-1])) / 8 / 10 ** 9, sent)
        total = found[0][1] + found[1][1]
        self.assertAlmostEqual(max(total), 8 * 10 ** 9)
        self.assertAlmostEqual(total[0], 8 * 10 ** 9)  # the link is busy from 0 to 450
        self.assertAlmostEqual(total[30], 0)  # and idle until 1000
        self.assertAlmostEqual(found[1][1][4], 8 * 10 ** 9)  # voice is sent until 100, and then web
        self.assertAlmostEqual(found[1][1][5], 0)
        self.assertAlmostEqual(found[0][1][54], 8 * 10 ** 9)  # the last window, from 1080 to 1090

    def test_a_density_counts_each_packet(self):
        import numpy
        from zovatsemo_look import tracks
        begins, waits = numpy.array([0.0, 5, 5, 10, 10]), numpy.array([1.0, 1, 9, 10, 0])
        counts = tracks.density(begins, waits, (10, 10), (2, 4))
        self.assertEqual(counts.tolist(), [[1, 0, 1, 1], [0, 0, 1, 1]])


if __name__ == "__main__":
    unittest.main()
