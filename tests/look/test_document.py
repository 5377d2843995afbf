"""The page in HTML: what is in it, and what a browser makes of it. Without Chromium, the tests in a browser are left out."""
import hashlib
import html.parser
import json
import os
import pathlib
import re
import shutil
import struct
import subprocess
import tempfile
import unittest

import runs
import test_compare

BROWSER = next((path for path in map(shutil.which, ("chromium", "chromium-browser", "google-chrome")) if path), None)
SECONDS = 180  # for one page
HOVER = """<script>
const bar = document.getElementById("r0-packet-3");
bar.dispatchEvent(new MouseEvent("mouseover", {bubbles: true, clientX: 5, clientY: 5}));
document.body.setAttribute("data-hover", document.getElementById("hint").textContent);
</script></body>"""


class Reader(html.parser.HTMLParser):
    """The texts of some elements of a page, its tables by rows, and the addresses that it names."""

    def __init__(self, text):
        super().__init__(convert_charrefs=True)
        self.rows, self.texts, self.addresses, self.tags = [], {}, [], set()
        self.cell, self.inside = None, []
        self.feed(text)

    def handle_starttag(self, tag, attrs):
        attrs = dict(attrs)
        self.tags.add(tag)
        self.addresses += [attrs[key] for key in ("src", "href", "xlink:href", "action", "data") if attrs.get(key)]
        if tag == "tr":
            self.rows.append([])
        if tag in ("td", "th"):
            self.cell = []
        if attrs.get("id") in ("data", "found", "verdict", "hint") or tag == "title":
            self.inside.append((tag, attrs.get("id") or tag))
            self.texts[self.inside[-1][1]] = ""

    def handle_endtag(self, tag):
        if tag in ("td", "th"):
            self.rows[-1].append("".join(self.cell))
            self.cell = None
        if self.inside and self.inside[-1][0] == tag:
            self.inside.pop()

    def handle_data(self, data):
        if self.cell is not None:
            self.cell.append(data)
        if self.inside:
            self.texts[self.inside[-1][1]] += data


def row_of(page, *begin):
    """The row of a page's tables that begins with these cells."""
    return next(row for row in page.rows if row[:len(begin)] == list(begin))


class Document(runs.Case):
    """What is in the page."""

    def setUp(self):
        super().setUp()
        self.out = self.folder / "run.html"

    def page(self, *words):
        """The page of the run of a link."""
        self.assertEqual(runs.look(self.report, "--capture", self.capture, "--out", self.out, *words)[::2], (0, ""))
        return self.out.read_text()

    def test_the_numbers_are_those_of_the_table(self):
        page = Reader(self.page())
        _, written, _ = runs.look(self.report, "--capture", self.capture)
        for line in written.splitlines()[3:]:
            self.assertEqual(row_of(page, *re.split(r"  +", line)[:1]), re.split(r"  +", line))

    def test_commands_versions_and_sums(self):
        text = self.page("--command", "zovatsemo link a b c 9")
        page = Reader(text)
        for role, path in (("report", self.report), ("capture", self.capture)):
            data = path.read_bytes()
            self.assertEqual(row_of(page, role), [role, str(path), format(len(data), ","), hashlib.sha256(data).hexdigest()])
        for said in ("zovatsemo link a b c 9", "tools/look %s" % self.report, "toolchain: ", "Python 3", "matplotlib 3"):
            self.assertIn(said, text)

    def test_packets_and_ranks(self):
        run = json.loads(Reader(self.page()).texts["data"])["runs"][0]
        self.assertEqual((run["packets"], run["leaves"], run["leaf"][4], run["arrived"][4], run["left"][4]),
                         (10, ["web", "voice"], 1, 6, 8))
        self.assertEqual((run["pushed"][4], run["taken"][4], run["starts"][4], run["moments"][4]), ("0/0", "0/0", 50, 50))
        self.assertEqual((run["left"][3], run["pushed"][3], run["taken"][3], run["starts"][3]), (-1, None, None, None))
        self.assertEqual(len(json.loads(Reader(self.page("--packets", 3)).texts["data"])["runs"][0]["leaf"]), 3)

    def test_it_names_no_other_file(self):
        text = self.page()
        page = Reader(text)
        self.assertEqual([address for address in page.addresses if not address.startswith(("#", "data:"))], [])
        self.assertEqual(page.tags & {"link", "iframe", "object", "embed", "base", "img", "video", "audio"}, set())
        self.assertIn("default-src 'none'", text)
        self.assertNotRegex(text, r"(?i)@import|url\((?!#)|fetch\(|XMLHttpRequest|WebSocket|import\(")
        self.assertEqual(re.findall(r"https?://(?!www\.w3\.org/)", text), [])

    def test_the_same_bytes_each_time(self):
        self.assertEqual(self.page(), self.page())

    def test_ids_are_unique(self):
        ids = re.findall(r' id="([^"]+)"', self.page())
        self.assertEqual(len(ids), len(set(ids)))

    def test_names_are_escaped(self):
        name = self.folder / "<script>bad<&\"'>\x1b\n"
        name = name.parent / name.name.replace("/", "")
        shutil.copy(self.report, name)
        status, _, errors = runs.look(name, "--out", self.out, "--command", "</script><b>\x00\u2028")
        self.assertEqual((status, errors), (0, ""))
        text = self.out.read_text()
        page = Reader(text)
        self.assertEqual(page.texts["title"], str(name).replace("\x1b", "\\x1b").replace("\n", "\\n"))
        self.assertNotIn("b", page.tags)
        self.assertNotRegex(text, "[\x00-\x08\x0b-\x1f\u2028]")
        self.assertEqual(json.loads(page.texts["data"])["runs"][0]["title"], page.texts["title"])

    def test_a_sweep_and_its_verdict(self):
        words = (*test_compare.WORDS[:-1], "1Mbit,10Mbit", "--assert", "A:voice.p99 <= 2ms", "--out", self.out)
        status, _, errors = runs.compare(test_compare.STRICT, test_compare.FIRST, *words)
        self.assertEqual((status, errors), (1, ""))
        page = Reader(self.out.read_text())
        self.assertEqual(page.texts["verdict"], "1 of 2 checks failed")
        self.assertEqual(row_of(page, "FAILED"), ["FAILED", "A:voice.p99 <= 2ms", "A, 1 Mbit/s", "10.8 ms"])
        self.assertEqual(row_of(page, "voice", "10 Mbit/s")[13], "1.160|146.760")
        data = json.loads(page.texts["data"])["runs"]
        self.assertEqual([(run["prefix"], run["isOther"]) for run in data],
                         [("r0-", False), ("r0-", True), ("r1-", False), ("r1-", True)])
        for role, path in (("policy A", test_compare.STRICT), ("target", test_compare.UPLINK / "target")):
            self.assertEqual(row_of(page, role)[3], hashlib.sha256(path.read_bytes()).hexdigest())


class InBrowser(unittest.TestCase):
    """What a browser makes of the page."""

    @classmethod
    def setUpClass(cls):
        if BROWSER is None:
            raise unittest.SkipTest("there is no Chromium: apt-get install chromium")
        folder = tempfile.TemporaryDirectory(ignore_cleanup_errors=True)
        cls.addClassCleanup(folder.cleanup)
        cls.folder = pathlib.Path(folder.name)
        try:
            empty = runs.write(cls.folder, "empty.html", "<p>ready</p>")
            if "ready" not in cls.browse(empty, "--dump-dom").decode():
                raise unittest.SkipTest("Chromium doesn't run on this machine")
        except (OSError, subprocess.SubprocessError) as error:
            raise unittest.SkipTest("Chromium doesn't run on this machine: %s" % error)
        report, capture = runs.write_link_run(cls.folder)
        cls.out = cls.folder / "run.html"
        cls.looked = runs.look(report, "--capture", capture, "--out", cls.out)

    @classmethod
    def browse(cls, path, *words, fragment=""):
        """What Chromium writes for a page."""
        done = subprocess.run([BROWSER, "--headless", "--no-sandbox", "--disable-gpu", "--disable-dev-shm-usage",
                               "--user-data-dir=%s" % (cls.folder / "profile"), *words, path.as_uri() + fragment],
                              stdout=subprocess.PIPE, stderr=subprocess.DEVNULL, timeout=SECONDS, cwd=cls.folder, check=True,
                              env={**os.environ, "HOME": str(cls.folder)})
        return done.stdout

    def test_a_packet_is_found_by_number(self):
        self.assertEqual(self.looked, (0, "", ""))
        page = Reader(self.browse(self.out, "--dump-dom", fragment="#packet=7").decode())
        self.assertEqual(page.texts["found"].splitlines()[0].rpartition(": ")[2], "packet 7, leaf voice")
        self.assertEqual(page.texts["found"].splitlines()[1:], [
            "arrived at event 10, ranks 0/0", "departed at event 12, ranks 0/0",
            "timestamp 120 ns after the first, 50 bytes", "start 200 ns, delay 80 ns"])
        self.assertEqual(row_of(page, "web")[:4], ["web", "6", "4", "2"])

    def test_ranks_are_shown_on_hover(self):
        hovered = runs.write(self.folder, "hover.html", self.out.read_text().replace("</body>", HOVER))
        found = re.search(r'data-hover="([^"]*)"', self.browse(hovered, "--dump-dom").decode()).group(1).splitlines()
        self.assertEqual(found[1:], ["arrived at event 3, ranks 0/0", "departed at event 5, ranks 0/0",
                                     "timestamp 0 ns after the first, 50 bytes", "start 0 ns, delay 0 ns"])

    def test_a_packet_that_is_not_there(self):
        page = Reader(self.browse(self.out, "--dump-dom", fragment="#packet=11").decode())
        self.assertIn("there is no packet 11; the packets are 1 to 10", page.texts["found"])

    def test_a_screenshot(self):
        from matplotlib import image
        shot = self.folder / "shot.png"
        self.browse(self.out, "--window-size=1200,1600", "--screenshot=%s" % shot)
        self.assertEqual(struct.unpack(">II", shot.read_bytes()[16:24]), (1200, 1600))
        colours = {tuple(shade) for row in (image.imread(shot)[..., :3] * 255).round().astype(int) for shade in row}
        self.assertLessEqual({(0x00, 0x72, 0xB2), (0xE6, 0x9F, 0x00), (255, 255, 255)}, colours)


if __name__ == "__main__":
    unittest.main()
