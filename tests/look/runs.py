"""What the tests share: the command, the run of a link that was worked out by hand, and where things are."""
import contextlib
import decimal
import io
import pathlib
import sys
import tempfile
import unittest

import dpkt

TOP = pathlib.Path(__file__).resolve().parent.parent.parent
OFFICE = TOP / "examples/office"
sys.path.insert(0, str(TOP / "tools"))
sys.dont_write_bytecode = True

from zovatsemo_look import command, compare as comparing  # noqa: E402  (their folder is named just above)

# Two leaves under strict priority, voice before web; web has room for two packets, and the link sends a byte a
# nanosecond. Packets 1 to 4 arrive at 0, 5 and 6 at 50, 7 and 8 at 120, 9 and 10 at 1000.
LINK_MOMENTS = (0, 0, 0, 0, 50, 50, 120, 120, 1000, 1000)
LINK_LENGTHS = (100, 100, 50, 100, 50, 100, 50, 100, 40, 50)
LINK_REPORT = """a 1 1 web 1/0
a 2 2 web 1/0
a 3 3 voice 0/0
x 4 4 web
d 5 3 voice 0/0 0
a 6 5 voice 0/0
x 7 6 web
d 8 5 voice 0/0 50
d 9 1 web 1/0 100
a 10 7 voice 0/0
a 11 8 web 1/0
d 12 7 voice 0/0 200
d 13 2 web 1/0 250
d 14 8 web 1/0 350
a 15 9 web 1/0
a 16 10 voice 0/0
d 17 10 voice 0/0 1000
d 18 9 web 1/0 1050
end pushed 8 popped 8 empty 0 held 0 unsent 0 dropped 2
"""


def run(main, words):
    """The status of a command for some arguments, what it writes, and its errors."""
    out, errors = io.StringIO(), io.StringIO()
    with contextlib.redirect_stdout(out), contextlib.redirect_stderr(errors):
        try:
            status = main([str(word) for word in words])
        except SystemExit as ending:
            status = ending.code
    return status, out.getvalue(), errors.getvalue()


def look(*words):
    """The status of tools/look, what it writes, and its errors."""
    return run(command.main, words)


def compare(*words):
    """The status of tools/compare, what it writes, and its errors."""
    return run(comparing.main, words)


def write(folder, name, text):
    """A file with a text."""
    path = pathlib.Path(folder) / name
    path.write_text(text)
    return path


def write_link_run(folder):
    """The report and the capture of the run of a link; dpkt writes the capture."""
    capture = pathlib.Path(folder) / "capture"
    with open(capture, "wb") as stream:
        writer = dpkt.pcap.Writer(stream, nano=True)
        for moment, length in zip(LINK_MOMENTS, LINK_LENGTHS):
            writer.writepkt(bytes(length), decimal.Decimal(moment) / 10 ** 9)
    return write(folder, "report", LINK_REPORT), capture


class Case(unittest.TestCase):
    """Tests that have a folder of their own, in which the run of a link is."""

    def setUp(self):
        folder = tempfile.TemporaryDirectory()
        self.addCleanup(folder.cleanup)
        self.folder = pathlib.Path(folder.name)
        self.report, self.capture = write_link_run(folder.name)

    def write(self, name, data):
        """A file with bytes or a text."""
        path = self.folder / name
        path.write_bytes(data if isinstance(data, bytes) else data.encode())
        return path
