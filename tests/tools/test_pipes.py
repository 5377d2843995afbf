"""Captures that come through a pipe: the built programs give the same answer as for the file, however the bytes arrive."""
import array
import fcntl
import os
import pathlib
import struct
import subprocess
import sys
import tempfile
import termios
import unittest

import built

sys.path.insert(0, str(pathlib.Path(__file__).resolve().parent.parent.parent / "tools"))
from pcapng_blocks import block, enhanced, interface, section, simple, unit  # noqa: E402

EXAMPLE = built.EXAMPLES / "office"
FILES = {name: str(EXAMPLE / name) for name in ("policy", "target", "script")}
SHARED = ["direct {policy} {capture} {script}", "replay {policy} {target} {capture} {script} tap bytes", "link {policy} {target} {capture} 1000000000"]
FIRST = [*SHARED, "forward {policy} {target} {capture} 1000000000"]
# The programs, each by a suite and whether it is the one for people, and their commands.
COMMANDS = {("", False): FIRST, ("block", False): SHARED, ("", True): FIRST}
WINDOW = 65536  # bytes that a reader holds at most
MICROSECONDS = 0xA1B2C3D4
ETHERNET = 1
SECTION_LEN, HEADER_LEN = 28, 24
FRAME = bytes(12) + b"\x08\x00" + bytes.fromhex("450000640000400040110000") + bytes([10, 0, 0, 1, 10, 0, 0, 2]) + struct.pack(">HHHH", 4000, 53, 80, 0)


def classic(count, held=FRAME):
    """A classic capture of this many packets, a millisecond apart."""
    header = struct.pack("<IHHIIII", MICROSECONDS, 2, 4, 0, 0, 262144, ETHERNET)
    return header + b"".join(struct.pack("<IIII", 1, 1000 * n, len(held), 114) + held for n in range(count))


def blocks(count, held=FRAME, order="<"):
    """One section of a pcapng capture with the same packets, the last of them as a simple packet."""
    packets = [enhanced(10**6 + 1000 * n, held, 114, order=order) for n in range(count - 1)] + [simple(len(held), held, order)]
    return section(order=order) + interface(ETHERNET, unit(6, order), order=order) + block(9, b"", order) + b"".join(packets)


TWO_SECTIONS = blocks(3) + blocks(2, order=">")
SMALL = {
    "classic": classic(5),
    "pcapng": blocks(5),
    "two sections": TWO_SECTIONS,
    "no packets": classic(0),
    "a section alone": section(),
    "empty": b"",
    "no capture": bytes(30),
    "the magic of pcapng alone": section()[:4] + bytes(26),
    "another byte after three": section()[:3] + bytes(27),
    "a classic record cut": classic(2)[:-3],
    "a block of the second section cut": TWO_SECTIONS[:-3],
}
CUTS = {"the first %d bytes of %s" % (length, name): SMALL[name][:length]
        for name in ("classic", "pcapng") for length in (1, 3, 4, 5, HEADER_LEN - 1, HEADER_LEN, SECTION_LEN - 1, SECTION_LEN)}
LARGE = {
    "a long classic": classic(2 * WINDOW // 100),
    "a long pcapng": blocks(2 * WINDOW // 100),
    "a second section behind a window": blocks(WINDOW // 60) + blocks(2),
    "a long packet first": blocks(2, bytes(3 * WINDOW)) + blocks(2),
}


def unread(pipe):
    """How many bytes a pipe holds."""
    count = array.array("i", [0])
    fcntl.ioctl(pipe, termios.FIONREAD, count)
    return count[0]


def feed(process, pipe, into, content, piece):
    """Writes a content piece by piece; each waits until the program has read the one before."""
    for start in range(0, len(content), piece):
        while unread(pipe):
            if process.poll() is not None:
                return
        os.write(into, content[start:start + piece])


class Pipes(unittest.TestCase):
    def setUp(self):
        folder = tempfile.TemporaryDirectory(prefix="pipes-")
        self.addCleanup(folder.cleanup)
        self.folder = pathlib.Path(folder.name)

    def each(self):
        """Each command of each program, without its capture."""
        for (suite, front), commands in COMMANDS.items():
            program = built.runner.program_for(suite, None, front)
            self.assertIsNotNone(program, "no program; looked for %s" % built.runner.programs(suite, None, front))
            for command in commands:
                yield [str(program), *command.split()]

    def from_file(self, words, content):
        """The status and the output of a run that reads the capture from a file."""
        path = self.folder / "capture"
        path.write_bytes(content)
        done = subprocess.run([word.format(capture=path, **FILES) for word in words], stdin=subprocess.DEVNULL, stdout=subprocess.PIPE,
                              stderr=subprocess.DEVNULL, timeout=60, check=False)
        return done.returncode, done.stdout

    def from_pipe(self, words, content, piece):
        """The same of a run that reads it from standard input, in pieces of this many bytes."""
        pipe, into = os.pipe()
        try:
            with open(self.folder / "out", "w+b") as out:
                process = subprocess.Popen([word.format(capture="/dev/stdin", **FILES) for word in words], stdin=pipe, stdout=out,
                                           stderr=subprocess.DEVNULL)
                try:
                    feed(process, pipe, into, content, piece)
                finally:
                    os.close(into)
                    into = None
                status = process.wait(60)
                out.seek(0)
                return status, out.read()
        finally:
            os.close(pipe)
            if into is not None:
                os.close(into)

    def compare(self, captures, pieces):
        for words in self.each():
            for name, content in captures.items():
                wanted = self.from_file(words, content)
                for piece in pieces:
                    with self.subTest(program=pathlib.Path(words[0]).name, words=words[1:], capture=name, piece=piece):
                        self.assertEqual(wanted, self.from_pipe(words, content, piece))

    def test_whole_captures_are_replayed(self):
        for words in self.each():
            for name in ("classic", "pcapng", "two sections"):
                status, written = self.from_pipe(words, SMALL[name], 1)
                self.assertEqual((0, True), (status, len(written) > 0), (words, name))

    def test_small_captures_in_pieces_of_any_length(self):
        self.compare(SMALL, (1, 5, WINDOW))

    def test_captures_cut_in_their_beginning(self):
        self.compare(CUTS, (1,))

    def test_captures_longer_than_a_window(self):
        self.compare(LARGE, (4096,))


if __name__ == "__main__":
    unittest.main()
