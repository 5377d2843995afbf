"""How far long work is, said at a terminal alone."""
import os
import sys
import time

from zovatsemo_look.texts import shown

EVERY = 0.5  # seconds


class Progress:
    """Says on standard error how far the work is, where standard error is a terminal."""

    def __init__(self, name, stream=None):
        self.name = shown(name)
        self.is_shown = sys.stderr is not None and sys.stderr.isatty()
        self.size = size_of(stream) if self.is_shown and stream else 0
        self.is_begun = False
        self.next = time.monotonic() + EVERY

    def at(self, stream):
        """Says how far the stream is, at most twice a second."""
        if self.is_shown and time.monotonic() >= self.next:
            self.next = time.monotonic() + EVERY
            self.tell("%3d %%" % (100 * stream.tell() // self.size) if self.size else "reading")

    def tell(self, what):
        """Says what is done just now."""
        if self.is_shown:
            self.is_begun = True
            sys.stderr.write("\r\x1b[Klook: %s: %s" % (self.name, what))
            sys.stderr.flush()

    def end(self):
        """Takes the line away."""
        if self.is_begun:
            sys.stderr.write("\r\x1b[K")
            sys.stderr.flush()


def size_of(stream):
    """How many bytes a file has; 0 where it is no file with a size."""
    try:
        return os.fstat(stream.fileno()).st_size
    except OSError:
        return 0
