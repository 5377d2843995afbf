"""Messages of the program for people at a terminal: their colours, and none where nobody looks or NO_COLOR is set."""
import os
import pty
import subprocess
import unittest

import built

CARET = "\n\x1b[1;32m  ^\x1b[0m\n"


def seen_at(terminal):
    """What a program wrote to a terminal, once it ended."""
    parts = []
    while True:
        try:
            part = os.read(terminal, 4096)
        except OSError:  # the other side is closed
            break
        if not part:
            break
        parts.append(part)
    os.close(terminal)
    return b"".join(parts).decode().replace("\r\n", "\n")


class Colours(unittest.TestCase):
    """`check` on a policy without its first line."""

    def setUp(self):
        self.program = built.program("test_colours", None, front=True)

    def started(self, words, **how):
        environment = {name: value for name, value in os.environ.items() if name != "NO_COLOR"}
        environment.update(how.pop("more", {}))
        return subprocess.Popen([str(self.program), *words], stdin=subprocess.PIPE, stdout=subprocess.PIPE, env=environment, **how)

    def at_terminal(self, *words, **more):
        """The message at a terminal."""
        terminal, side = pty.openpty()
        process = self.started(words, stderr=side, more=more)
        os.close(side)
        process.communicate(b"class all\n")
        return seen_at(terminal)

    def without_colours(self, text):
        for mark in ("\x1b[1;31m", "\x1b[1;32m", "\x1b[0m"):
            text = text.replace(mark, "")
        return text

    def to_pipe(self, *words):
        """The message where it isn't at a terminal."""
        process = self.started(words, stderr=subprocess.PIPE)
        return process.communicate(b"class all\n")[1].decode()

    def test_errors_are_red_at_a_terminal(self):
        for words in (["chekc"], ["check", "-"], ["check", "nowhere"], ["check", "-", "-o", "/dev/null"]):
            with self.subTest(words):
                plain, coloured = self.to_pipe(*words), self.at_terminal(*words)
                self.assertNotIn("\x1b", plain)
                self.assertEqual(coloured.count("\x1b[1;31merror:\x1b[0m"), 1, coloured)
                self.assertEqual(self.without_colours(coloured), plain)

    def test_the_caret_is_green(self):
        path = built.EXAMPLES / "office/target"
        plain, coloured = self.to_pipe("check", str(path)), self.at_terminal("check", str(path))
        self.assertIn("\n  ^\n", plain)
        self.assertIn(CARET, coloured)
        self.assertEqual(self.without_colours(coloured), plain)

    def test_none_with_no_color(self):
        for value in ("1", ""):
            self.assertEqual(self.at_terminal("check", "-", NO_COLOR=value), self.to_pipe("check", "-"))


if __name__ == "__main__":
    unittest.main()
