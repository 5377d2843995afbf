"""Policies as ones of version 3: what `check --upgrade` prints for each policy that is accepted in some suites."""
import json
import re
import subprocess
import unittest

import built

SUITES = ("check_grammar", "check_policies", "front_texts", "front_conditions", "front_settings")
RESERVED = ("flow", "packets", "bytes", "per", "by", "tcpflags", "pcp", "ethertype", "any")  # by version 3 alone
OFFICE = (built.EXAMPLES / "office" / "policy").read_text(encoding="ascii")


def accepted():
    """The canonical texts that the suites expect."""
    for suite in SUITES:
        for line in (built.runner.CASES / (suite + ".jsonl")).read_text(encoding="ascii").splitlines():
            case = json.loads(line)
            if case["words"][0] == "check" and case["status"] == 0:
                yield built.runner.content(case["stdout"]).decode("ascii")


def upgraded(text):
    """A canonical text as one of version 3, or none if version 3 reserves a name of it."""
    first, rest = text.split("\n", 1)
    if first != "policy 3" and set(RESERVED) & set(re.findall(r"\w+", rest)):
        return None
    return "policy 3\n" + rest


class Upgrade(unittest.TestCase):
    @classmethod
    def setUpClass(cls):
        cls.program = built.program("test_upgrade", None, front=True)

    def run_on(self, text, *options):
        return subprocess.run([self.program, "check", *options, "-"], input=text, capture_output=True, encoding="ascii", timeout=60, check=False)

    def test_accepted_policies(self):
        texts = [*accepted(), OFFICE]
        self.assertGreater(len(texts), 60)
        for text in texts:
            with self.subTest(text):
                wanted = upgraded(self.run_on(text).stdout)
                got = self.run_on(text, "--upgrade")
                self.assertEqual((got.returncode, got.stdout), (3, "") if wanted is None else (0, wanted))
                if wanted is not None:
                    self.assertEqual(self.run_on(wanted).stdout, wanted)

    def test_line_of_a_reserved_name(self):
        for word in RESERVED:
            text = "\n# a\npolicy 1\n\nclass %s # b\nclass all\nleaf root using fifo classes %s all\n" % (word, word)
            self.assertEqual(self.run_on(text, "--upgrade", "--plain").stdout, "fault policy 23 5\n")


if __name__ == "__main__":
    unittest.main()
