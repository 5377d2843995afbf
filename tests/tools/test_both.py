"""The comparison of tests/tools/both, over programs that stand in for the built ones, and the plain queues behind it."""
import importlib.machinery
import importlib.util
import pathlib
import tempfile
import unittest

import plain_fabric

BOTH = pathlib.Path(__file__).resolve().parent / "both"


def loaded():
    """tests/tools/both as a module."""
    loader = importlib.machinery.SourceFileLoader("both", str(BOTH))
    module = importlib.util.module_from_spec(importlib.util.spec_from_loader("both", loader))
    loader.exec_module(module)
    return module


both = loaded()

# A root over three leaves, of which a and b share a digit of the target.
PLAN = "least 2\nmap root - -\nmap a 0 0.0\nmap b 1 0.1\nmap c 2 1.0\n"
REPORT = "a 1 1 a 5/0\na 2 2 b 3/0\na 3 3 c 1/0\na 4 4 c 1/7\na 5 5 c 1/6\nd 6 3 c 1/0\ne 7\nend\n"


def difference(first, second, words=("replay", "p", "t", "c", "e")):
    """What is told of two programs of a shell's lines; the first writes PLAN for `plan`."""
    with tempfile.TemporaryDirectory() as folder:
        programs = []
        for name, body in (("first", first), ("second", second)):
            path = pathlib.Path(folder) / name
            path.write_text("#!/bin/sh\n[ \"$1\" = plan ] && printf '%s' && exit\n%s" % (PLAN.replace("\n", "\\n"), body))
            path.chmod(0o755)
            programs.append(path)
        return both.Programs(*programs).difference(both.Case("case", list(words), {}))


def writes(text, status=0):
    return "printf '%s'\nexit %d\n" % (text.replace("\n", "\\n"), status)


class PlainFabric(unittest.TestCase):
    def test_spills_are_pushes_below_a_greater_rank_of_their_flow(self):
        # a and b share a digit at the root, and none below it
        self.assertEqual(1, plain_fabric.spills(PLAN, "a 1 1 a 5/0\na 2 2 b 3/0\n"))
        self.assertEqual(1, plain_fabric.spills(PLAN, "a 1 1 c 1/7\na 2 2 c 1/6\n"))
        self.assertEqual(0, plain_fabric.spills(PLAN, "a 1 1 c 5/0\na 2 2 a 3/0\na 3 3 b 3/0\n"))

    def test_what_was_popped_spills_nothing(self):
        self.assertEqual(0, plain_fabric.spills(PLAN, "a 1 1 a 5/0\nd 2 1 a 5/0\na 3 2 b 3/0\n"))

    def test_another_packet_that_leaves_is_seen(self):
        for report in ("a 1 1 a 5/0\na 2 2 b 3/0\nd 3 1 a 5/0\n", "d 1 1 a 5/0\n"):
            with self.assertRaises(plain_fabric.Differs):
                plain_fabric.spills(PLAN, report)


class Both(unittest.TestCase):
    def test_equal_answers_with_the_spills_behind_a_whole_run(self):
        self.assertEqual((None, 2), difference(writes(REPORT), writes(REPORT + "spills 2\n")))
        self.assertEqual((None, 0), difference(writes("fault policy 9 0\n", 3), writes("fault policy 9 0\n", 3)))
        self.assertEqual((None, 0), difference(writes("policy 1\n"), writes("policy 1\n"), ["check", "p"]))

    def test_answers_that_differ(self):
        for second in (writes(REPORT), writes(REPORT + "spills 3\n"), writes(REPORT + "spills 2"), writes(REPORT + "spills 2\n", 1),
                       writes("a 1 1 a 5/1\n" + REPORT + "spills 2\n")):
            self.assertIsNotNone(difference(writes(REPORT), second)[0], second)
        fault = writes("fault policy 9 0\n", 3)
        for second in (writes("fault policy 9 0\nspills 0\n", 3), writes("fault policy 8 0\n", 3), writes("fault policy 9 0\n", 4)):
            self.assertIsNotNone(difference(fault, second)[0], second)

    def test_each_built_in_transaction_is_tried_at_inner_nodes_and_leaves(self):
        cases = list(both.made())
        self.assertEqual(len({case.name + case.words[0] for case in cases}), len(cases))
        for inner in both.BUILT_IN:
            for leaf in both.BUILT_IN:
                self.assertTrue(any(case.name.startswith("%s over %s in 2 " % (inner, leaf)) for case in cases))
