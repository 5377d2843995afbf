"""The inputs of tests/tools/growth, what it judges, and a run of it over a program that stands in for the built ones."""
import importlib.machinery
import importlib.util
import pathlib
import subprocess
import tempfile
import unittest

GROWTH = pathlib.Path(__file__).resolve().parent / "growth"


def loaded():
    """tests/tools/growth as a module."""
    loader = importlib.machinery.SourceFileLoader("growth", str(GROWTH))
    module = importlib.util.module_from_spec(importlib.util.spec_from_loader("growth", loader))
    loader.exec_module(module)
    return module


growth = loaded()


class Inputs(unittest.TestCase):
    def test_names_are_distinct_and_the_policies_are_no_larger_than_may_be(self):
        for names in (growth.random_names, growth.colliding_names):
            self.assertEqual(2000, len(set(names(2000))))
        for row in growth.rows(["one"], 64000):
            if row.words[0] == "check":
                self.assertLessEqual(len(row.files(row.sizes[-1])["policy"]), 1 << 20)

    def test_colliding_names_have_32_bytes_and_share_24(self):
        names = growth.colliding_names(2000)
        self.assertEqual({32}, {len(name) for name in names})
        self.assertEqual({"nWaAGLNY56nh2Hq25z4POimz"}, {name[:24] for name in names})

    def test_a_capture_has_a_packet_of_each_source(self):
        for sources in (growth.random_sources, growth.colliding_sources, growth.other_colliding_sources):
            found = sources(2000)
            content = growth.capture_of(found)
            self.assertEqual(24 + 2000 * (16 + 62), len(content))
            first = 24 + 16 + 14 + 8
            self.assertEqual(found[0], int.from_bytes(content[first:first + 16], "big"))
            self.assertEqual(2000, len(set(found)))


class Judged(unittest.TestCase):
    def test_the_largest_ratio_leaves_out_times_that_say_nothing(self):
        self.assertEqual(2.5, growth.largest_ratio([1, 9, 20, 40, 100]))
        self.assertIsNone(growth.largest_ratio([1, 9, 20]))

    def test_a_row_that_ends_early_has_empty_cells(self):
        row = growth.Row("row", "one", None, [], [2000])
        self.assertEqual("| row | 3 |  |  |", growth.line(row, [3.0], [2000, 4000], None))

    def test_a_run_of_all_rows(self):
        with tempfile.TemporaryDirectory() as folder:
            program = pathlib.Path(folder) / "program"
            program.write_text("#!/bin/sh\n[ -r \"$2\" ]\n")
            program.chmod(0o755)
            done = subprocess.run([str(GROWTH), "--program", str(program), "--block", str(program), "--most", "2000", "--runs", "1"],
                                  stdout=subprocess.PIPE, check=True)
            self.assertEqual(2 + 16, len(done.stdout.splitlines()))


if __name__ == "__main__":
    unittest.main()
