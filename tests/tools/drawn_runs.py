"""Runs that are drawn at random, each from a seed and its number alone, and compared with what plain Python makes of them: for
tests/tools/conditions and tests/tools/limits."""
import argparse
import concurrent.futures
import os
import pathlib
import shlex
import shutil
import tempfile

import built

SHOWN = 10  # answers


class Drawn:
    """A run: `files` are the contents of its files by name, and `answers` yields arguments, a view of the output or None, and the
    output and status that they have to give."""

    def write(self, folder):
        for name, data in self.files.items():
            pathlib.Path(folder, name).write_bytes(data if isinstance(data, bytes) else data.encode())

    def differences(self, program, folder):
        """What the program answers otherwise, and how many answers there are."""
        found, count = [], 0
        for words, view, wanted in self.answers():
            status, text = built.runner.run_program([word.encode() for word in [str(program), "--plain", *words]], folder)
            text, count = text.decode("latin-1"), count + 1
            got = (view(text) if view and status == 0 else text), status
            if got != wanted:
                found.append("%s\n  printed %r\n  wanted  %r" % (shlex.join(words), got, wanted))
        return found, count


def tried(tool, run, program, number, is_kept):
    """What is wrong with the answers of a run, and how many there are."""
    folder = tempfile.mkdtemp(prefix=tool + "-")
    try:
        run.write(folder)
        found, count = run.differences(program, folder)
        return ["run %d: %s" % (number, one) for one in found], count
    finally:
        if is_kept:
            print("%s: the files of run %d are in %s" % (tool, number, folder))
        else:
            shutil.rmtree(folder, ignore_errors=True)


def main(tool, about, draw):
    """Makes the runs that the command line asks for; `draw` makes one of a seed and a number."""
    parser = argparse.ArgumentParser(description=about, formatter_class=argparse.RawDescriptionHelpFormatter)
    parser.add_argument("--front")
    parser.add_argument("--runs", type=int, default=200)
    parser.add_argument("--seed", type=int, default=1)
    parser.add_argument("--only", type=int)
    given = parser.parse_args()
    program = built.program(tool, given.front, front=True)
    numbers = range(1, given.runs + 1) if given.only is None else [given.only]
    faults = answers = 0
    with concurrent.futures.ThreadPoolExecutor(max(1, os.cpu_count() or 1)) as pool:
        for found, count in pool.map(lambda number: tried(tool, draw(given.seed, number), program, number, given.only is not None), numbers):
            answers += count
            for fault in found:
                faults += 1
                if faults <= SHOWN:
                    print(fault)
    print("%s: %d runs of seed %d, %d answers, %d that differ" % (tool, len(numbers), given.seed, answers, faults))
    return 1 if faults else 0
