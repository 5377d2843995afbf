"""Runs the program, and says what it rejected."""
import os
import pathlib
import stat
import subprocess
import tempfile

from zovatsemo_look import measures, sources
from zovatsemo_look.guard import LookError
from zovatsemo_look.texts import shown

TOP = pathlib.Path(__file__).resolve().parent.parent.parent
LAUNCHER = TOP / "zovatsemo"
CAUSES = {1: "there is no program to run; ./zovatsemo --version says why", 8: "a file can't be read",
          9: "its output can't be written", 10: "out of memory", 16: "a file's name isn't text"}
NO_MEANING = ("Status", "Code", "Text that breaks it", "Line written", "Record", "Block")


def check_file(name):
    """Rejects what can't be read, and what can be read only once."""
    if not stat.S_ISREG(os.stat(name).st_mode):
        raise LookError("%s: it isn't a regular file, and it is read more than once" % shown(name))
    with open(name, "rb"):
        pass
    try:
        os.fsencode(name).decode("utf-8")
    except UnicodeDecodeError:
        raise LookError("%s: the name isn't text in UTF-8, and the program takes no other" % shown(name))


def meaning_of(kind, code):
    """The first thing that `--explain` says of an error; None if it says nothing."""
    done = subprocess.run([str(LAUNCHER), "--explain", kind, code], stdout=subprocess.PIPE, stderr=subprocess.DEVNULL,
                          stdin=subprocess.DEVNULL)
    for line in done.stdout.decode("utf-8", "replace").splitlines()[1:]:
        head, _, said = line.strip().partition(": ")
        if head not in NO_MEANING and said:
            return said
    return None


def rejected(fault, files):
    """An error of the program in one line; `files` has the file of each kind of error."""
    kind, code, place = fault.split()[1:]
    name, said = files.get(kind), meaning_of(kind, code)
    where = {"policy": "line", "capture": "record or block"}.get(kind)
    at = ", %s %s" % (where, place) if where and place != "0" else ""
    return "%s%s%s: %s (%s)" % (shown(name) if name else "the program", at, "" if name else " ended",
                                said or "it is rejected", fault)


def run_report(words, files, ranks_kept=0, is_block=False):
    """The run that a command of the program reports. `files` has the file of each kind of error."""
    options = ["--block"] if is_block else []
    with subprocess.Popen([str(LAUNCHER), *options, "--plain", "--", *words], stdin=subprocess.DEVNULL, stdout=subprocess.PIPE,
                          stderr=subprocess.PIPE, bufsize=1 << 16) as child:
        try:
            run = sources.read_stream(child.stdout, "report", ranks_kept)
        except LookError as error:
            run = error
        while child.stdout.read(1 << 16):
            pass
        said = child.stderr.read().decode("utf-8", "replace")
    if child.returncode == 0 and not isinstance(run, LookError) and run.is_whole:
        return run
    if getattr(run, "fault", None):
        raise LookError(rejected(run.fault, files))
    cause = CAUSES.get(child.returncode) or said.strip().split("\n")[-1] or str(run)
    raise LookError("zovatsemo %s ended with status %d: %s" % (shown(words[0]), child.returncode, cause))


def link(policy, target, capture, rate, is_block=False, ranks_kept=0):
    """The run of a capture on a link."""
    files = {"policy": policy, "target": target, "size": target, "capture": capture}
    return run_report(["link", policy, target, capture, str(rate)], files, ranks_kept, is_block)


def classified(policy, capture):
    """The class of each packet of a capture by its index in the policy, as the program classifies them."""
    with tempfile.TemporaryDirectory() as folder:
        text, script = pathlib.Path(folder, "policy"), pathlib.Path(folder, "script")
        text.write_text(policy.one_leaf_a_class())
        script.write_text("rest\n")
        run = run_report(["direct", str(text), capture, str(script)], {"capture": capture})
    index_of = [int(leaf.name.rpartition("_")[2]) for leaf in run.leaves]
    return index_of, run.leaf_of


def class_numbers(policies, capture_file):
    """A function from a study and the index of a run to the numbers of that run's classes by name. The program classifies
    the packets once for each policy, and only if an assertion needs it."""
    known = {}

    def found(study, which):
        """The numbers of the classes of one run."""
        policy, run = policies[which], study.runs[which]
        if not study.capture:
            raise LookError("a class that shares its leaf needs the capture")
        if which not in known:
            known[which] = classified(policy, capture_file)
        index_of, group_of = known[which]
        names = [policy.classes[index] for index in index_of]
        groups = names, group_of, measures.counts_of(run, names, group_of)
        numbers = measures.RunNumbers(run, study.capture, study.is_time, study.rate, groups)
        return {name: numbers.of(name) for name in policy.classes}

    return found


def version_lines():
    """What the launcher says of the program that it runs."""
    done = subprocess.run([str(LAUNCHER), "--version"], stdin=subprocess.DEVNULL, stdout=subprocess.PIPE,
                          stderr=subprocess.DEVNULL)
    return done.stdout.decode("utf-8", "replace").splitlines()
