"""The public calls in the sources against docs/calls.txt, and against tools/failures.txt, which has the calls that can fail."""
import pathlib
import re
import subprocess
import sys
import tempfile
import unittest

TOP = pathlib.Path(__file__).resolve().parent.parent.parent
sys.path.insert(0, str(TOP / "tools"))

import public_calls  # noqa: E402

FAILURES = TOP / "tools/failures.txt"
SOURCE = """\
/// Opens a thing. It is
/// shut by `close`.
#[inline]
pub fn open<'a>(
    name: &'a str,
    sizes: [u8; 4],
) -> Result<Thing<'a>, Fault>
    requires lent { IsLent name }
    ensures ok { OnOk result (λ thing. record {
        name = name;
    }) }
    // Not a clause: ensures never { }
    ensures { Second }
{
    inner(name)
}

fn inner() -> Option<u8>
    ensures hidden { Hidden }
{
    None
}

/// Nothing is open at first.
pub fn nothing_is_open()
    ensures { NothingIsOpen }
{}

impl<'a> Thing<'a> {
    /// Whether it is shut.
    pub fn is_shut(&self) -> bool {
        self.shut
    }

    fn hidden(&self) {}
}

impl Hidden {
    pub fn size(&self) -> u8 { 1 }
}

pub trait Door: Drop {
    /// Shuts it.
    fn close(&mut self) -> Option<u8>
        requires { IsOpen }
        requires { IsFree };
}
"""


def rows():
    """The lines of the file: the crate, the calls, and what is said of them."""
    for line in FAILURES.read_text().splitlines():
        if line and not line.startswith("#"):
            crate, calls, said = line.split(" | ")[:3]
            yield crate, set(calls.split(", ")), said


def named():
    """The calls that the file names, by crate."""
    calls = {}
    for crate, names, _ in rows():
        calls.setdefault(crate, set()).update(names)
    return calls


def crates():
    """The crates whose calls are listed, which are all but those of tests."""
    return [crate for _, found in public_calls.rooms() for crate in found if not crate.endswith("_tests")]


def names_in(crate):
    """The names of a crate's public calls, laws and clauses."""
    names = {name for call in public_calls.calls(crate) for name in (*call.name.split("::"), *(c for _, c in call.clauses if c))}
    return names


def list_calls(*words):
    return subprocess.run([TOP / "tools/list_calls", *words], stdout=subprocess.PIPE, text=True)


class Parser(unittest.TestCase):
    """The calls of a source of a few lines."""

    def setUp(self):
        found = list(public_calls.calls_in(SOURCE, {"open", "nothing_is_open", "Thing", "Door"}))
        self.names, self.calls = [call.name for call in found], {call.name: call for call in found}

    def test_public_calls_are_found_and_no_others(self):
        self.assertEqual(["open", "nothing_is_open", "Thing::is_shut", "Door::close"], self.names)

    def test_laws_have_an_empty_body_and_a_contract(self):
        self.assertEqual(["nothing_is_open"], [name for name in self.names if self.calls[name].is_law])

    def test_sentences(self):
        self.assertEqual("Opens a thing.", self.calls["open"].sentence)
        self.assertEqual("Shuts it.", self.calls["Door::close"].sentence)

    def test_clauses(self):
        self.assertEqual((["lent"], ["ok"]), tuple(map(self.calls["open"].named, ("requires", "ensures"))))
        self.assertEqual((0, 1), tuple(map(self.calls["open"].unnamed, ("requires", "ensures"))))
        self.assertEqual((2, 0), tuple(map(self.calls["Door::close"].unnamed, ("requires", "ensures"))))
        self.assertEqual([], self.calls["Thing::is_shut"].clauses)

    def test_results(self):
        self.assertEqual("Result<Thing<'a>, Fault>", self.calls["open"].result)
        self.assertEqual("bool", self.calls["Thing::is_shut"].result)
        self.assertEqual(["open", "Door::close"], [name for name in self.names if self.calls[name].can_fail()])


class Sources(unittest.TestCase):
    def test_calls_of_functions_types_and_traits_are_found(self):
        for crate, name in (("outside_core", "load"), ("report_core", "Report::finish"), ("sched_core", "Scheduler::arrive"),
                            ("tap_core", "Watching::lines"), ("tree_defs", "nothing_leaves_an_empty_queue")):
            self.assertIn(name, [call.name for call in public_calls.calls(crate)])
        self.assertNotIn("Buffer::flush", [call.name for call in public_calls.calls("report_core")])
        self.assertEqual([], [call.name for call in public_calls.calls("tree_defs") if not call.is_law])


class Pages(unittest.TestCase):
    def test_the_list_is_current(self):
        done = list_calls("--check")
        self.assertEqual((0, ""), (done.returncode, done.stdout))

    def test_what_holds_after_an_error_is_in_the_list(self):
        text = (TOP / "docs/calls.txt").read_text()
        found = re.search(r"^List::push -> .*\n(?:    .*\n)*", text, re.MULTILINE)[0]
        self.assertIn("    on failure: items unchanged (`err`); the new item is dropped\n    succeeds in: suite `rows`\n", found)
        self.assertEqual(text.count("    on failure: "), sum(len(calls) for _, calls, _ in rows()))

    def test_a_list_that_is_not_current_is_rejected(self):
        with tempfile.TemporaryDirectory() as folder:
            page = pathlib.Path(folder, "page.md")
            self.assertEqual(1, list_calls("--check", "--page", page).returncode)
            self.assertEqual(0, list_calls("--page", page).returncode)
            self.assertEqual(0, list_calls("--check", "--page", page).returncode)
            page.write_text(page.read_text().replace("too_long, ", "", 1))
            self.assertEqual(1, list_calls("--check", "--page", page).returncode)

    def test_each_call_that_can_fail_is_in_the_file(self):
        known = named()
        missing = [crate + ": " + call.name for crate in crates() for call in public_calls.calls(crate)
                   if call.can_fail() and call.name not in known.get(crate, ())]
        self.assertEqual([], missing)

    def test_the_page_names_calls_and_clauses_of_its_crates(self):
        rows_of_crates = re.findall(r"^\| (\w+) \|.*\| ([^|]*) \|$", (TOP / "docs/PROOFS.md").read_text(), re.MULTILINE)
        found = [(crate, name) for crate, cell in rows_of_crates if crate in crates()
                 for name in re.findall(r"\w+", " ".join(re.findall(r"`([^`]+)`", cell)))]
        strange = [crate + ": " + name for crate, name in found if name not in names_in(crate)]
        self.assertEqual([], strange)
        self.assertGreater(len(found), 40)

    def test_the_file_names_public_calls(self):
        known = {crate: {call.name for call in public_calls.calls(crate)} for crate in crates()}
        strange = [crate + ": " + name for crate, names in named().items() for name in names - known.get(crate, set())]
        self.assertEqual([], strange)

    def test_the_file_names_clauses_of_its_calls(self):
        strange = []
        for crate, names, said in rows():
            known = {clause for call in public_calls.calls(crate) if call.name in names for _, clause in call.clauses}
            words = set(re.findall(r"(?<!as for )`([a-z]\w*)`", said)) - {name.split("::")[-1] for name in names}
            strange += ["%s: %s has no clause %s" % (crate, sorted(names)[0], word) for word in words - known]
        self.assertEqual([], strange)


if __name__ == "__main__":
    unittest.main()
