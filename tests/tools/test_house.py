"""tests/tools/house passes this checkout, and names each limit that a made one passes."""
import importlib.machinery
import importlib.util
import pathlib
import subprocess
import sys
import tempfile
import unittest

HOUSE = pathlib.Path(__file__).resolve().parent / "house"
TOP = HOUSE.parents[2]


def loaded():
    """tests/tools/house as a module."""
    loader = importlib.machinery.SourceFileLoader("house", str(HOUSE))
    module = importlib.util.module_from_spec(importlib.util.spec_from_loader("house", loader))
    loader.exec_module(module)
    return module


sys.dont_write_bytecode = True
house = loaded()

WIDE = "    ensures wide { " + "x" * 90 + " }\n"


def clauses(count):
    return "".join(f"    ensures c{n} {{ x }}\n" for n in range(count))


MANY = clauses(house.LIMITS["clauses of a function"] + 1)
PARAMETERS = ", ".join(f"a{n}: Map<u8, Vec<u8>>" for n in range(house.LIMITS["parameters of a function"] + 1))
BODY = "    let a = 1;\n" * (house.LIMITS["lines of a function's body"] + 1)
WRONG = {
    "columns of a clause": f"fn one()\n{WIDE}{{\n}}\n",
    "clauses of a function": f"pub fn one()\n{MANY}{{\n}}\n",
    "parameters of a function": f"fn one({PARAMETERS}) {{\n}}\n",
    "lines of a function's body": f"fn one() {{\n{BODY}}}\n",
    "lines of a file": "// a\n" * (house.LIMITS["lines of a file"] + 1),
}


def made(folder, source, crates="low:\nhigh: low\n", crate="low"):
    """A checkout of two crates, one of them with this source."""
    top = pathlib.Path(folder)
    (top / "crates.txt").write_text(crates)
    (top / f"crates/{crate}/src").mkdir(parents=True)
    (top / f"crates/{crate}/src/lib.rt").write_text(source)
    return top


class House(unittest.TestCase):
    def test_this_checkout_is_within_the_limits(self):
        done = subprocess.run([HOUSE, TOP], capture_output=True, text=True)
        self.assertEqual(0, done.returncode, done.stdout)

    def test_each_limit_is_named_where_it_is_passed(self):
        for limit, source in WRONG.items():
            with self.subTest(limit), tempfile.TemporaryDirectory() as folder:
                over = {name for _, count, name in house.passed(made(folder, source)) if count > house.LIMITS[name]}
                self.assertEqual({limit}, over)

    def test_functions_with_many_clauses_have_limits_of_their_own(self):
        for (crate, name), most in house.MANY_CLAUSES.items():
            for count in (most, most + 1):
                with self.subTest(name, count=count), tempfile.TemporaryDirectory() as folder:
                    top = made(folder, f"pub fn {name}()\n{clauses(count)}{{\n}}\n", crate=crate)
                    over = {limit for _, found, limit in house.passed(top) if found > house.LIMITS[limit]}
                    self.assertEqual({"clauses of a function"} if count > most else set(), over)

    def test_functions_of_the_walk_have_a_limit_of_their_own(self):
        most = house.LIMITS["clauses of a function of the walk"]
        declared = "pub trait Shelf {\n    fn one(&self)\n%s    {\n    }\n}\n"
        kept = "impl Shelf for Box {\n    fn one(&self) {\n    }\n}\n"
        sources = {"lib::one": "fn one()\n%s{\n}\n", "BoxShelf::one": declared + kept}
        for walked, source in sources.items():
            for name in (walked, "other::two"):
                for count in (most, most + 1):
                    with self.subTest(walked, name=name, count=count), tempfile.TemporaryDirectory() as folder:
                        top = made(folder, source % clauses(count))
                        (top / "docs").mkdir()
                        (top / "docs/walk.txt").write_text(f"lib::two  high/src/lib.rt\n  {name}  low/src/lib.rt\n")
                        over = {limit for _, found, limit in house.passed(top) if found > house.LIMITS[limit]}
                        is_over = name == walked and count > most
                        self.assertEqual({"clauses of a function of the walk"} if is_over else set(), over)

    def test_crates_and_chains_are_counted(self):
        names = [f"c{n}" for n in range(house.LIMITS["crates in a chain"] + 1)]
        lines = "".join(f"{name}: {low}\n" for name, low in zip(names, ["", *names]))
        with tempfile.TemporaryDirectory() as folder:
            over = {name for _, count, name in house.passed(made(folder, "", lines)) if count > house.LIMITS[name]}
            self.assertEqual({"crates in a chain"}, over)

    def test_self_is_no_parameter_and_a_comma_in_a_type_divides_none(self):
        self.assertEqual(2, house.parameters("fn f(&mut self, a: Map<u8, (u8, u8)>, b: &[u8],) -> u8"))


if __name__ == "__main__":
    unittest.main()
