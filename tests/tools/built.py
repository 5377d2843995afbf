"""The built programs, found and run as tests/tools/conformance does, for the other scripts of this folder."""
import importlib.machinery
import importlib.util
import pathlib
import sys

sys.dont_write_bytecode = True

HERE = pathlib.Path(__file__).resolve().parent
EXAMPLES = HERE.parent.parent / "examples"


def conformance():
    """The script conformance as a module."""
    loader = importlib.machinery.SourceFileLoader("conformance", str(HERE / "conformance"))
    module = importlib.util.module_from_spec(importlib.util.spec_from_loader("conformance", loader))
    loader.exec_module(module)
    return module


runner = conformance()


def program(name, given, suite="", front=False):
    """The path of the program of a suite, or of the one for people; without it the script of this name ends with status 3."""
    path = runner.program_for(suite, given, front)
    if path is None:
        print("%s: no program; looked for %s" % (name, ", ".join(runner.programs(suite, given, front))))
        sys.exit(3)
    return path


def tell_how_far(text):
    """Shows a line in place of the last such line, at a terminal only."""
    if sys.stdout.isatty():
        print("\r" + text.ljust(60) + ("" if text else "\r"), end="", flush=True)
