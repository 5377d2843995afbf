"""The programs that were proved and built here, and what tools/pack and tools/release refuse.

tools/keep_proved writes out/proved/: the programs, and a file BUILT that says what they were built from. A line of BUILT
is a word and what it says: `toolchain` (a line of `rt version`, and there may be several), `sources` (the sum of
`tools/sources sum`), and the name of each program (the sha256 of its bytes). In bin/ it has three more: `gate`, `commit`
and last `lines`, the sha256 of all lines above it.
"""
import hashlib
import pathlib
import re
import subprocess

TOP = pathlib.Path(__file__).resolve().parent.parent
PROVED, PACKED = TOP / "out/proved", TOP / "bin"
LIBRARY = "libc.so.6"
PASSED = re.compile(r"^(\d+ passed, 0 failed)$", re.MULTILINE)
FAILED = re.compile(r"^(?:.*\b[1-9]\d* failed\b.*|FAILED \(.*|a package of .* is missing.*)$", re.MULTILINE)
PACKED_LINE = re.compile(r"^packed: .*$\n?", re.MULTILINE)  # of the gate's last part
LAST = {"packed": re.compile(r"^packed: \d+ passed, 0 failed$", re.MULTILINE),
        "examples": re.compile(r"^examples: \d+ passed, 0 failed$", re.MULTILINE)}


class Refused(Exception):
    """Why nothing is made, in one line."""


def git(*words):
    """What git writes for some arguments; None if it fails."""
    done = subprocess.run(["git", *words], cwd=TOP, capture_output=True, text=True)
    return done.stdout.rstrip("\n") if done.returncode == 0 else None


def sources(what):
    """What `tools/sources` prints for a word, as a list of lines."""
    done = subprocess.run([str(TOP / "tools/sources"), what], capture_output=True, text=True)
    if done.returncode:
        raise Refused("the sources can't be read")
    return done.stdout.splitlines()


def sum_of(path):
    """The sha256 of a file; None if there is no file."""
    return hashlib.sha256(path.read_bytes()).hexdigest() if path.is_file() else None


def read_built(folder):
    """The lines of BUILT in a folder, as pairs of a word and what it says; none if there is no such file."""
    path = folder / "BUILT"
    return [tuple(line.split(" ", 1)) for line in path.read_text(errors="replace").splitlines()
            if " " in line] if path.is_file() else []


def said_by(built, word):
    """What the lines of BUILT say of a word, one line for each."""
    return "\n".join(said for key, said in built if key == word)


def text_of(built):
    """The text of BUILT with these lines."""
    return "".join("%s %s\n" % pair for pair in built)


def gate_passed(log, last):
    """The line of the proofs in what the gate wrote. `last` is the part that must have come to its end: "packed" is the
    whole gate, and "examples" all but its last part, which may have failed."""
    if last != "packed":
        log = PACKED_LINE.sub("", log)
    failed, found = FAILED.search(log), PASSED.findall(log)
    if failed:
        raise Refused("the gate failed: %s" % failed.group())
    if not found:
        raise Refused("the log has no line 'N passed, 0 failed': the gate didn't prove everything")
    if not LAST[last].search(log):
        raise Refused("the log has no line '%s: N passed, 0 failed': the gate didn't run to its end" % last)
    return found[-1]


def check_commit(but=None):
    """Refuses files that differ from the commit, except those in the folder `but`."""
    found = git("status", "--porcelain", "--untracked-files=all")
    changed = [line for line in (found or "").splitlines() if not but or not line[3:].startswith(but + "/")]
    if found is None or changed:
        raise Refused("these files differ from the commit: %s" % (", ".join(line[3:] for line in changed) or "no commit"))


def check_programs():
    """The lines of BUILT for the programs that were proved here. Refuses a program that is missing or changed, was built
    from other sources, or needs more than the C library."""
    built = read_built(PROVED)
    if not built:
        raise Refused("there is no program in out/proved; run .ci/run or ./zovatsemo --prove first")
    if said_by(built, "sources") != sources("sum")[0]:
        raise Refused("the programs in out/proved were built from other sources")
    for name in sources("programs"):
        program = PROVED / name
        if sum_of(program) != said_by(built, name):
            raise Refused("out/proved/%s isn't the program that out/proved/BUILT names" % name)
        more = needed_libraries(program) - {LIBRARY}
        if more:
            raise Refused("%s needs more than the C library: %s" % (name, " ".join(sorted(more))))
    return built


def headers_of(program):
    """What a program says about the libraries that it needs."""
    return subprocess.run(["objdump", "-p", str(program)], capture_output=True, text=True, check=True).stdout


def needed_libraries(program):
    """The libraries that a program names."""
    return set(re.findall(r"^\s*NEEDED\s+(\S+)", headers_of(program), re.MULTILINE))


def least_library(program):
    """The lowest version of the C library that has all that a program asks of it."""
    asked = re.findall(r"\bGLIBC_(\d+)\.(\d+)", headers_of(program))
    return max((int(major), int(minor)) for major, minor in asked)
