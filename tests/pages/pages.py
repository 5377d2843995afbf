"""The commands of a page, the output shown after each, and a shell that runs them in a copy of the checkout.

A page is a text in Markdown. A block is what is indented by four spaces; one that begins with `$ ` holds commands, each
on a line of its own after `$ `, and after a command the lines that it prints. The commands of a section, from one
heading to the next, are run in one shell that begins at the top of the checkout.
"""
import os
import pathlib
import re
import shlex
import shutil
import signal
import subprocess
import tempfile

TOP = pathlib.Path(__file__).resolve().parent.parent.parent
PROGRAM = "crates/zovatsemo/out/zovatsemo"  # for people; the launcher runs it
SCRIPT_PROGRAMS = ("crates/replay_main/out/replay_main", "crates/block_app/out/block_app")
MARK, INDENT = "$ ", "    "
ASK_STATUS = "echo $?"
TIMEOUT = 900  # seconds for a section
LEFT_OUT = shutil.ignore_patterns(".git", "out", "dist", "__pycache__")
OTHER_COMMANDS = ("apt-get", "git", "rt")
# The commands that the launcher and the commands of examples/README.md need. None is the toolchain's, and none is Python.
TOOLS = ("awk bash cat chmod cmp cp cut dirname env git grep head mkdir mkfifo mktemp mv nproc od paste readlink rm sed sh "
         "sha256sum sleep sort tail tee touch tr wc yes").split()

# The commands that pages show and that aren't run, each with the reason. No page can show what they print.
NOT_RUN = {
    ".ci/run": "proves everything, and runs this check",
    ".ci/run > ../gate.log 2>&1": "proves everything, and runs this check",
    "tools/pack ../gate.log": "needs the log of a gate, and this check is a part of it",
    "tools/release ../gate.log": "needs the log of a gate, and this check is a part of it",
    "tests/wrong_bodies/run pifo_core": "proves a crate, and tries its wrong bodies",
    "tests/look/run": "packs the commit of a checkout, which a copy of its files is not; the gate runs it before this check",
    "apt-get install python3-matplotlib": "changes the machine; tests/look/run does it where CI=true",
    "chromium --headless --window-size=1100,1120 --screenshot=docs/pictures/page.png review.html":
        "needs a browser; tests/look tries the page in one if it is there",
}


class PageError(Exception):
    """What isn't in form on a page, with the line."""


class Command:
    """A command of a page: its line, its text, the output shown after it, and whether the status is asked for next."""

    def __init__(self, line, text):
        self.line, self.text, self.shown, self.asks_status = line, text, [], False


class Answer:
    """The output of a command and its status; None if it didn't end."""

    def __init__(self, printed, status):
        self.printed, self.status = printed, status


# reading ------------------------------------------------------------------

def blocks(text):
    """For each section the blocks in it, and for each block its lines with their numbers."""
    found, block, blank = [[]], None, []
    for number, line in enumerate(text.splitlines(), 1):
        if line.startswith(INDENT) and line.strip():
            if block is None:
                block = []
                found[-1].append(block)
            else:
                block.extend(blank)
            block.append((number, line[len(INDENT):]))
            blank = []
        elif not line.strip():
            blank.append((number, ""))
        else:
            block, blank = None, []
            if re.match(r"#{1,6} ", line):
                found.append([])
            elif line.startswith((MARK, "```", "~~~")):
                raise PageError("%d: a block is indented by four spaces, and has no fence: %s" % (number, line))
    return found


def is_command(line):
    """Whether a line begins with a command of the checkout or of the toolchain, with no mark before it."""
    word = line.split()[0]
    return word in OTHER_COMMANDS or "/" in word and os.access(TOP / word, os.X_OK) and (TOP / word).is_file()


def commands_of(block):
    """The commands of a block; none if it has none."""
    number, first = block[0]
    if not first.startswith(MARK):
        for number, line in block:
            if line.startswith(MARK):
                raise PageError("%d: a block of commands begins with one: %s" % (number, line))
        number, first = block[0]
        if is_command(first):
            raise PageError("%d: a command has no `$ ` before it: %s" % (number, first))
        return []
    found = []
    for number, line in block:
        if line.startswith(MARK):
            found.append(Command(number, line[len(MARK):]))
        else:
            found[-1].shown.append(line)
    for command in found:
        while command.shown and not command.shown[-1]:
            command.shown.pop()
    for command, following in zip(found, found[1:]):
        command.asks_status = following.text == ASK_STATUS
    return found


def sections(text):
    """The commands of each section of a page that has some."""
    found = [[command for block in section for command in commands_of(block)] for section in blocks(text)]
    return [commands for commands in found if commands]


# a checkout's programs ------------------------------------------------------

def keep_proved(top, path=None):
    """Keeps the programs of a checkout that are where the gate leaves them, as the gate does."""
    if not (top / "tools/keep_proved").exists():
        return
    how = {"cwd": top, "check": True, "stdout": subprocess.PIPE, "text": True,
           "env": {**os.environ, "PATH": str(path or os.environ["PATH"])}}
    total = subprocess.run(["tools/sources", "sum"], **how).stdout.strip()
    subprocess.run(["tools/keep_proved", total], **how)


def link_tools(folder):
    """Makes a folder for a search path that has a few common commands and no others."""
    folder.mkdir()
    for name in TOOLS:
        (folder / name).symlink_to(shutil.which(name))


# running ------------------------------------------------------------------

class Copy:
    """A copy of the checkout with the built programs, which is gone in the end.

    The programs are kept there as the gate keeps them, so the launcher runs them, and they are in bin/ too. The one for
    people may come from elsewhere.
    """

    def __init__(self, program, checkout=TOP):
        self.program, self.checkout = program, checkout

    def __enter__(self):
        self.room = pathlib.Path(tempfile.mkdtemp(prefix="pages-"))
        self.top, self.printed = self.room / "checkout", self.room / "printed"
        self.printed.mkdir()
        shutil.copytree(self.checkout, self.top, symlinks=True, ignore=LEFT_OUT)
        for name in (PROGRAM, *SCRIPT_PROGRAMS):
            (self.top / name).parent.mkdir(parents=True)
            shutil.copy(self.program if name == PROGRAM else self.checkout / name, self.top / name)
        keep_proved(self.top)
        shutil.copytree(self.top / "out/proved", self.top / "bin", dirs_exist_ok=True)
        return self

    def __exit__(self, *_):
        shutil.rmtree(self.room, ignore_errors=True)

    def run(self, commands):
        """The answer to each command of a section; None for one that isn't run."""
        lines, wanted = [], [command.text not in NOT_RUN for command in commands]
        for number, command in enumerate(commands):
            if wanted[number]:
                output = shlex.quote(str(self.printed / str(number)))
                lines.append("{ eval %s\n} >%s 2>&1" % (shlex.quote(command.text), output))
                lines.append("status_here=$?; echo $status_here >%s.status; (exit $status_here)" % output)
        run_shell("\n".join(lines), self.top)
        answers = [self.answer(number) if is_wanted else None for number, is_wanted in enumerate(wanted)]
        for path in self.printed.iterdir():
            path.unlink()
        return answers

    def answer(self, number):
        printed, status = self.printed / str(number), self.printed / ("%d.status" % number)
        return Answer(printed.read_text(errors="replace") if printed.exists() else "",
                      int(status.read_text()) if status.exists() else None)

    def changed(self):
        """The files of the checkout that aren't in the copy as they were, but for the pictures."""
        for folder, _, names in os.walk(self.top):
            for name in names:
                path = pathlib.Path(folder, name)
                kept = self.checkout / path.relative_to(self.top)
                is_picture = kept.parent == self.checkout / "docs/pictures"
                if kept.is_file() and not is_picture and not {"bin", "out"} & set(path.relative_to(self.top).parts):
                    if path.read_bytes() != kept.read_bytes():
                        yield str(path.relative_to(self.top))


def run_shell(script, folder):
    """Runs a script in a folder, and ends it after a time limit."""
    with subprocess.Popen(["bash", "-c", script], cwd=folder, stdin=subprocess.DEVNULL, stdout=subprocess.DEVNULL,
                          stderr=subprocess.DEVNULL, start_new_session=True) as process:
        try:
            process.wait(TIMEOUT)
        except subprocess.TimeoutExpired:
            os.killpg(process.pid, signal.SIGKILL)
