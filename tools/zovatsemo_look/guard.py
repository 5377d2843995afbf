"""How a command of tools/ begins and ends: standard streams that are closed, errors in one line, and the status."""
import os
import sys

from zovatsemo_look.texts import shown

DONE, FAILED, TROUBLE = 0, 1, 2
STATUSES = """exit status:
  0  everything was done, and each assertion holds
  1  an assertion failed
  2  the arguments are malformed, a file can't be used, or a report is damaged; standard error or the last line says why
"""
PACKAGES = {"matplotlib": "python3-matplotlib", "numpy": "python3-matplotlib"}


class LookError(Exception):
    """What keeps a command from its end, in one line."""


def occupy_streams():
    """Opens the null device in the place of each standard stream that is closed, so that no file gets its number."""
    for number in range(3):
        try:
            os.fstat(number)
        except OSError:
            os.open(os.devnull, os.O_RDWR)
    for stream in (sys.stdout, sys.stderr):
        if stream is not None and hasattr(stream, "reconfigure"):
            stream.reconfigure(errors="backslashreplace")


def write_out(text):
    """Writes a text to standard output at once."""
    if not text:
        return
    if sys.stdout is None:
        raise LookError("standard output is closed")
    try:
        sys.stdout.write(text)
        sys.stdout.flush()
    except OSError as error:
        os.dup2(os.open(os.devnull, os.O_WRONLY), sys.stdout.fileno())  # else the end of the program writes again
        raise LookError("standard output: %s" % error.strerror)


def say(text):
    """Writes lines to standard error, if there is one."""
    if sys.stderr is not None:
        sys.stderr.write(text)
        sys.stderr.flush()


def write_file(name, data):
    """Writes bytes into a file."""
    with open(name, "wb") as stream:
        stream.write(data)


def check_writable(name):
    """Rejects a file that can't be written, before any work is done; a file that is there keeps its bytes."""
    folder = os.path.dirname(name) or "."
    if os.path.isdir(name):
        raise LookError("%s: it is a folder" % shown(name))
    if not os.path.isdir(folder):
        raise LookError("%s: there is no folder %s" % (shown(name), shown(folder)))
    if not os.access(name if os.path.exists(name) else folder, os.W_OK):
        raise LookError("%s: it can't be written" % shown(name))


def said_of(error):
    """An error of the system in one line."""
    if isinstance(error, OSError):
        return "%s: %s" % (shown(os.fsdecode(error.filename)), error.strerror) if error.filename else (
            error.strerror or str(error))
    if isinstance(error, MemoryError):
        return "out of memory"
    return str(error)


def run(name, work):
    """Does the work of a command, and returns its status. Every error becomes one line on standard error."""
    try:
        return work()
    except (LookError, OSError, MemoryError) as error:
        said = said_of(error)
    except ModuleNotFoundError as error:
        if error.name not in PACKAGES:
            raise
        said = "%s isn't installed; apt-get install %s" % (error.name, PACKAGES[error.name])
    except KeyboardInterrupt:
        said = "interrupted"
    say("%s: %s\n" % (name, said))
    return TROUBLE
