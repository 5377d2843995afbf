"""Where runs come from: the one place that opens reports and captures. A new form of report is added to `reader_of`."""
import hashlib
import sys

from zovatsemo_look import belongs, capture, pcapng, progress, report
from zovatsemo_look.guard import LookError
from zovatsemo_look.texts import shown

STANDARD_INPUT = "standard input"
MARK = 4  # bytes that tell what a file is


def reader_of(start):
    """The function that reads a report beginning with these bytes."""
    if start == pcapng.SECTION or start in capture.ORDERS:
        raise LookError("it is a capture and not a report")
    return report.read_report


def name_of(file):
    """A file's name for people."""
    return STANDARD_INPUT if file == "-" else shown(file)


def read_run(file, ranks_kept=0):
    """The run of a report's file; `-` is standard input."""
    if file != "-":
        with open(file, "rb") as stream:
            return read_stream(stream, shown(file), ranks_kept)
    if sys.stdin is None:
        raise LookError("standard input is closed, so there is no report to read")
    return read_stream(sys.stdin.buffer, STANDARD_INPUT, ranks_kept)


def read_stream(stream, name, ranks_kept=0):
    """The run of a report. A file that isn't one is rejected, so that nothing is shown of it."""
    said = progress.Progress(name, stream)
    try:
        run = reader_of(stream.peek(MARK)[:MARK])(stream, said, ranks_kept)
    except LookError as error:
        raise LookError("%s: %s" % (name, error))
    finally:
        said.end()
    if run.broken and not run.events:
        empty = run.broken.startswith("line 1: the report stops")
        raise LookError("%s: it isn't a report: %s" % (name, "it is empty" if empty else run.broken))
    return run


def read_capture(file, runs, names):
    """The capture of the runs, checked against them."""
    said = None
    try:
        with open(file, "rb") as stream:
            said = progress.Progress(shown(file), stream)
            found = capture.read_capture(stream, max(run.packets for run in runs) + 1, said)
        for run, name in zip(runs, names):
            belongs.check_capture(found, run, name)
    except capture.CaptureError as error:
        raise LookError("%s: %s" % (shown(file), error))
    finally:
        if said:
            said.end()
    return found


def sum_of(file):
    """The sha256 of a file's bytes."""
    total = hashlib.sha256()
    with open(file, "rb") as stream:
        for part in iter(lambda: stream.read(1 << 20), b""):
            total.update(part)
    return total.hexdigest()
