"""The original lengths and timestamps of a capture's packets, classic or pcapng; docs/FORMATS.md has both formats."""
import array
import struct

from zovatsemo_look import pcapng

START, HEAD, RECORD = 4, 24, 16  # bytes of a format's mark, of a classic header, of a record before its captured bytes
MOST_CAPTURED = 262144  # bytes of one packet
UNITS = {0xA1B2C3D4: 1000, 0xA1B23C4D: 1}  # by magic number: the nanoseconds of a fraction's unit
ORDERS = {struct.pack(order + "I", magic): (order, unit) for order in "<>" for magic, unit in UNITS.items()}
BILLION = 10 ** 9


class CaptureError(Exception):
    """The file isn't a capture, or isn't that of the run."""


class Capture:
    """The original length of each packet in bytes, and its timestamp in nanoseconds."""

    def __init__(self):
        self.lengths = array.array("I")
        self.moments = array.array("q")
        self.end = None  # why reading stopped before the end of the file


def packets(stream, start, capture):
    """The length and timestamp of each whole packet of a classic capture; `start` has its first bytes."""
    head = start + stream.read(HEAD - START)
    if len(head) < HEAD:
        raise CaptureError("it has fewer than %d bytes" % HEAD)
    if start not in ORDERS:
        raise CaptureError("it is no capture of the classic format and no pcapng")
    order, unit = ORDERS[start]
    record, number = struct.Struct(order + "IIII"), 0
    while True:
        number += 1
        head = stream.read(RECORD)
        if not head:
            return
        seconds, fraction, captured, length = record.unpack(head) if len(head) == RECORD else (0, 0, 0, 0)
        if captured > MOST_CAPTURED:
            capture.end = "record %d claims %s captured bytes, and at most %s are possible" % (
                number, format(captured, ","), format(MOST_CAPTURED, ","))
            return
        if len(head) < RECORD or len(stream.read(captured)) < captured:
            capture.end = "record %d is cut" % number
            return
        yield length, seconds * BILLION + fraction * unit


def read_capture(stream, most, progress):
    """Reads the first packets of a capture, as many as asked for or as there are."""
    capture, start = Capture(), stream.read(START)
    found = pcapng.packets(stream, start, capture) if start == pcapng.SECTION else packets(stream, start, capture)
    lengths, moments = capture.lengths, capture.moments
    for length, moment in found:
        lengths.append(length)
        moments.append(moment)
        if not len(lengths) & 0xFFFF:
            progress.at(stream)
        if len(lengths) >= most:
            break
    return capture
