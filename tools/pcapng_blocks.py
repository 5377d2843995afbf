"""Blocks of a pcapng capture, as draft-ietf-opsawg-pcapng has them: for make_capture, and for the rows of the tests."""
import struct

SECTION, INTERFACE, SIMPLE, STATISTICS, ENHANCED = 0x0A0D0D0A, 1, 3, 5, 6
ORDER_NUMBER = 0x1A2B3C4D
END, NAME, APPLICATION, RECEIVED, UNIT = 0, 2, 4, 4, 9  # options, each of its kinds of blocks


def filled(content):
    """Bytes, filled up to four."""
    return content + bytes(-len(content) % 4)


def block(kind, body, order="<", total=None, end=None):
    """A block of a type; its two total lengths are those of the block, or as they are given."""
    body = filled(body)
    total = len(body) + 12 if total is None else total
    return struct.pack(order + "II", kind, total) + body + struct.pack(order + "I", total if end is None else end)


def section(options=b"", order="<", major=1, minor=0, mark=ORDER_NUMBER):
    return block(SECTION, struct.pack(order + "IHHq", mark, major, minor, -1) + options, order)


def option(code, value, order="<"):
    return struct.pack(order + "HH", code, len(value)) + filled(value)


def unit(value, order="<"):
    """The option that names a unit by this byte."""
    return option(UNIT, bytes([value]), order)


def interface(link, options=b"", snapshot=0, order="<"):
    return block(INTERFACE, struct.pack(order + "HHI", link, 0, snapshot) + options, order)


def enhanced(time, held, length, which=0, order="<", captured=None):
    """A packet of an interface, with these captured bytes; it says how many these are, or another number."""
    captured = len(held) if captured is None else captured
    return block(ENHANCED, struct.pack(order + "5I", which, time >> 32, time % 2**32, captured, length) + held, order)


def simple(length, held, order="<"):
    return block(SIMPLE, struct.pack(order + "I", length) + held, order)
