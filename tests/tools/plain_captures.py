"""The packets of a capture, by what docs/FORMATS.md says of both formats: nothing of the program is used. A capture is read up to
its first error.
"""
import struct

ORDERS = {b"\xd4\xc3\xb2\xa1": "<", b"\x4d\x3c\xb2\xa1": "<", b"\xa1\xb2\xc3\xd4": ">", b"\xa1\xb2\x3c\x4d": ">"}
SECTION, INTERFACE, SIMPLE, ENHANCED = 0x0A0D0D0A, 1, 3, 6
MARKS = {b"\x4d\x3c\x2b\x1a": "<", b"\x1a\x2b\x3c\x4d": ">"}
MOST = 262144  # captured bytes


def of_records(data):
    """Link type, captured bytes and length of each packet of a classic capture."""
    order = ORDERS.get(data[:4])
    if order is None or len(data) < 24:
        return
    link, at = struct.unpack_from(order + "I", data, 20)[0] & 0xFFFF, 24
    while at + 16 <= len(data):
        captured, length = struct.unpack_from(order + "II", data, at + 8)
        at += 16 + captured
        if captured > MOST or at > len(data):
            return
        yield link, data[at - captured:at], length


def of_blocks(data):
    """The same of a pcapng capture."""
    order, interfaces, at = "<", [], 0
    while at + 12 <= len(data):
        if data[at:at + 4] == b"\x0a\x0d\x0d\x0a":
            order, interfaces = MARKS.get(data[at + 8:at + 12]), []
        if order is None:
            return
        kind, total = struct.unpack_from(order + "II", data, at)
        body, at = data[at + 8:at + total - 4], at + total
        if total < 12 or at > len(data) or data[at - 4:at] != struct.pack(order + "I", total):
            return
        if kind == INTERFACE:
            interfaces.append(struct.unpack_from(order + "HHI", body))
        elif kind == ENHANCED:
            which, _, _, captured, length = struct.unpack_from(order + "5I", body)
            if which >= len(interfaces) or captured > min(MOST, len(body) - 20):
                return
            yield interfaces[which][0], body[20:20 + captured], length
        elif kind == SIMPLE:
            length, = struct.unpack_from(order + "I", body)
            most = interfaces[0][2] if interfaces else 0
            captured = min(length, most or length)
            if not interfaces or captured > min(MOST, len(body) - 4):
                return
            yield interfaces[0][0], body[4:4 + captured], length


def packets(data):
    """Link type, captured bytes and length of each packet."""
    return list(of_blocks(data) if data[:4] == b"\x0a\x0d\x0d\x0a" else of_records(data))
