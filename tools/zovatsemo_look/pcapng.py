"""The packets of a pcapng capture: sections of blocks, in either byte order."""
import struct

SECTION = b"\x0a\x0d\x0d\x0a"  # the same in either order
SECTION_BLOCK, INTERFACE_BLOCK, SIMPLE_BLOCK, ENHANCED_BLOCK = 0x0A0D0D0A, 1, 3, 6
ORDERS = {struct.pack(order + "I", 0x1A2B3C4D): order for order in "<>"}
FRAME, MOST_BLOCK = 12, 1 << 24  # bytes of a block besides its body, and of the longest one
INTERFACE, ENHANCED, OPTION = 8, 20, 4  # bytes before an interface's options, a packet's bytes, and an option's value
END_OPTION, UNIT_OPTION = 0, 9
USUAL_UNIT = 6  # microseconds
BILLION = 10 ** 9
MOST_MOMENT = 2 ** 62 - 1


class BlockError(Exception):
    """What is wrong with a block."""


def blocks(stream, start):
    """The byte order, type and body of each block; `start` has the first four bytes of the first one."""
    order = None
    while start:
        length, mark = stream.read(4), b""
        if start == SECTION:
            mark = stream.read(4)
            order = ORDERS.get(mark)
        if len(start) < 4 or len(length) < 4 or start == SECTION and len(mark) < 4:
            raise BlockError("is cut")
        if order is None:
            raise BlockError("has no byte order")
        size = struct.unpack(order + "I", length)[0]
        if not FRAME + len(mark) <= size <= MOST_BLOCK or size % 4:
            raise BlockError("claims a length of %s bytes" % format(size, ","))
        body = mark + stream.read(size - FRAME - len(mark))
        if len(body) < size - FRAME:
            raise BlockError("is cut")
        if stream.read(4) != length:
            raise BlockError("is cut, or its two lengths differ")
        yield order, struct.unpack(order + "I", start)[0], body
        start = stream.read(4)


def units_in(order, options):
    """How many units of time a second has, by the options of an interface."""
    value, at = USUAL_UNIT, 0
    while len(options) >= at + OPTION:
        code, length = struct.unpack_from(order + "HH", options, at)
        if code == END_OPTION or len(options) < at + OPTION + -(-length // 4) * 4:
            break
        if code == UNIT_OPTION and length == 1:
            value = options[at + OPTION]
            break
        at += OPTION + -(-length // 4) * 4
    return 10 ** value if value < 128 else 2 ** (value - 128)


def packets(stream, start, capture):
    """The length and timestamp of each packet, up to the first block that is damaged; says in `capture` which."""
    units, moment, number = [], 0, 0
    try:
        for number, (order, kind, body) in enumerate(blocks(stream, start), 1):
            if kind == SECTION_BLOCK:
                units = []
            elif kind == INTERFACE_BLOCK:
                units.append(units_in(order, body[INTERFACE:]))
            elif kind == ENHANCED_BLOCK:
                which, high, low, captured, length = struct.unpack_from(order + "5I", body)
                if captured > len(body) - ENHANCED:
                    capture.end = "block %d claims more captured bytes than it has" % number
                    return
                moment = min((high << 32 | low) * BILLION // units[which], MOST_MOMENT)
                yield length, moment
            elif kind == SIMPLE_BLOCK and units:
                yield struct.unpack_from(order + "I", body)[0], moment
    except BlockError as error:
        capture.end = "block %d %s" % (number + 1, error)
    except (struct.error, IndexError):  # a block too short for its type, or an interface that isn't described
        capture.end = "block %d is too short, or names an unknown interface" % number
