"""The headers of link types whose packets can be IP (tcpdump.org/linktypes.html): for make_capture, and for the tests."""
import struct

ETHERNET, RAW, RAW_12, RAW_14, RAW_IPV4, RAW_IPV6, NULL, LOOP, COOKED, COOKED_2 = 1, 101, 12, 14, 228, 229, 0, 108, 113, 276
LINKS = (NULL, ETHERNET, RAW_12, RAW_14, RAW, LOOP, COOKED, RAW_IPV4, RAW_IPV6, COOKED_2)
FAMILIES = {4: 2, 6: 30}  # address families, of IPv6 that of Darwin
TYPES = {4: 0x0800, 6: 0x86DD}  # protocol types of Ethernet and of cooked headers
ETHERNET_DEVICE, TO_US, ADDRESS = 1, 0, bytes([2, 0, 0, 0, 0, 1])


def tagged(tags, kind):
    """The type at the header's end, and the bytes of VLAN tags; a tag is its type and its number with priority."""
    inner = struct.pack(">H", kind)
    for kind, number in reversed(tags):
        inner = struct.pack(">HH", kind, number) + inner
    return inner[:2], inner[2:]


def cooked(kind):
    """A header of LINKTYPE_LINUX_SLL."""
    return struct.pack(">HHH8s", TO_US, ETHERNET_DEVICE, len(ADDRESS), ADDRESS) + kind


def cooked_2(kind):
    """A header of LINKTYPE_LINUX_SLL2, of the interface with index 2."""
    return kind + struct.pack(">HIHBB8s", 0, 2, ETHERNET_DEVICE, TO_US, len(ADDRESS), ADDRESS)


def header(link, version=4, tags=(), kind=None, family=None, order="little"):
    """The bytes before an IP header of this version. A protocol type, or a family and its byte order, can be given."""
    kind, rest = tagged(tags, TYPES[version] if kind is None else kind)
    family = FAMILIES[version] if family is None else family
    if link in (NULL, LOOP):
        return family.to_bytes(4, "big" if link == LOOP else order)
    begin = {ETHERNET: bytes(12) + kind, COOKED: cooked(kind), COOKED_2: cooked_2(kind)}.get(link)
    return b"" if begin is None else begin + rest
