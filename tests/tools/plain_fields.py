"""The header fields, class and flow of captured bytes, in plain Python, by what docs/FORMATS.md and docs/POLICY.md say of them:
nothing of the program is used. plain_policies.py has the classes of version 3.
"""
import collections
import struct

Fields = collections.namedtuple("Fields", "vlan version dscp proto src dst sport dport", defaults=[None] * 8)
NONE = Fields()  # of a packet without header fields
More = collections.namedtuple("More", "pcp ethertype flags", defaults=[None] * 3)  # the fields that version 3 alone can test

ETHERNET, RAW, RAW_12, RAW_14, RAW_IPV4, RAW_IPV6, NULL, LOOP, COOKED, COOKED_2 = 1, 101, 12, 14, 228, 229, 0, 108, 113, 276
EARLIER = (ETHERNET, RAW)  # the link types with header fields in versions 1 and 2
LATER = (NULL, RAW_12, RAW_14, LOOP, COOKED, RAW_IPV4, RAW_IPV6, COOKED_2)  # those that version 3 adds
IPV4_TYPE, IPV6_TYPE = 0x0800, 0x86DD
TAGS = (0x8100, 0x88A8)
IPV4_FAMILY, IPV6_FAMILIES = 2, (24, 28, 30)
TCP, UDP, ICMP = 6, 17, 1
PROTOCOLS = {"tcp": TCP, "udp": UDP, "icmp": ICMP}


# headers --------------------------------------------------------------------

def ports(proto, data):
    """The ports at the beginning of a TCP or UDP header."""
    return struct.unpack(">HH", data[:4]) if proto in (TCP, UDP) and len(data) >= 4 else (None, None)


def ipv4(data):
    if len(data) < 20 or data[0] >> 4 != 4 or data[0] & 15 < 5:
        return NONE
    is_first = (data[6] << 8 | data[7]) & 0x1FFF == 0
    behind = ports(data[9], data[(data[0] & 15) * 4:]) if is_first else (None, None)
    return Fields(None, 4, data[1] >> 2, data[9], data[12:16], data[16:20], *behind)


def ipv6(data):
    if len(data) < 40 or data[0] >> 4 != 6:
        return NONE
    traffic_class = (data[0] & 15) << 4 | data[1] >> 4
    return Fields(None, 6, traffic_class >> 2, data[6], data[8:24], data[24:40], *ports(data[6], data[40:]))


def raw(data):
    """IP of either version."""
    return ipv4(data) if data[:1] and data[0] >> 4 == 4 else ipv6(data)


def untagged(kind, data):
    """What follows a protocol type and at most two VLAN tags, each with the type that follows it: the first tag's 16 bits, the type, the rest."""
    tag = None
    for _ in range(2):
        if kind in TAGS and len(data) >= 4:
            tag = data[0] << 8 | data[1] if tag is None else tag
            kind, data = data[2] << 8 | data[3], data[4:]
    return tag, kind, data


def typed(kind, data):
    """The fields of what follows a protocol type."""
    tag, kind, data = untagged(kind, data)
    found = ipv4(data) if kind == IPV4_TYPE else ipv6(data) if kind == IPV6_TYPE else NONE
    return found._replace(vlan=None if tag is None else tag & 0xFFF)


def family_of(data):
    """A family in the byte order of the capturing machine: the order in which it is below 2^16, network byte order first."""
    families = [int.from_bytes(data[:4], order) for order in ("big", "little")]
    return next((family for family in families if family < 2**16), 0)


def of_family(family, data):
    return ipv4(data) if family == IPV4_FAMILY else ipv6(data) if family in IPV6_FAMILIES else NONE


READERS = {
    ETHERNET: (14, lambda data: typed(data[12] << 8 | data[13], data[14:])),
    RAW: (0, raw), RAW_12: (0, raw), RAW_14: (0, raw), RAW_IPV4: (0, ipv4), RAW_IPV6: (0, ipv6),
    NULL: (4, lambda data: of_family(family_of(data), data[4:])), LOOP: (4, lambda data: of_family(int.from_bytes(data[:4], "big"), data[4:])),
    COOKED: (16, lambda data: typed(data[14] << 8 | data[15], data[16:])),
    COOKED_2: (20, lambda data: typed(data[0] << 8 | data[1], data[20:]))}


def fields(version, link, data):
    """The fields that a packet has for a policy of this version. A header of the link type that is cut gives none."""
    if link not in READERS or version < 3 and link not in EARLIER:
        return NONE
    least, read = READERS[link]
    return read(data) if len(data) >= least else NONE


# the fields of version 3 alone ----------------------------------------------

TYPED = {ETHERNET: (12, 14), COOKED: (14, 16), COOKED_2: (0, 20)}  # where the type is, and where the header ends


def tcp_flags(data):
    """Byte 13 of the TCP header after the IP header at the beginning: for packets that have fields of IP."""
    if data[0] >> 4 == 6:
        proto, behind = data[6], data[40:]
    else:
        proto, behind = data[9], data[(data[0] & 15) * 4:]
        if (data[6] << 8 | data[7]) & 0x1FFF:
            return None
    return behind[13] if proto == TCP and len(behind) > 13 else None


def more(link, data):
    """The priority of the first tag, the type after at most two tags, and the TCP flags. A type needs no more than its own two bytes."""
    found, tag, kind, rest = fields(3, link, data), None, None, data
    if link in TYPED:
        at, end = TYPED[link]
        if len(data) >= at + 2:
            tag, kind, rest = untagged(data[at] << 8 | data[at + 1], data[end:])
    elif link in (NULL, LOOP):
        rest = data[4:]
    elif found.version:
        kind = IPV4_TYPE if found.version == 4 else IPV6_TYPE
    return More(None if tag is None else tag >> 13, kind, tcp_flags(rest) if found.version else None)


# classes and flows ----------------------------------------------------------

def network(text):
    """The address and the number of bits of `N.N.N.N` or `N.N.N.N/L`."""
    address, _, bits = text.partition("/")
    return int.from_bytes(bytes(map(int, address.split("."))), "big"), int(bits or 32)


def meets(condition, found, length):
    """Whether a packet with these fields and of this length meets a condition, which is given as in a policy."""
    name, *rest = condition.split()
    if name in ("ipv4", "ipv6"):
        return found.version == int(name[3])
    if name in ("src", "dst"):
        address, bits = network(rest[0])
        return found.version == 4 and int.from_bytes(getattr(found, name), "big") >> 32 - bits == address >> 32 - bits
    low, _, high = str(PROTOCOLS.get(rest[0], rest[0])).partition("..")
    value = length if name == "len" else getattr(found, name)
    return value is not None and int(low) <= value <= int(high or low)


def class_of(classes, found, length):
    """The name of the first class whose conditions the packet meets; `classes` are pairs of a name and `C and C ..` or nothing."""
    return next(name for name, asked in classes if all(meets(one, found, length) for one in asked.split(" and ") if one))


def flow(found):
    """What the packets of one flow have in common: an absent field counts as 0, and the VLAN id doesn't count."""
    number = lambda value: int.from_bytes(value, "big") if isinstance(value, bytes) else value or 0
    return tuple(map(number, found[1:2] + found[3:]))
