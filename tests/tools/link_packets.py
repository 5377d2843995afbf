#!/usr/bin/env python3
"""Makes captures of each link type whose packets have header fields, as classic captures and as pcapng.

Usage: link_packets.py FOLDER

The packets are those of PACKETS: TCP, UDP and ICMP over IPv4 and IPv6, with options, fragments and VLAN tags, cut, and with
payloads other than IP. Of each link type FOLDER gets link-N.pcap and link-N.pcapng.
"""
import collections
import ipaddress
import pathlib
import struct
import sys

sys.dont_write_bytecode = True
sys.path.insert(0, str(pathlib.Path(__file__).resolve().parent.parent.parent / "tools"))

import link_headers as headers  # noqa: E402  (of tools/)
import pcapng_blocks as blocks  # noqa: E402

TCP, UDP, ICMP, ICMP_6, GRE, HOP_BY_HOP, FRAGMENT = 6, 17, 1, 58, 47, 0, 44
CUSTOMER, SERVICE = 0x8100, 0x88A8
ETHERNETS = (headers.ETHERNET, headers.COOKED, headers.COOKED_2)  # headers with a protocol type
LOOPBACKS = (headers.NULL, headers.LOOP)  # headers with a family

Packet = collections.namedtuple("Packet", "payload version tags kind family order", defaults=[4, (), None, None, "little"])


# packets --------------------------------------------------------------------

def checksum(header):
    """The checksum of an IPv4 header whose own is 0."""
    total = sum(struct.unpack(">%dH" % (len(header) // 2), header))
    while total >> 16:
        total = (total & 0xFFFF) + (total >> 16)
    return ~total & 0xFFFF


def ipv4(proto, dscp, source, target, rest, fragment=0, options=b"", ecn=0):
    """An IPv4 packet. `fragment` is the word of flags and offset."""
    address = lambda text: bytes(map(int, text.split(".")))
    words = 5 + len(options) // 4
    header = struct.pack(">BBHHHBBH", 0x40 + words, dscp << 2 | ecn, 4 * words + len(rest), 7, fragment, 64, proto, 0)
    header += address(source) + address(target) + options
    return header[:10] + struct.pack(">H", checksum(header)) + header[12:] + rest


def ipv6(proto, dscp, source, target, rest, label=0x12345, ecn=0):
    """An IPv6 packet. An address is a text, or a number for the last two bytes in 2001:db8::/112."""
    address = lambda given: ipaddress.IPv6Address(given if isinstance(given, str) else "2001:db8::%x" % given).packed
    return struct.pack(">IHBB", 6 << 28 | dscp << 22 | ecn << 20 | label, len(rest), proto, 64) + address(source) + address(target) + rest


def tcp(source, target, flags=0x10):
    return struct.pack(">HHIIBBHHH", source, target, 1, 0, 0x50, flags, 1000, 0, 0)


def udp(source, target):
    return struct.pack(">HHHH", source, target, 16, 0) + b"payload."


def echo(kind):
    """An ICMP echo request, with the type of its version."""
    return struct.pack(">BBHHH", kind, 0, 0, 1, 1) + bytes(8)


WEB = ipv4(TCP, 0, "10.0.0.1", "192.0.2.1", tcp(40000, 443))
DNS = ipv4(UDP, 46, "10.0.0.2", "192.0.2.53", udp(5353, 53), ecn=3)
PING = ipv4(ICMP, 8, "10.1.0.3", "192.0.2.9", echo(8))
OPTIONS = ipv4(TCP, 34, "10.0.0.4", "192.0.2.1", tcp(40004, 443), options=b"\x94\x04\0\0" * 2)
FIRST = ipv4(UDP, 10, "10.0.0.5", "192.0.2.5", udp(5005, 53), fragment=0x2000)
LATER = ipv4(UDP, 10, "10.0.0.5", "192.0.2.5", udp(5005, 53), fragment=2)
TUNNEL = ipv4(GRE, 0, "10.0.0.6", "192.0.2.6", b"\0\0\x08\0" + WEB)
WEB_6 = ipv6(TCP, 0, 1, 2, tcp(50000, 443))
DNS_6 = ipv6(UDP, 46, 3, 4, udp(5354, 53), ecn=2)
PING_6 = ipv6(ICMP_6, 8, 5, 6, echo(128))
HOPS_6 = ipv6(HOP_BY_HOP, 34, 7, 8, bytes([TCP, 0, 1, 4, 0, 0, 0, 0]) + tcp(50007, 443))
PART_6 = ipv6(FRAGMENT, 10, 9, 10, bytes([UDP, 0, 0, 8, 0, 0, 0, 1]) + udp(5009, 53))
PLAIN = [(WEB, 4), (DNS, 4), (PING, 4), (OPTIONS, 4), (FIRST, 4), (LATER, 4), (TUNNEL, 4), (WEB_6, 6), (DNS_6, 6), (PING_6, 6), (HOPS_6, 6),
         (PART_6, 6), (b"", 4), (WEB[:19], 4), (WEB[:23], 4), (WEB_6[:39], 6), (WEB_6[:43], 6), (b"\x44" + WEB[1:], 4), (b"\x55" + WEB[1:], 4)]
TAGS = [[(CUSTOMER, 7)], [(SERVICE, 0x2000 + 4095)], [(SERVICE, 9), (CUSTOMER, 0xE000 + 8)], [(CUSTOMER, 1), (CUSTOMER, 2), (CUSTOMER, 3)]]
ARP = bytes.fromhex("0001080006040001 020000000001 0a000001 000000000000 0a000002")


def packets(link):
    """The packets of a link type: PLAIN, and those with the tags, types, families and byte orders that it can have."""
    yield from (Packet(payload, version) for payload, version in PLAIN)
    if link in ETHERNETS:
        yield from (Packet(payload, version, tuple(tags)) for tags in TAGS for payload, version in ((DNS, 4), (WEB_6, 6)))
        yield from (Packet(ARP, kind=0x0806, tags=tuple(tags)) for tags in ([], TAGS[0]))
        yield from (Packet(WEB, kind=kind) for kind in (0x0001, 0x0004, 0x05DC, 0x86DD, 0x8847, 0x8864, 0x9100))
        yield Packet(WEB_6, kind=0x0800)
    if link in LOOPBACKS:
        yield from (Packet(WEB, family=2, order=order) for order in ("little", "big"))
        yield from (Packet(DNS_6, 6, family=family, order=order) for family in (24, 28, 30) for order in ("little", "big"))
        yield from (Packet(WEB, family=family) for family in (0, 7, 10, 24, 28, 30, 0x10002, 0x2000000))
        yield from (Packet(WEB_6, 6, family=family) for family in (2, 10, 23, 26))
    if link not in ETHERNETS + LOOPBACKS:
        yield from (Packet(bytes([first]) + DNS[1:]) for first in (0x05, 0x35, 0x65, 0x75, 0x4F, 0xF5))


def framed(link, packet):
    """The bytes of a packet with the header of its link type."""
    return headers.header(link, packet.version, packet.tags, packet.kind, packet.family, packet.order) + packet.payload


def whole(link):
    """The frames of a link type's packets."""
    return [framed(link, packet) for packet in packets(link)]


def cuts(link):
    """Two frames of a link type, with two tags if it can have them, cut after each byte up to the ports."""
    tags = tuple(TAGS[2]) if link in ETHERNETS else ()
    for payload, version, most in ((DNS, 4, 25), (WEB_6, 6, 45)):
        frame = framed(link, Packet(payload, version, tags))
        yield from (frame[:count] for count in range(len(frame) - len(payload) + most))


def frames(link):
    """The frames of a link type, and the cut ones."""
    return [*whole(link), *cuts(link)]


# captures -------------------------------------------------------------------

def classic(link, held, order="<"):
    """A classic capture of these frames, a microsecond apart."""
    parts = [struct.pack(order + "IHHiIII", 0xA1B2C3D4, 2, 4, 0, 0, 262144, link)]
    parts += [struct.pack(order + "IIII", 1, at, len(data), len(data)) + data for at, data in enumerate(held)]
    return b"".join(parts)


def as_pcapng(held, order="<"):
    """A pcapng capture of pairs of a link type and a frame, with an interface for each link type."""
    links = list(dict.fromkeys(link for link, _ in held))
    return b"".join([blocks.section(order=order), *(blocks.interface(link, order=order) for link in links),
                     *(blocks.enhanced(10**6 + at, data, len(data), links.index(link), order) for at, (link, data) in enumerate(held))])


def main(words):
    if len(words) != 1:
        print(__doc__.split("\n\n")[1])
        return 2
    folder = pathlib.Path(words[0])
    folder.mkdir(parents=True, exist_ok=True)
    for link in headers.LINKS:
        (folder / ("link-%d.pcap" % link)).write_bytes(classic(link, frames(link)))
        (folder / ("link-%d.pcapng" % link)).write_bytes(as_pcapng([(link, data) for data in frames(link)]))
    return 0


if __name__ == "__main__":
    sys.exit(main(sys.argv[1:]))
