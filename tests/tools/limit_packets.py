"""Packets of few flows, over IPv4, IPv6 or neither, for limits and flows of version 3."""
import struct

import link_packets as made

RAW, ETHERNET, COOKED, NO_LINK = made.headers.RAW, made.headers.ETHERNET, made.headers.COOKED_2, 147
VOICE = 46


def four(host, peer=1, port=80, source=1000):
    return made.ipv4(made.UDP, 0, "10.0.0.%d" % host, "10.1.0.%d" % peer, made.udp(source, port))


def six(host, peer=1, port=80, source=1000):
    """The numbers of the addresses are those of `four`."""
    return made.ipv6(made.UDP, 0, "::a00:%d" % host, "::a01:%d" % peer, made.udp(source, port))


def framed(link, payload, version=4, **more):
    return made.framed(link, made.Packet(payload, version, **more))


# Two sources and two destinations, of which three packets differ in their ports alone.
FLOWS = [(RAW, four(*one)) for one in ((1,), (1,), (1, 1, 81), (1, 1, 80, 1001), (1, 2), (2,), (2, 2), (1,), (2, 1, 53), (1, 2))]
MIXED = [(RAW, data) for pair in zip((four(1), four(1, 2), four(2)), (six(1), six(1, 2), six(2))) for data in pair] * 2
NONE = [(RAW, b""), (NO_LINK, four(1)), (RAW, four(1)[:19]), (RAW, made.ipv4(0, 0, "0.0.0.0", "0.0.0.0", b"")), (RAW, six(0)[:39]), (RAW, b"\x11" * 40),
        (NO_LINK, b""), (RAW, four(0, 0))]
LINKS = [(ETHERNET, framed(ETHERNET, four(1))), (ETHERNET, framed(ETHERNET, four(1), tags=((made.CUSTOMER, 7),))), (COOKED, framed(COOKED, four(1, 2))),
         (RAW, four(1)), (COOKED, framed(COOKED, six(1), 6)), (ETHERNET, framed(ETHERNET, made.ARP, kind=0x0806)),
         (RAW, four(1)[:20] + b"\0\0\0"), (RAW, made.ipv4(made.UDP, 0, "10.0.0.1", "10.1.0.1", made.udp(1000, 80), fragment=2))]


def example():
    """The capture examples/limits/capture: 40 packets of one host in four connections, 10 of another host in one, and 5 of a call, all
    at one timestamp."""
    web = lambda host, port: made.ipv4(made.TCP, 0, "10.1.0.%d" % host, "192.0.2.80", made.tcp(port, 443))
    given = [(web(1, 40000 + port), 1500) for port in range(4) for _ in range(10)] + [(web(2, 40000), 1500)] * 10
    given += [(made.ipv4(made.UDP, VOICE, "10.1.0.3", "192.0.2.5", made.udp(4000, 4000)), 200)] * 5
    records = (struct.pack("<IIII", 1, 0, len(data), length) + data for data, length in ((framed(ETHERNET, payload), length) for payload, length in given))
    return struct.pack("<IHHiIII", 0xA1B23C4D, 2, 4, 0, 0, 262144, ETHERNET) + b"".join(records)
