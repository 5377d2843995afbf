"""Packets of all link types for the conditions of version 3: with each TCP flag, VLAN priorities, types, addresses and fragments."""
import struct

import link_packets as made

WEB, SYN, FIN, RST, ACK, SYN_ACK = 443, 0x02, 0x01, 0x04, 0x10, 0x12
FOUR = "10.0.0.1", "192.0.2.1"
SIX = "2001:db8::1", "2001:db8:0:1::2"
NO_LINK = 147  # a link type without header fields


def four(rest, proto=made.TCP, dscp=0, addresses=FOUR, **more):
    return made.ipv4(proto, dscp, *addresses, rest, **more)


def six(rest, proto=made.TCP, dscp=0, addresses=SIX):
    return made.ipv6(proto, dscp, *addresses, rest)


def tagged(payload, *words, version=4, kind=None):
    """A payload with VLAN tags of these 16 bits, the first one a service tag if there are two."""
    kinds = (made.SERVICE, made.CUSTOMER)[-len(words):] if len(words) < 3 else (made.CUSTOMER,) * len(words)
    return made.Packet(payload, version, tuple(zip(kinds, words)), kind)


def sample():
    """Pairs of a link type and a frame."""
    web, web_6 = four(made.tcp(40000, WEB, SYN)), six(made.tcp(40000, WEB, SYN_ACK))
    dns, dns_6 = four(made.udp(5353, 53), made.UDP, 46, ("10.1.2.3", "192.0.2.53")), six(made.udp(5353, 53), made.UDP, 10, ("fe80::1", "ff02::1"))
    plain = [made.Packet(web), made.Packet(web_6, 6), made.Packet(dns), made.Packet(dns_6, 6)]
    for link in made.headers.LINKS:
        only = {made.headers.RAW_IPV4: plain[::2], made.headers.RAW_IPV6: plain[1::2]}.get(link, plain)
        yield from ((link, made.framed(link, packet)) for packet in only)
    yield from ((NO_LINK, made.framed(made.headers.RAW, packet)) for packet in plain[:2])
    for link in made.ETHERNETS:
        yield from ((link, made.framed(link, packet)) for packet in (
            tagged(web, 0xA007), tagged(web_6, 0xE009, 0x2008, version=6), tagged(dns, 0x0FFF), tagged(dns, 1, 2, 3),
            tagged(made.ARP, 0x6007, kind=0x0806),
            made.Packet(made.ARP, kind=0x0806), made.Packet(web, kind=0x05DC)))
    raw = made.headers.RAW
    yield from ((raw, four(made.tcp(1000 + at, 22, 1 << at))) for at in range(8))
    flags_of = {80: 0, 8000: 0xFF, 8099: ACK, 8100: FIN | ACK, 65535: RST, 0: SYN_ACK}
    yield from ((raw, four(made.tcp(2000, port, flags))) for port, flags in flags_of.items())
    yield raw, four(made.tcp(3000, WEB, SYN), fragment=0x2000)
    yield raw, four(made.tcp(3001, WEB, SYN), fragment=2)
    yield raw, four(made.tcp(3002, WEB, SYN), options=b"\x01" * 8)
    yield raw, four(made.tcp(3003, WEB, SYN))[:33]
    yield raw, four(made.tcp(3004, WEB, SYN))[:34]
    yield raw, six(made.tcp(3005, WEB, RST))[:53]
    yield raw, six(made.tcp(3006, WEB, RST))[:54]
    yield raw, six(bytes([made.TCP, 0, 1, 4, 0, 0, 0, 0]) + made.tcp(3007, WEB, SYN), made.HOP_BY_HOP)
    yield raw, four(made.echo(8), made.ICMP)
    yield raw, six(made.echo(128), made.ICMP_6)
    for pair in (("::", "::1"), ("::1", "::"), ("ffff:ffff:ffff:ffff:ffff:ffff:ffff:ffff", "8000::"),
                 ("7fff:ffff:ffff:ffff:ffff:ffff:ffff:ffff", "::ffff:10.0.0.1"),
                 ("2001:db8:0:1:ffff::", "2001:db8:0:2::"), ("2001:db8:0:3::", "2001:db8::3")):
        yield raw, six(made.udp(1, 2), made.UDP, 0, pair)
    yield raw, b""


def drawn(draw):
    """A pair of a link type and a frame, drawn at random from values that are near one another; it is cut now and then."""
    link = draw.choice((*made.headers.LINKS, made.headers.ETHERNET, made.headers.RAW, NO_LINK))
    port = lambda: draw.choice((22, 53, 80, 443, 8000, 8050, 8099, draw.randrange(65536)))
    proto = draw.choice((made.TCP, made.TCP, made.UDP, made.ICMP, draw.randrange(256)))
    rest = made.tcp(port(), port(), draw.randrange(256)) if proto == made.TCP else made.udp(port(), port())
    dscp, version = draw.choice((0, 10, 46, draw.randrange(64))), draw.choice((4, 4, 6))
    if version == 4:
        address = lambda: "10.%d.%d.%d" % (draw.randrange(2), draw.randrange(4), draw.randrange(256))
        fragment = draw.choice((0, 0, 0, 0x4000, 0x2000, draw.randrange(0x4000)))
        payload = four(rest, proto, dscp, (address(), address()), fragment=fragment, options=b"\x01" * 4 * draw.choice((0, 0, 1, 10)))
    else:
        address = lambda: draw.choice(("2001:db8:%x:%x::%x", "2001:db8:0:%x:%x::%x", "::%x:%x:%x")) % tuple(draw.randrange(8) for _ in range(3))
        payload = six(rest, proto, dscp, (address(), address()))
    words = [draw.choice((7, 0xA007, 0xE000, draw.randrange(65536)))
             for _ in range(draw.choice((0, 0, 1, 1, 2, 3)))] if link in made.ETHERNETS else []
    kind = draw.choice((None, None, None, None, 0x0806, 0x0800, 0x86DD, draw.randrange(65536))) if link in made.ETHERNETS else None
    frame = made.framed(link, tagged(payload, *words, version=version, kind=kind) if words else made.Packet(payload, version, kind=kind))
    return link, frame[:draw.randrange(len(frame) + 1)] if draw.randrange(6) == 0 else frame


def example():
    """The capture examples/conditions/capture: frames of Ethernet with their original lengths, a millisecond apart."""
    inside, server, near, own, far = "10.1.0.7", "192.0.2.80", "10.1.0.1", "2001:db8:1::7", "2001:db8:ffff::80"
    out = lambda flags, source, target=WEB: made.Packet(four(made.tcp(source, target, flags), addresses=(inside, server)))
    call = four(made.udp(6000, 6002), made.UDP, addresses=(inside, "198.51.100.9"))
    given = [
        (out(SYN, 40001), 66), (made.Packet(four(made.tcp(WEB, 40001, SYN_ACK), addresses=(server, inside))), 66), (out(ACK, 40001), 54),
        (out(0x18, 40001), 900),
        (made.Packet(four(made.udp(6000, 6002), made.UDP, 46, (inside, "198.51.100.9"))), 214), (tagged(call, 0xA00A), 218),
        (made.Packet(made.ARP, kind=0x0806), 60),
        (made.Packet(six(made.tcp(40002, WEB, SYN), addresses=(own, far)), 6), 86),
        (made.Packet(six(made.tcp(40002, WEB), addresses=(own, far)), 6), 1514),
        (made.Packet(six(made.udp(5353, 53), made.UDP, addresses=(own, far)), 6), 90),
        (made.Packet(four(made.tcp(40003, 22, SYN), addresses=(inside, near))), 66),
        (made.Packet(four(made.tcp(40003, 8080, 0x18), addresses=(inside, near))), 1514),
        (made.Packet(four(made.udp(5353, 53), made.UDP, addresses=(inside, near))), 75)]
    frames = [(made.framed(made.headers.ETHERNET, packet), length) for packet, length in given]
    records = (struct.pack("<IIII", 1, 10**6 * at, len(data), length) + data for at, (data, length) in enumerate(frames))
    return struct.pack("<IHHiIII", 0xA1B23C4D, 2, 4, 0, 0, 262144, made.headers.ETHERNET) + b"".join(records)
