"""plain_fields.py, plain_captures.py and link_packets.py on bytes worked out by hand, and what compare_tshark says of differences."""
import importlib.machinery
import importlib.util
import pathlib
import struct
import subprocess
import sys
import tempfile
import unittest

import link_packets as made
import plain_captures
import plain_fields as plain

HERE = pathlib.Path(__file__).resolve().parent

# UDP from 10.0.0.1, port 4096, to 10.0.0.2, port 53, with dscp 46; and TCP from 2001:db8::1, port 1, to fe80::102, port 22.
DATAGRAM = bytes.fromhex("45bb001c 00000000 40110000 0a000001 0a000002 10000035 00080000")
SEGMENT = bytes.fromhex("6bb51234 00140640 20010db8000000000000000000000001 fe800000000000000000000000000102 00010016")
FOUR = plain.Fields(None, 4, 46, 17, DATAGRAM[12:16], DATAGRAM[16:20], 4096, 53)
SIX = plain.Fields(None, 6, 46, 6, SEGMENT[8:24], SEGMENT[24:40], 1, 22)
COOKED = bytes.fromhex("0000 0001 0006 0000000000000000")  # without the type at its end
COOKED_2 = bytes.fromhex("0000 00000002 0001 00 06 0000000000000000")  # without the type at its beginning
BEGIN = {1: bytes(12) + b"\x08\0", 101: b"", 12: b"", 14: b"", 228: b"", 0: b"\2\0\0\0", 108: b"\0\0\0\2", 113: COOKED + b"\x08\0",
         276: b"\x08\0" + COOKED_2}
BEGIN_6 = {1: bytes(12) + b"\x86\xdd", 101: b"", 12: b"", 14: b"", 229: b"", 0: b"\x1e\0\0\0", 108: b"\0\0\0\x18", 113: COOKED + b"\x86\xdd",
           276: b"\x86\xdd" + COOKED_2}


def loaded(name):
    """A script of this folder as a module."""
    loader = importlib.machinery.SourceFileLoader(name, str(HERE / name))
    module = importlib.util.module_from_spec(importlib.util.spec_from_loader(name, loader))
    loader.exec_module(module)
    return module


class Headers(unittest.TestCase):
    def test_headers_are_followed_by_ip(self):
        for link in made.headers.LINKS:
            four, six = made.headers.header(link) + DATAGRAM, made.headers.header(link, 6) + SEGMENT
            self.assertEqual(plain.NONE if link == plain.RAW_IPV6 else FOUR, plain.fields(3, link, four), link)
            self.assertEqual(plain.NONE if link == plain.RAW_IPV4 else SIX, plain.fields(3, link, six), link)

    def test_bytes(self):
        tags = [(0x88A8, 9), (0x8100, 7)]
        self.assertEqual(bytes(12) + bytes.fromhex("88a80009 81000007 86dd"), made.headers.header(1, 6, tags))
        self.assertEqual(bytes.fromhex("0000 0001 0006 0200000000010000 88a8 0009 8100 0007 0800"), made.headers.header(113, 4, tags))
        self.assertEqual(bytes.fromhex("8100 0000 00000002 0001 00 06 0200000000010000 0007 0806"), made.headers.header(276, 4, tags[1:], 0x0806))
        self.assertEqual(bytes.fromhex("1e000000"), made.headers.header(0, 6))
        self.assertEqual(bytes.fromhex("0000001c"), made.headers.header(108, 6, family=28))


class Fields(unittest.TestCase):
    def test_each_link_type(self):
        for link, begin in BEGIN.items():
            self.assertEqual(FOUR, plain.fields(3, link, begin + DATAGRAM), link)
        for link, begin in BEGIN_6.items():
            self.assertEqual(SIX, plain.fields(3, link, begin + SEGMENT), link)

    def test_versions_before_the_third(self):
        for version in (1, 2):
            known = [link for link, begin in BEGIN.items() if plain.fields(version, link, begin + DATAGRAM) != plain.NONE]
            self.assertEqual([1, 101], known)

    def test_link_types_without_fields(self):
        for link in (2, 13, 15, 107, 147, 227, 230, 277):
            self.assertEqual(plain.NONE, plain.fields(3, link, DATAGRAM))

    def test_captured_parts(self):
        for link, begin in BEGIN.items():
            for count in range(len(begin) + len(DATAGRAM)):
                whole = count - len(begin)
                wanted = plain.NONE if whole < 20 else FOUR._replace(sport=None, dport=None) if whole < 24 else FOUR
                self.assertEqual(wanted, plain.fields(3, link, (begin + DATAGRAM)[:count]), (link, count))

    def test_tags(self):
        for link, begin, end in ((1, bytes(12), b""), (113, COOKED, b""), (276, b"", COOKED_2)):
            tags = lambda *numbers: (begin + b"".join(b"\x81\0" + bytes([0x20, number]) for number in numbers) + b"\x08\0" + DATAGRAM)
            put = lambda data: data[:len(begin) + 2] + end + data[len(begin) + 2:]
            self.assertEqual(FOUR._replace(vlan=7), plain.fields(3, link, put(tags(7))))
            self.assertEqual(FOUR._replace(vlan=7), plain.fields(3, link, put(tags(7, 9))))
            self.assertEqual(plain.NONE._replace(vlan=7), plain.fields(3, link, put(tags(7, 9, 9))))

    def test_families(self):
        word = lambda family, order: family.to_bytes(4, order)
        for order in ("big", "little"):
            self.assertEqual([FOUR if family == 2 else plain.NONE for family in range(40)],
                             [plain.fields(3, 0, word(family, order) + DATAGRAM) for family in range(40)])
            self.assertEqual([24, 28, 30], [family for family in range(40) if plain.fields(3, 0, word(family, order) + SEGMENT) == SIX])
        self.assertEqual(plain.NONE, plain.fields(3, 108, word(2, "little") + DATAGRAM))
        for wide in ("00020000", "00000200", "02000002", "01000002"):
            self.assertEqual(plain.NONE, plain.fields(3, 0, bytes.fromhex(wide) + DATAGRAM))

    def test_conditions(self):
        for condition, wanted in (("dscp 46", True), ("dscp 40..45", False), ("proto udp", True), ("proto tcp", False), ("ipv4", True), ("ipv6", False),
                                  ("src 10.255.0.0/8", True), ("src 10.0.0.0/32", False), ("dst 10.0.0.2", True), ("dst 0.0.0.0/0", True),
                                  ("dport 53", True), ("sport 53", False), ("len 28", True), ("vlan 0..4095", False)):
            self.assertEqual(wanted, plain.meets(condition, FOUR, 28), condition)
        self.assertFalse(plain.meets("src 0.0.0.0/0", SIX, 44))
        self.assertEqual("b", plain.class_of([("a", "ipv4 and dport 54"), ("b", "dport 53 and ipv4"), ("c", "")], FOUR, 28))

    def test_flows(self):
        self.assertEqual((4, 17, 10 << 24 | 1, 10 << 24 | 2, 4096, 53), plain.flow(FOUR._replace(vlan=7)))
        self.assertEqual((0,) * 6, plain.flow(plain.NONE._replace(vlan=7)))


class Captures(unittest.TestCase):
    def test_both_formats_and_byte_orders_have_the_same_packets(self):
        for order in "<>":
            frames = made.frames(276)
            wanted = [(276, data, len(data)) for data in frames]
            self.assertEqual(wanted, plain_captures.packets(made.classic(276, frames, order)))
            self.assertEqual(wanted, plain_captures.packets(made.as_pcapng([(276, data) for data in frames], order)))

    def test_a_cut_capture_has_the_packets_before(self):
        for whole in (made.classic(1, [DATAGRAM] * 2), made.as_pcapng([(1, DATAGRAM)] * 2)):
            self.assertEqual([(1, DATAGRAM, 28)], plain_captures.packets(whole[:-1]))

    def test_checksums(self):
        for packet, version in made.PLAIN:
            if version == 4 and len(packet) > 27 and packet[0] >> 4 == 4 and packet[0] & 15 > 4:
                words = struct.unpack(">%dH" % ((packet[0] & 15) * 2), packet[:(packet[0] & 15) * 4])
                self.assertEqual(0, sum(words) % 0xFFFF)


class Tshark(unittest.TestCase):
    """compare_tshark on what tshark would say."""

    def setUp(self):
        self.compare = loaded("compare_tshark")

    def found(self, chain, captured=100, **values):
        of = {name.replace("__", "."): str(value) for name, value in values.items()}
        return self.compare.Found([{"frame.protocols": chain, "frame.cap_len": str(captured), **of}.get(name, "") for name in self.compare.ASKED])

    def test_fields(self):
        found = self.found("sll:ethertype:ieee8021ad:ethertype:vlan:ethertype:ip:udp:dns", ieee8021ad__id=9, vlan__id=8, ip__version=4, ip__dsfield__dscp=46,
                           ip__proto=17, ip__src="10.0.0.1", ip__dst="10.0.0.2", udp__srcport=4096, udp__dstport=53)
        self.assertEqual(plain.Fields(9, 4, 46, 17, "10.0.0.1", "10.0.0.2", 4096, 53), found.fields)
        self.assertEqual(plain.NONE, self.found("null:data").fields)

    def test_reasons(self):
        four, six = {"ip__version": 4, "ip__hdr_len": 20}, {"ipv6__version": 6}
        for name, found, wanted in (
                ("version", self.found("eth:ethertype:mpls:ip", **four), "another header before IP"),
                ("version", self.found("eth:ethertype:vlan:ethertype:vlan:ethertype:vlan:ethertype:ip", **four), "a third VLAN tag before IP"),
                ("vlan", self.found("eth:ethertype:ip:gre:eth:ethertype:vlan", vlan__id=1, **four), "another header before the VLAN tag"),
                ("vlan", self.found("eth:ethertype:vlan", eth__type="0x9100", vlan__id=1), "a VLAN tag of type 0x9100"),
                ("version", self.found("null:ip:ipv6", ip__version=6), "an IP version other than that of its type or family"),
                ("version", self.found("raw:ip", ip__version=4, ip__hdr_len=16), "an IPv4 header with a length below 20"),
                ("sport", self.found("raw:ipv6:ipv6.hopopts:tcp", tcp__srcport=1, **six), "ports not directly after the IP header"),
                ("dscp", self.found("raw:ipv6", 39, ipv6__tclass__dscp=46, **six), "a header that is cut")):
            self.assertEqual(("tshark", wanted), found.reason(name, None, 1), name)
        longer = self.found("raw:ip", ip__version=4, ip__hdr_len=60, ip__len=44)
        self.assertEqual(("the program", "an IPv4 header longer than its packet"), longer.reason("proto", 17, 101))

    def test_differences_without_a_reason(self):
        found = self.found("raw:ip:udp", ip__version=4, ip__hdr_len=20, ip__len=28, ip__dsfield__dscp=46, udp__srcport=1)
        self.assertIsNone(found.reason("dscp", 45, 101))
        self.assertIsNone(found.reason("dscp", None, 101))
        self.assertIsNone(found.reason("sport", None, 101))
        self.assertIsNone(found.reason("proto", 17, 101))

    def test_nothing_is_compared_without_tshark(self):
        with tempfile.TemporaryDirectory() as folder:
            done = subprocess.run([sys.executable, "-B", HERE / "compare_tshark"], env={"PATH": folder}, capture_output=True, text=True, check=False)
        self.assertEqual((0, "compare_tshark: tshark isn't installed, so nothing is compared\n"), (done.returncode, done.stdout))


if __name__ == "__main__":
    unittest.main()
