"""plain_policies.py on texts and packets worked out by hand, and tests/tools/conditions on answers that are right and wrong."""
import contextlib
import importlib.machinery
import importlib.util
import io
import ipaddress
import pathlib
import random
import subprocess
import sys
import unittest
from unittest import mock

import built
import condition_packets as packets
import drawn_runs
import link_packets as made
import plain_captures
import plain_fields
import plain_policies as plain

HERE = pathlib.Path(__file__).resolve().parent
REST = "class rest\nleaf root using fifo classes rest\n"
RAW = made.headers.RAW
SYN = packets.four(made.tcp(5, 443, packets.SYN))
SYN_ACK_6 = packets.six(made.tcp(5, 80, packets.SYN_ACK))


def loaded():
    """tests/tools/conditions as a module."""
    loader = importlib.machinery.SourceFileLoader("conditions", str(HERE / "conditions"))
    module = importlib.util.module_from_spec(importlib.util.spec_from_loader("conditions", loader))
    loader.exec_module(module)
    return module


conditions = loaded()


class Texts(unittest.TestCase):
    def test_tokens(self):
        for line, wanted in (("a-b", [("word", "a-b")]), ("80..443", [80, ("mark", ".."), 443]),
                             ("{80,1a}", [("mark", "{"), 80, ("mark", ","), ("word", "1a"), ("mark", "}")]),
                             ("2001:db8::/32", [("word", "2001:db8::"), ("mark", "/"), 32]), ("8000-8099", [("word", "8000-8099")]),
                             (" -a\t- 1", [("mark", "-"), ("word", "a"), ("mark", "-"), 1]),
                             ("::1", [("word", "::1")]), ("a<=b", [("word", "a"), ("mark", "<="), ("word", "b")])):
            self.assertEqual(wanted, plain.tokens(line), line)
        for line, wanted in (("a-b", [("word", "a"), ("mark", "-"), ("word", "b")]), ("7-1", [7, ("mark", "-"), 1]),
                             ("0123456789..", [123456789, ("mark", "..")])):
            self.assertEqual(wanted, plain.tokens(line, plain.CLASSIC), line)
        for line, form in (("1a", plain.CLASSIC), ("12a", plain.CLASSIC), ("1_", plain.CLASSIC), ("{", plain.CLASSIC), ("a:b", plain.CLASSIC),
                           ("!", plain.THIRD), ("a;", plain.THIRD),
                           ("4611686018427387904", plain.THIRD)):
            self.assertRaises(plain.Rejected, plain.tokens, line, form)

    def test_names(self):
        for name in ("a", "_", "a-b", "a--1", "Any", "flows", "x" * 64):
            self.assertTrue(plain.is_name(name), name)
        for name in ("", "-a", "a-", "1a", "a:b", "any", "flow", "pcp", "leaf", "x" * 65, "a.b", "é"):
            self.assertFalse(plain.is_name(name), name)

    def test_addresses_are_those_of_the_library(self):
        draw = random.Random(1)
        for _ in range(3000):
            word = "".join(draw.choice("012aF::::") for _ in range(draw.randrange(30)))
            try:
                wanted = int(ipaddress.IPv6Address(word))
            except ValueError:
                wanted = None
            self.assertEqual(wanted, plain.ipv6_number(word), word)
            if wanted is not None and wanted >> 32 != 0xFFFF:
                self.assertEqual(str(ipaddress.IPv6Address(wanted)), plain.ipv6_text(wanted))
        self.assertEqual("::ffff:a00:1", plain.ipv6_text(0xFFFF << 32 | 10 << 24 | 1))
        for number, text in ((0, "::"), (1, "::1"), (1 << 112, "1::"), (1 << 112 | 2 << 64 | 3, "1:0:0:2::3"),
                             (1 << 112 | 1 << 80 | 1 << 64 | 1 << 48 | 0x10002, "1:0:1:1:1:0:1:2")):
            self.assertEqual(text, plain.ipv6_text(number))

    def test_canonical_text(self):
        for given, wanted in (("dport {080, 443..443,1 .. 9}", "dport {80, 443, 1..9}"), ("not proto{tcp}", "not proto 6"),
                              ("src 2001:DB8::0/32 or dst 10.0.0.1", "src 2001:db8::/32 or dst 10.0.0.1/32"),
                              ("tcpflags ack+syn/ cwr+syn+ack and ipv4", "tcpflags syn+ack/syn+ack+cwr and ipv4"),
                              ("tcpflags none/fin", "tcpflags none/fin"), ("pcp 7 and ethertype 2048", "pcp 7 and ethertype 2048")):
            self.assertEqual(wanted, plain.conditions_text(plain.conditions(given)))
        text = ("policy 3\nclass a-b prio 1 weight 2 when ipv4 or ipv6\nclass rest\nleaf l-1 using fifo limit 3 classes a-b\n"
                "leaf b using strict slack 5 classes rest\nnode root using rr children l-1 b\n")
        self.assertEqual((text, 0), plain.check(text))
        self.assertEqual((text, 0), plain.check("\n\tpolicy 03 # {\n" + text[9:].replace("prio 1 weight 2", "weight 02 prio 1").replace("{", " { ")))

    def test_errors(self):
        for text, code, line in (("policy 3\nclass a when dport {80\n" + REST, 23, 2), ("policy 3\n" + REST + "class b when pcp 8", 23, 4),
                                 ("policy 3\nshape {\n", 24, 2), ("policy 3\nclass \x7f", 22, 2),
                                 ("policy 3{", 23, 1), ("policy 3\nclass any", 23, 2), ("policy 3\n" + "#" * 1048576, 21, 0),
                                 ("policy 3\nclass a when tcpflags syn/ack", 23, 2)):
            self.assertEqual(("fault policy %d %d\n" % (code, line), 3), plain.check(text))
        self.assertRaises(ValueError, plain.check, "policy 2\n" + REST)


class Packets(unittest.TestCase):
    def test_fields_of_version_3_alone(self):
        vlan = bytes(12) + bytes.fromhex("8100 a007 88a8 2009 0800") + SYN
        for link, data, wanted in (
                (1, vlan, (5, 0x0800, 2)), (1, vlan[:18], (5, 0x88A8, None)), (1, vlan[:17], (None, 0x8100, None)),
                (1, vlan[:13], (None, None, None)),
                (1, bytes(12) + bytes.fromhex("8100 e001 8100 0001 8100 0001 0800") + SYN, (7, 0x8100, None)),
                (1, bytes(12) + b"\x08\x06" + bytes(28), (None, 0x0806, None)),
                (101, SYN, (None, 0x0800, 2)), (101, SYN_ACK_6, (None, 0x86DD, 0x12)), (228, SYN_ACK_6, (None, None, None)),
                (229, SYN_ACK_6, (None, 0x86DD, 0x12)), (101, SYN[:19], (None, None, None)),
                (101, SYN[:33], (None, 0x0800, None)), (101, SYN[:34], (None, 0x0800, 2)), (101, SYN_ACK_6[:53], (None, 0x86DD, None)),
                (101, SYN_ACK_6[:54], (None, 0x86DD, 0x12)),
                (0, b"\2\0\0\0" + SYN, (None, None, 2)), (108, b"\0\0\0\x18" + SYN_ACK_6, (None, None, 0x12)), (147, SYN, (None, None, None)),
                (113, bytes(14) + b"\x08\0" + SYN, (None, 0x0800, 2)), (113, bytes(14) + bytes.fromhex("8100 6007 0800") + SYN, (3, 0x0800, 2)),
                (276, b"\x08\0" + bytes(18) + SYN, (None, 0x0800, 2)),
                (276, b"\x08\x06", (None, 0x0806, None)), (276, b"\x81\0" + bytes(18) + bytes.fromhex("e007 86dd") + SYN_ACK_6, (7, 0x86DD, 0x12)),
                (276, b"\x81\0" + bytes(21), (None, 0x8100, None))):
            self.assertEqual(wanted, tuple(plain_fields.more(link, data)), (link, data.hex()))
        self.assertIsNone(plain_fields.more(101, SYN[:6] + b"\0\2" + SYN[8:]).flags)
        self.assertEqual(2, plain_fields.more(101, SYN[:6] + b"\x20\0" + SYN[8:]).flags)
        self.assertEqual(2, plain_fields.more(101, b"\x46" + SYN[1:20] + bytes(4) + SYN[20:]).flags)

    def test_conditions(self):
        for asked, wanted in (("dport {80, 443}", True), ("dport {80, 444..500}", False), ("not dport 443", False), ("not vlan 7", True),
                              ("vlan 0..4095", False), ("not pcp 0..7", True),
                              ("src 10.0.0.0/31", True), ("dst 192.0.2.0/32", False), ("src ::/0", False), ("not src ::/0", True),
                              ("tcpflags syn/syn+ack", True), ("tcpflags none/syn", False), ("tcpflags none/ack", True),
                              ("ethertype 2048 and len 40", True), ("len 41", False), ("ipv6 or proto tcp and sport 5", True),
                              ("ipv6 or ipv6", False), ("", True), ("not ipv4 or not ipv6", True)):
            self.assertEqual("yes" if wanted else "no",
                             plain.class_of([plain.Class("yes", (), plain.conditions(asked)), plain.Class("no", (), ())], RAW, SYN), asked)
        for bits, wanted in ((0, True), (1, True), (63, True), (64, False), (127, False), (128, False)):
            found = plain.class_of([plain.Class(True, (), plain.conditions("src 2001:db8:0:1::1/%d" % bits)), plain.Class(False, (), ())], RAW,
                                   SYN_ACK_6)
            self.assertEqual(wanted, found, bits)
        self.assertEqual("yes", plain.class_of([plain.Class("yes", (),
                                                            plain.conditions("not dport 80 and not ipv4 and not tcpflags none/none and len 7")),
                                                            plain.Class("no", (), ())], RAW, b"", 7))


class StandIn:
    """The program, as plain Python answers."""

    def __call__(self, words, folder):
        command, *names = [word.decode() for word in words[2:]]
        read = lambda name: pathlib.Path(folder, name).read_bytes()
        text = read(names[0]).decode()
        shown, status = plain.check(text)
        if status or command == "check":
            return status, shown.encode()
        classes = [one for one in plain.statements(text) if isinstance(one, plain.Class)]
        leaves = [plain.class_of(classes, link, data, length) for link, data, length in plain_captures.packets(read(names[1]))]
        return 0, "".join("a %d %d %s 0/0\n" % (at, at, leaf) for at, leaf in enumerate(leaves, 1)).encode() + b"end\n"


class Tool(unittest.TestCase):
    def told(self, *changes, answer=StandIn(), runs=25):
        """The status and the output of a few runs, with these parts of the model exchanged while the program answers."""
        def ask(words, folder):
            with contextlib.ExitStack() as stack:
                for where, name, value in changes:
                    stack.enter_context(mock.patch.object(where, name, value))
                return answer(words, folder)
        with mock.patch.object(built.runner, "run_program", ask), mock.patch.object(built, "program", lambda *_, **__: "/program"), \
                mock.patch.object(drawn_runs.os, "cpu_count", lambda: 1), mock.patch.object(sys, "argv",
                    ["conditions", "--runs", str(runs), "--seed", "7"]), contextlib.redirect_stdout(io.StringIO()) as shown:
            status = drawn_runs.main("conditions", None, conditions.Run)
        return status, shown.getvalue()

    def test_right_answers(self):
        self.assertEqual((0, "conditions: 25 runs of seed 7, 275 answers, 0 that differ\n"), self.told())

    def test_wrong_answers(self):
        """A program with a mistake is found out."""
        holds, more, flags, mapped = plain.holds, plain_fields.more, plain.flags_text, plain.MOST
        wrong = {
            "an absent field doesn't meet `not`": [(plain, "belongs", lambda given, found, more, length: not given or any(all(
                (holds(test, found, more, length) if not test.negated else not holds(test, found, more, length) and (
                    test.subject not in mapped or plain.number(test, found, more, length) is not None)) for test in tests) for tests in given))],
            "`or` binds more tightly than `and`": [(plain, "belongs", lambda given, found, more, length: not given or all(any(
                holds(test, found, more, length) != test.negated for test in tests) for tests in given))],
            "only the first range counts": [(plain, "holds", lambda test,
                                             *rest: holds(test._replace(values=test.values[:1]) if test.subject in mapped else test, *rest))],
            "a range without its end": [(plain, "holds", lambda test, *rest: holds(test._replace(values=tuple(
                (low, max(low, high - 1)) for low, high in test.values)) if test.subject in mapped else test, *rest))],
            "a type without its tags": [(plain_fields, "TYPED", {})],
            "no flags over IPv6": [(plain_fields, "tcp_flags", lambda data: None)],
            "flags in another order": [(plain, "flags_text", lambda number: "+".join(reversed(flags(number).split("+"))))],
            "a braced number": [(plain, "a_range", lambda reader, field: (reader.number(0, mapped[field]),) * 2)],
            "addresses in capitals": [(plain, "ipv6_text", lambda number: "%X::" % (number >> 112))],
            "a priority below 7": [(plain, "MOST", dict(mapped, pcp=6))],
            "no priorities": [(plain_fields, "more", lambda link, data: more(link, data)._replace(pcp=None))]}
        for name, changes in wrong.items():
            status, text = self.told(*changes, runs=20)
            self.assertEqual((1, False), (status, text.endswith(" 0 that differ\n")), name)

    def test_a_program_that_fails(self):
        self.assertEqual((1, True), (self.told(answer=lambda words, folder: (-11, b""))[0], True))

    def test_runs_are_drawn_from_the_seed_and_the_number(self):
        runs = [conditions.Run(*drawn) for drawn in ((5, 7), (5, 7), (5, 8), (6, 7))]
        self.assertEqual(runs[0].files, runs[1].files)
        self.assertNotIn(runs[0].files, [run.files for run in runs[2:]])

    def test_texts_are_spelled_otherwise_and_changed(self):
        told = {plain.check(text)[1] for number in range(1, 30) for text in conditions.Run(2, number).texts.values()}
        self.assertEqual({0, 3}, told)
        for number in range(1, 60):
            run = conditions.Run(2, number)
            self.assertEqual(((run.policy.text, 0),) * 2, (plain.check(run.policy.text), plain.check(run.policy.spelled)))

    def test_without_a_program(self):
        done = subprocess.run([sys.executable, "-B", str(HERE / "conditions"), "--front", "/nothing"], capture_output=True, text=True, check=False)
        self.assertEqual(3, done.returncode)


class Example(unittest.TestCase):
    """examples/conditions, of which docs/POLICY.md shows the answer."""

    def test_the_capture(self):
        self.assertEqual(packets.example(), (built.EXAMPLES / "conditions/capture").read_bytes())

    def test_the_classes_are_those_of_the_page(self):
        text, page = (built.EXAMPLES / "conditions/policy").read_text(), (HERE.parent.parent / "docs/POLICY.md").read_text()
        classes = [one for one in plain.statements(text) if isinstance(one, plain.Class)]
        found = [plain.class_of(classes, *packet) for packet in plain_captures.packets(packets.example())]
        for name in {one.name for one in classes}:
            self.assertIn("    %7d %s\n" % (found.count(name), name), page)


class Suites(unittest.TestCase):
    def test_the_suites_are_those_that_make_conditions_writes(self):
        for words, name in ([], "front_conditions"), (["grammar"], "front_grammar"):
            done = subprocess.run([sys.executable, "-B", HERE / "make_conditions", *words], check=True, capture_output=True)
            self.assertEqual((HERE.parent / ("cases/%s.jsonl" % name)).read_bytes(), done.stdout)


if __name__ == "__main__":
    unittest.main()
