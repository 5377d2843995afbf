"""plain_runs.py on settings and runs worked out by hand, and tests/tools/limits on answers that are right and wrong."""
import contextlib
import importlib.machinery
import importlib.util
import io
import pathlib
import random
import subprocess
import sys
import unittest
from unittest import mock

import built
import drawn_runs
import limit_packets
import link_packets as made
import plain_captures
import plain_policies as plain
import plain_runs as runs

HERE = pathlib.Path(__file__).resolve().parent
RAW, NO_LINK = made.headers.RAW, 147


def loaded():
    """tests/tools/limits as a module."""
    loader = importlib.machinery.SourceFileLoader("limits", str(HERE / "limits"))
    module = importlib.util.module_from_spec(importlib.util.spec_from_loader("limits", loader))
    loader.exec_module(module)
    return module


limits = loaded()


def frame(source, target="10.1.0.1", port=80):
    return made.ipv4(made.UDP, 0, source, target, made.udp(1, port))


def queueing(settings):
    return plain.statement(plain.tokens("leaf a using fifo %s classes all" % settings))


class Settings(unittest.TestCase):
    def test_any_order_has_one_canonical_text(self):
        parts = ["prio 1", "weight 2", "slack 3", "limit 4", "limit 5 bytes", "limit 6 per flow", "flow by src dst"]
        wanted = "leaf a using fifo %s classes all" % " ".join(parts)
        draw = random.Random(1)
        for _ in range(50):
            draw.shuffle(parts)
            self.assertEqual(wanted, plain.text_of(queueing(" ".join(parts))))

    def test_each_form(self):
        for given, wanted in (("limit 4", plain.Queueing(4)), ("limit 4 packets", plain.Queueing(4)), ("limit 4 bytes", plain.Queueing(None, 4)),
                              ("limit 4 per flow", plain.Queueing(None, None, 4)), ("flow by 5tuple", plain.Queueing(by="5tuple")),
                              ("flow by src", plain.Queueing(by="src")), ("flow by dst", plain.Queueing(by="dst")),
                              ("flow by src dst", plain.Queueing(by="src dst")), ("", plain.Queueing()),
                              ("flow by src limit 4294967295 bytes limit 4194304 limit 4194304 per flow",
                               plain.Queueing(4194304, 4294967295, 4194304, "src"))):
            self.assertEqual(wanted, queueing(given).queueing)

    def test_malformed_ones(self):
        for given in ("limit", "limit 0", "limit 4194305", "limit 4194305 packets", "limit 4194305 per flow", "limit 4294967296 bytes",
                      "limit 0 bytes", "limit 0 per flow", "limit 4 limit 4", "limit 4 limit 5 packets", "limit 4 bytes limit 5 bytes",
                      "limit 4 per flow limit 4 per flow", "limit 4 per", "limit 4 flow", "limit 4 per flow by src", "limit bytes 4",
                      "limit 4 packets bytes", "limit 4packets", "limit 4 kilobytes", "flow", "flow by", "flow by src src", "flow by dst src",
                      "flow by src dst dst", "flow by 5-tuple", "flow by 5", "flow by sport", "flow src", "by src", "flow by src flow by src",
                      "flow by src, dst", "packets 4", "prio 1 prio 1", "limit 1..4", "limit {4}"):
            self.assertRaises(plain.Rejected, queueing, given)


class Runs(unittest.TestCase):
    def report(self, policy, given, script):
        """The report of a run on pairs of captured bytes and a length, a nanosecond apart."""
        packets = runs.packets_of(RAW, [(data, length, at) for at, (data, length) in enumerate(given, 1)])
        return runs.scripted(runs.Policy("policy 3\n" + policy), packets, script)[1]

    def test_packets_and_bytes(self):
        given = [(frame("10.0.0.%d" % at), 100) for at in range(5)]
        for settings, dropped in (("limit 2", [3, 4, 5]), ("limit 300 bytes", [4, 5]), ("limit 299 bytes", [3, 4, 5]), ("limit 99 bytes", [1, 2, 3, 4, 5]),
                                  ("limit 1 per flow", []), ("limit 4 limit 100 bytes", [2, 3, 4, 5])):
            told = self.report("class all\nleaf root using fifo %s classes all\n" % settings, given, "rest\n")
            self.assertEqual(dropped, [int(line.split()[2]) for line in told if line[0] == "x"], settings)

    def test_a_limit_for_each_flow(self):
        given = [(frame(*one), 100) for one in (("10.0.0.1",), ("10.0.0.1",), ("10.0.0.1", "10.1.0.2"), ("10.0.0.1", "10.1.0.1", 81), ("10.0.0.2",))]
        for by, dropped in (("", [2]), (" flow by 5tuple", [2]), (" flow by src", [2, 3, 4]), (" flow by dst", [2, 4, 5]),
                            (" flow by src dst", [2, 4])):
            told = self.report("class all\nleaf root using fifo limit 1 per flow%s classes all\n" % by, given, "rest\n")
            self.assertEqual(dropped, [int(line.split()[2]) for line in told if line[0] == "x"], by)

    def test_a_limit_at_a_node_counts_all_below_it(self):
        policy = ("class web when dport 80\nclass rest\nleaf a using fifo classes web\nleaf b using fifo classes rest\n"
                  "node in using strict limit 250 bytes children a b\nnode root using fifo children in\n")
        told = self.report(policy, [(frame("10.0.0.1"), 200), (frame("10.0.0.1", port=81), 51), (frame("10.0.0.1", port=81), 50)], "rest\nd\n")
        self.assertEqual(["a 1 1 a 0/0/0", "x 2 2 b", "a 3 3 b 0/0/0", "d 4 1 a 0/0/0",
                          "end pushed 2 popped 1 empty 0 held 1 unsent 0 dropped 1"], told)

    def test_variables_for_each_flow(self):
        policy = "class all\nleaf root using rr%s classes all\n"
        given = [(frame("10.0.0.1"), 9), (frame("10.0.0.1", port=81), 9), (frame("10.0.0.2"), 9)]
        for by, ranks in (("", [0, 0, 0]), (" flow by src", [0, 1, 0]), (" flow by dst", [0, 1, 2])):
            told = self.report(policy % by, given, "rest\n")
            self.assertEqual(ranks, [int(line.split()[4]) for line in told if line[0] == "a"], by)

    def test_a_dropped_packet_raises_now_alone(self):
        policy = "class all\ntransaction t\nkeep n 0..9 = 0\npush n = n + 1\npush rank = now\nleaf root using t limit 1 classes all\n"
        self.assertEqual(["a 1 1 root 1", "x 2 2 root", "d 3 1 root 1", "a 4 3 root 3", "end pushed 2 popped 1 empty 0 held 1 unsent 0 dropped 1"],
                         self.report(policy, [(b"", 1)] * 3, "a 2\nd\na\n"))

    def test_packets_without_an_ip_header_are_one_flow(self):
        for by in plain.KEYS:
            told = self.report("class all\nleaf root using fifo limit 1 per flow flow by %s classes all\n" % by, [(b"", 1), (b"\x11" * 20, 1),
                (frame("0.0.0.0", "0.0.0.0"), 1)], "rest\n")
            self.assertEqual("axa", "".join(line[0] for line in told[:3]), by)

    def test_a_link(self):
        policy = runs.Policy("policy 3\nclass all\nleaf root using fifo limit 1 classes all\n")
        packets = runs.packets_of(RAW, [(b"", 1, 1000), (b"", 1, 1000), (b"", 1, 1001), (b"", 1, 5000)])
        self.assertEqual(["a 1 1 root 0", "x 2 2 root", "d 3 1 root 0 1000", "a 4 3 root 0", "d 5 3 root 0 2000", "a 6 4 root 0",
                          "d 7 4 root 0 5000", "end pushed 3 popped 3 empty 0 held 0 unsent 0 dropped 1"],
                         runs.linked(policy, packets, 10**6)[1])

    def test_expressions(self):
        known = {"len": 7, "now": 100}
        for text, wanted in (("len + now * 2", 207), ("7 - 5 - 3", -1), ("(0 - 7) / 2", -3), ("7 / (0 - 2)", -3), ("100 / 10 / 2", 5),
                             ("if(and(len < 8, not(now == 1)), min(len, 3), 9)", 3), ("max(len, now) - len", 93), ("or(1 < 0, 1 >= 1)", True)):
            self.assertEqual(wanted, runs.expression(plain.Reader(plain.tokens(text)))(known), text)


class StandIn:
    """The program, as plain Python answers."""

    def __call__(self, words, folder):
        command, *names = [word.decode() for word in words[2:] if word != b"--block"]
        read = lambda name: pathlib.Path(folder, name).read_bytes()
        text = read(names[0]).decode()
        shown, status = limits.checked(text)
        if status or command == "check":
            return status, shown.encode()
        capture = read("c")
        times = [(high << 32 | low) * 1000 for high, low in plain_times(capture)]
        packets = runs.packets_of(None, [(*one, time) for one, time in zip(plain_captures.packets(capture), times)])
        if command == "link":
            told = runs.linked(runs.Policy(text), packets, int(names[-1]))[1]
        else:
            run, told = runs.scripted(runs.Policy(text), packets, read("e").decode())
            if "tap" in names:
                told = [*told, "tap drops %d %d" % (len(run.dropped), sum(packets[number - 1].length for number in run.dropped))]
        told = [*told, "spills 0"] if b"--block" in words else told
        return 0, "".join(line + "\n" for line in told).encode()


def plain_times(capture):
    """The high and the low half of the time of each enhanced block, little endian."""
    at = 0
    while at < len(capture):
        kind, total = (int.from_bytes(capture[at + each:at + each + 4], "little") for each in (0, 4))
        if kind == plain_captures.ENHANCED:
            yield tuple(int.from_bytes(capture[at + each:at + each + 4], "little") for each in (12, 16))
        at += total


class Tool(unittest.TestCase):
    def told(self, *changes, answer=StandIn(), count=12):
        """The status and the output of a few runs, with these parts of the model exchanged while the program answers."""
        def ask(words, folder):
            with contextlib.ExitStack() as stack:
                for where, name, value in changes:
                    stack.enter_context(mock.patch.object(where, name, value))
                return answer(words, folder)
        with mock.patch.object(built.runner, "run_program", ask), mock.patch.object(built, "program", lambda *_, **__: "/program"), \
                mock.patch.object(drawn_runs.os, "cpu_count", lambda: 1), mock.patch.object(sys, "argv",
                    ["limits", "--runs", str(count), "--seed", "7"]), contextlib.redirect_stdout(io.StringIO()) as shown:
            status = drawn_runs.main("limits", None, limits.Run)
        return status, shown.getvalue()

    def test_right_answers(self):
        status, text = self.told()
        self.assertEqual((0, True), (status, text.endswith(" 0 that differ\n")), text)

    def test_wrong_answers(self):
        """A program with a mistake is found out."""
        group, path, step, policy = runs.group, runs.Policy.path, runs.Run.step, runs.Policy.__init__

        def without(**none):
            """Policies whose limits of some kind, or flows, don't count."""
            def read(self, text):
                policy(self, text)
                self.nodes = {name: node._replace(queueing=node.queueing._replace(**none)) for name, node in self.nodes.items()}
            return [(runs.Policy, "__init__", read)]

        def full_at_the_leaf(self, packet):
            with mock.patch.object(runs.Policy, "path", lambda self, leaf: path(self, leaf)[-1:]):
                return is_full(self, packet)

        def by_own_flow(self, kind, node, below, packet, rank):
            by = node.queueing._replace(by=None) if kind == "pop" else node.queueing
            return step(self, kind, node._replace(queueing=by), below, packet, rank)

        is_full = runs.Run.is_full
        wrong = {
            "no limit of packets": without(packets=None), "no limit of bytes": without(bytes=None), "no limit for each flow": without(per_flow=None),
            "always the own flow": without(by=None),
            "only the leaf's limits": [(runs.Run, "is_full", full_at_the_leaf)],
            "the flow of a pop is the own one": [(runs.Run, "step", by_own_flow)],
            "the source for the destination": [(runs, "group", lambda by, packet: group({"dst": "src"}.get(by, by), packet))],
            "no IP version": [(runs, "group", lambda by, packet: tuple(
                int.from_bytes(part, "big") if isinstance(part, bytes) else part for part in group(by, packet)[1:]))],
            "limits in another order": [(plain, "UNITS", {"packets": "", "per_flow": " per flow", "bytes": " bytes"})],
            "a lower limit": [(plain, "LIMITS", dict(plain.LIMITS, packets=4194303))],
            "no keys of both": [(plain, "KEYS", ("src", "dst", "5tuple"))]}
        for name, changes in wrong.items():
            status, text = self.told(*changes, count=20)
            self.assertEqual((1, False), (status, text.endswith(" 0 that differ\n")), name)

    def test_a_program_that_fails(self):
        self.assertEqual(1, self.told(answer=lambda words, folder: (-11, b""))[0])

    def test_runs_are_drawn_from_the_seed_and_the_number(self):
        some = [limits.Run(*drawn) for drawn in ((5, 7), (5, 7), (5, 8), (6, 7))]
        self.assertEqual(some[0].files, some[1].files)
        self.assertNotIn(some[0].files, [one.files for one in some[2:]])

    def test_each_limit_drops_packets(self):
        """The runs have drops by each limit, and a good part of the packets isn't dropped."""
        arrived = dropped = 0
        met = {word: 0 for word in plain.UNITS}
        for at in range(1, 60):
            run = limits.Run(3, at)
            for word in met:
                policy = runs.Policy(run.text)
                policy.nodes = {name: node._replace(queueing=node.queueing._replace(**{other: None for other in met if other != word}))
                                for name, node in policy.nodes.items()}
                met[word] += runs.scripted(policy, run.packets, run.script)[0].counts["dropped"]
            counts = runs.scripted(runs.Policy(run.text), run.packets, run.script)[0].counts
            arrived, dropped = arrived + counts["pushed"], dropped + counts["dropped"]
        self.assertTrue(all(count > 50 for count in met.values()), met)
        self.assertGreater(arrived, dropped)

    def test_texts_are_spelled_otherwise_and_changed(self):
        told = {limits.checked(text)[1] for number in range(1, 30) for text in limits.Run(2, number).texts.values()}
        self.assertEqual({0, 3}, told)
        for number in range(1, 60):
            run = limits.Run(2, number)
            self.assertEqual(((run.text, 0),) * 2, (limits.checked(run.text), limits.checked(run.files["o"])))

    def test_without_a_program(self):
        done = subprocess.run([sys.executable, "-B", str(HERE / "limits"), "--front", "/nothing"], capture_output=True, text=True, check=False)
        self.assertEqual(3, done.returncode)


class Example(unittest.TestCase):
    """examples/limits, of which docs/COOKBOOK.md shows the answers."""

    def test_the_capture(self):
        self.assertEqual(limit_packets.example(), (built.EXAMPLES / "limits/capture").read_bytes())

    def test_the_answers_are_those_of_the_page(self):
        comment, _, text = (built.EXAMPLES / "limits/policy").read_text().partition("\n")
        self.assertEqual((True, (text, 0)), (comment.startswith("# "), plain.check(text)))
        page = (HERE.parent.parent / "docs/COOKBOOK.md").read_text()
        packets = runs.packets_of(None, [(*one, 10**9) for one in plain_captures.packets(limit_packets.example())])
        self.assertIn("".join("    %s\n" % line for line in text.splitlines()), page)
        for policy in (text, text.replace("limit 12 per flow ", "")):
            told = [line.split() for line in runs.linked(runs.Policy(policy), packets, 1250000)[1]]
            dropped = [words[3] for words in told if words[0] == "x"]
            self.assertIn("".join("    %7d %s\n" % (dropped.count(leaf), leaf) for leaf in sorted(set(dropped))), page)
            if policy == text:
                self.assertIn("    %s\n" % " ".join([words[2] for words in told if words[0] == "d"][:12]), page)


class Suites(unittest.TestCase):
    def test_the_suites_are_those_that_make_limits_writes(self):
        for words, name in ([], "front_limits"), (["grammar"], "front_settings"):
            done = subprocess.run([sys.executable, "-B", HERE / "make_limits", *words], check=True, capture_output=True)
            self.assertEqual((HERE.parent / ("cases/%s.jsonl" % name)).read_bytes(), done.stdout)


if __name__ == "__main__":
    unittest.main()
