"""docs/COOKBOOK.md: the shares and orders that it claims, in runs of its policies, as integers.

The program is the built one of the repository, or that of the variable ZOVATSEMO.
"""
import collections
import os
import pathlib
import struct
import subprocess
import tempfile
import unittest

import pages

COOKBOOK, UPLINK = pages.TOP / "examples/cookbook", pages.TOP / "examples/uplink"
TARGET, ONE_QUEUE = COOKBOOK / "target", pages.TOP / "examples/one-leaf/target"
PAGE = pages.TOP / "docs/COOKBOOK.md"
PROGRAM = pathlib.Path(os.environ.get("ZOVATSEMO", pages.TOP / pages.PROGRAM)).resolve()
POLICIES = sorted(path for path in COOKBOOK.iterdir() if path.name not in ("capture", "target"))
TEN, TWENTY = 1250000, 2500000  # Mbit/s, in bytes a second
MILLISECOND, BILLION = 10 ** 6, 10 ** 9

Packet = collections.namedtuple("Packet", "timestamp length flow")
Event = collections.namedtuple("Event", "is_departure packet leaf ranks start")


def packets_of(path):
    """Each packet of a classic capture in nanoseconds; the flow is its addresses, protocol and ports."""
    data, at, found = path.read_bytes(), 24, []
    while at < len(data):
        seconds, nanoseconds, captured, length = struct.unpack_from("<IIII", data, at)
        frame = data[at + 16:at + 16 + captured]
        found.append(Packet(seconds * BILLION + nanoseconds, length, (frame[23], frame[26:38])))
        at += 16 + captured
    return found


def printed(*words, text=None):
    """What the program prints."""
    return subprocess.run([PROGRAM, *(str(word) for word in words)], input=text, check=True, capture_output=True,
                          text=True, timeout=pages.TIMEOUT).stdout


def events_of(report):
    """Arrivals and departures in their order; a packet has its index in the capture."""
    for line in report.splitlines():
        kind, _, *words = line.split()
        if kind in ("a", "d"):
            packet, leaf, ranks = words[:3]
            yield Event(kind == "d", int(packet) - 1, leaf, tuple(int(rank) for rank in ranks.split("/")),
                        int(words[3]) if words[3:] else None)


def departures_of(report):
    """The departures in their order."""
    return [event for event in events_of(report) if event.is_departure]


def changed(folder, name, old, new):
    """A policy of the cookbook with one text replaced by another."""
    text = (COOKBOOK / name).read_text()
    assert text.count(old) == 1, old
    path = pathlib.Path(folder) / name
    path.write_text(text.replace(old, new))
    return path


def textbook(packets, classes, quanta):
    """The start and index of each packet on a link of TEN, under deficit round robin with a list of active queues."""
    queues, credit = {name: collections.deque() for name in quanta}, dict.fromkeys(quanta, 0)
    active, sent, free, arrived, is_new_turn = collections.deque(), [], 0, 0, True
    while active or arrived < len(packets):
        if not active:
            free = max(free, packets[arrived].timestamp)
        if arrived < len(packets) and (not active or packets[arrived].timestamp <= free):
            if not queues[classes[arrived]]:
                active.append(classes[arrived])
            queues[classes[arrived]].append(arrived)
            arrived += 1
            continue
        name = active[0]
        credit[name] += quanta[name] if is_new_turn else 0
        is_new_turn = packets[queues[name][0]].length > credit[name]
        if is_new_turn:
            active.rotate(-1)
            continue
        number = queues[name].popleft()
        credit[name] -= packets[number].length
        sent.append((free, number))
        free += -(-packets[number].length * BILLION // TEN)
        if not queues[name]:
            active.popleft()
            credit[name], is_new_turn = 0, True
    return sent


class Cookbook(unittest.TestCase):
    """Runs of the policies of the cookbook."""

    @classmethod
    def setUpClass(cls):
        cls.tenants, cls.uplink = packets_of(COOKBOOK / "capture"), packets_of(UPLINK / "capture")

    def link(self, policy, capture, rate, target=TARGET):
        """The events on a link."""
        return list(events_of(printed("link", policy, target, capture / "capture", rate)))

    def sent(self, policy):
        """The departures of the tenants' capture on a link."""
        return [event for event in self.link(policy, COOKBOOK, TEN) if event.is_departure]

    def bytes_of(self, departures, name=lambda event: event.leaf):
        """The bytes that departed, by leaf or another name."""
        total = collections.Counter()
        for event in departures:
            total[name(event)] += self.tenants[event.packet].length
        return total

    def assert_queued(self, rest, leaves):
        """That each leaf has packets queued before the rest of the departures."""
        self.assertEqual(len({event.leaf for event in rest}), leaves)

    def delays(self, events):
        """The longest delay of each leaf of the uplink, in nanoseconds."""
        longest = collections.Counter()
        for event in events:
            if event.is_departure:
                longest[event.leaf] = max(longest[event.leaf], event.start - self.uplink[event.packet].timestamp)
        return longest

    def check_order(self, events, key):
        """That each departure is the first of the queued packets by a key, and the first to arrive of those."""
        queued = {}
        for position, event in enumerate(events):
            if event.is_departure:
                self.assertEqual(min(queued, key=queued.get), event.packet)
                del queued[event.packet]
            else:
                queued[event.packet] = (key(event), position)
        self.assertFalse(queued)

    def test_policies_are_on_the_page_in_canonical_form(self):
        self.assertEqual(len(POLICIES), 7)
        for policy in POLICIES:
            comment, _, text = policy.read_text().partition("\n")
            self.assertTrue(comment.startswith("# "))
            self.assertEqual(printed("check", policy), text)
            self.assertRegex(PAGE.read_text(), r"\$ ./zovatsemo check examples/cookbook/%s[\n ]" % policy.name)

    def test_strict_priority(self):
        events = self.link(COOKBOOK / "strict", UPLINK, TEN)
        self.check_order(events, lambda event: ("voice", "web", "backup").index(event.leaf))
        self.assertEqual(self.delays(events)["voice"], 1160000)

    def test_weighted_fair(self):
        sent = self.sent(COOKBOOK / "weighted-fair")
        for count in range(9, 46, 9):
            total = self.bytes_of(sent[:count])
            self.assertEqual(total["web"], 3 * total["mail"])
        self.assertEqual(total, {"web": 30000, "mail": 10000})
        self.assert_queued(sent[45:], 2)
        leaves = [event.leaf for event in sent[:54]]
        self.assertNotIn(("web", "web"), zip(leaves, leaves[1:]))

    def test_hierarchical_fair(self):
        sent = self.sent(COOKBOOK / "tenants")
        self.assertEqual(self.bytes_of(sent[:57]),
                         {"red_web": 12000, "red_mail": 12000, "blue_web": 6000, "blue_mail": 6000})
        self.assert_queued(sent[57:], 4)

    def test_tenants_share_as_queues_do(self):
        one, other = ([line for line in (COOKBOOK / name).read_text().splitlines()
                       if line.startswith(("transaction", "keep", "each", "push", "pop"))]
                      for name in ("tenants", "weighted-fair"))
        self.assertEqual(one, other)

    def test_a_tenant_with_one_queue_has_the_same_share(self):
        with tempfile.TemporaryDirectory() as folder:
            policy = changed(folder, "tenants", "node blue using shares children blue_web blue_mail",
                             "leaf blue using fifo classes blue_web blue_mail")
            policy.write_text("".join(line for line in policy.read_text().splitlines(True)
                                      if not line.startswith(("leaf blue_web", "leaf blue_mail"))))
            one, two = ([event.leaf.split("_")[0] for event in self.sent(each)]
                        for each in (policy, COOKBOOK / "tenants"))
        self.assertEqual(one, two)

    def test_least_slack(self):
        slack = {"voice": 5 * MILLISECOND, "web": 30 * MILLISECOND, "backup": 35 * MILLISECOND}
        events = self.link(COOKBOOK / "least-slack", UPLINK, TWENTY)
        self.check_order(events, lambda event: self.uplink[event.packet].timestamp + slack[event.leaf])
        self.assertTrue(all(delay <= slack[leaf] for leaf, delay in self.delays(events).items()))
        strict = self.delays(self.link(COOKBOOK / "strict", UPLINK, TWENTY))
        self.assertEqual([leaf for leaf in slack if strict[leaf] > slack[leaf]], ["backup"])

    def test_fair_among_flows(self):
        report = printed("link", COOKBOOK / "per-flow-fair", ONE_QUEUE, COOKBOOK / "capture", TEN)
        sent = departures_of(report)
        for count in range(38, 115, 38):
            total = self.bytes_of(sent[:count], lambda event: self.tenants[event.packet].flow)
            self.assertEqual(sorted(total.values()), 4 * [6000 * count // 38])
        calls = {number for number, packet in enumerate(self.uplink) if packet.length == 200}
        for policy, target, longest in ((COOKBOOK / "per-flow-fair", ONE_QUEUE, 3080000),
                                        (UPLINK / "first-come", UPLINK / "target", 146760000)):
            events = self.link(policy, UPLINK, TEN, target)
            self.assertEqual(max(event.start - self.uplink[event.packet].timestamp for event in events
                                 if event.is_departure and event.packet in calls), longest)

    def test_weighted_round_robin(self):
        sent = self.sent(COOKBOOK / "weighted-round-robin")
        rounds = collections.Counter((event.ranks[0], event.leaf) for event in sent[:50])
        self.assertEqual(rounds, {(turn, leaf): count for turn in range(10)
                                  for leaf, count in (("web", 2), ("mail", 3))})
        total = self.bytes_of(sent[:50])
        self.assertEqual(total, {"web": 30000, "mail": 12000})
        self.assertEqual(2 * total["web"], 5 * total["mail"])
        self.assert_queued(sent[50:], 2)

    def test_deficit_round_robin(self):
        sent = self.sent(COOKBOOK / "deficit-round-robin")
        rounds = collections.Counter((event.ranks[0], event.leaf) for event in sent[:85])
        self.assertEqual(rounds, {(turn, leaf): count for turn in range(1, 11)
                                  for leaf, count in (("web", 1), ("mail", 7 if turn % 2 else 8))})
        for count in range(17, 86, 17):
            total = self.bytes_of(sent[:count])
            self.assertEqual(2 * total["web"], total["mail"])
        self.assertEqual(total, {"web": 15000, "mail": 30000})
        self.assert_queued(sent[85:], 2)

    def test_deficit_round_robin_has_the_shares_of_any_weights(self):
        for web, mail in ((1, 1), (3, 2), (5, 1)):
            with tempfile.TemporaryDirectory() as folder:
                policy = changed(folder, "deficit-round-robin", "web using fifo", "web using fifo weight %d" % web)
                policy.write_text(policy.read_text().replace("fifo weight 2 classes mail",
                                                             "fifo weight %d classes mail" % mail))
                sent = self.sent(policy)
            rounds = max(event.ranks[0] for event in sent if event.leaf == "web")
            rounds = min(rounds, max(event.ranks[0] for event in sent if event.leaf == "mail"))
            for turn in range(1, rounds):
                total = self.bytes_of(event for event in sent if event.ranks[0] <= turn)
                for leaf, weight, length in (("web", web, 1500), ("mail", mail, 400)):
                    self.assertEqual(total[leaf], turn * 1500 * weight // length * length)

    def test_an_idle_queue_saves_no_share(self):
        for name in ("weighted-fair", "weighted-round-robin", "deficit-round-robin", "per-flow-fair"):
            target = ONE_QUEUE if name == "per-flow-fair" else TARGET
            for rate in (TEN, 10 * TEN):
                with self.subTest(name=name, rate=rate):
                    clock = 0
                    for event in self.link(COOKBOOK / name, UPLINK, rate, target):
                        self.assertGreaterEqual(event.ranks[0], clock)
                        clock = event.ranks[0] if event.is_departure else clock

    def test_a_queue_that_returns_has_its_packets_of_the_round(self):
        report = printed("direct", COOKBOOK / "weighted-round-robin", COOKBOOK / "capture", "/dev/stdin",
                         text="a 10\nd 10\na 2\n")
        *before, first, second = list(events_of(report))
        self.assertEqual((first.leaf, second.leaf, first.ranks[0]), ("web", "web", before[-1].ranks[0]))
        self.assertEqual(first.ranks, second.ranks)

    def test_a_queue_that_ran_empty_loses_its_credit(self):
        first = [number for number, packet in enumerate(self.tenants) if packet.length == 400][0]
        report = printed("direct", COOKBOOK / "deficit-round-robin", COOKBOOK / "capture", "/dev/stdin",
                         text="a %d\nd %d\na 2\nd 2\n" % (first + 1, first + 1))
        events = list(events_of(report))
        web, mail = (next(event for event in events if event.packet == first + step) for step in (-1, 1))
        self.assertEqual((web.leaf, mail.leaf), ("web", "mail"))
        self.assertEqual(mail.ranks[0], web.ranks[0] + 1)

    def test_deficit_round_robin_keeps_within_a_packet_of_the_textbook(self):
        quanta = {"web": 1500, "mail": 3000}
        events = self.link(COOKBOOK / "deficit-round-robin", UPLINK, TEN)
        classes = {event.packet: event.leaf for event in events}
        runs = [[(event.start, event.packet) for event in events if event.is_departure],
                textbook(self.uplink, classes, quanta)]
        self.assertEqual(*(sorted(number for _, number in run) for run in runs))
        ahead, farthest = collections.Counter(), 0
        both = sorted((start, sign, number) for sign, run in zip((1, -1), runs) for start, number in run)
        for _, sign, number in both:
            ahead[classes[number]] += sign * self.uplink[number].length
            farthest = max(farthest, *(abs(count) for count in ahead.values()))
        self.assertEqual(farthest, 1500)


if __name__ == "__main__":
    unittest.main()
