"""A generated load reckoned with plain lists, by what docs/POLICY.md and docs/FORMATS.md say of the office and of `soak`: nothing
of the program is used."""

FIRST, GROUPS = "root", {"urgent": ["voice", "video", "ssh", "dns"], "normal": ["web", "mail", "backup", "other"]}
CLASSES = ["voice", "video", "ssh", "dns", "web", "mail", "backup", "other"]
WEIGHTS = {"voice": 4, "video": 2, "web": 4, "mail": 2}
PRIORITIES = {"urgent": 0, "normal": 1}


class FairShare:
    """Start-time fair queueing: ranks by what each child or flow has used."""

    def __init__(self):
        self.virtual, self.last = 0, {}

    def push(self, who, length, weight):
        rank = max(self.virtual, self.last.get(who, 0))
        self.last[who] = rank + length * 1000 // weight
        return rank

    def pop(self, rank):
        self.virtual = rank


class Draws:
    def __init__(self, seed):
        self.state = seed

    def next(self):
        self.state = (self.state * 6364136223846793005 + 1442695040888963407) % 2**64
        return self.state >> 33


class Office:
    """The queues as lists of rank and value, in the order of their pushes."""

    def __init__(self):
        self.queues = {name: [] for name in [FIRST, *GROUPS, *CLASSES]}
        self.shares = {name: FairShare() for name in [*GROUPS, "web"]}

    def push(self, packet, leaf, length, flow):
        group = next(name for name, leaves in GROUPS.items() if leaf in leaves)
        self.queues[FIRST].append((PRIORITIES[group], group))
        self.queues[group].append((self.shares[group].push(leaf, length, WEIGHTS.get(leaf, 1)), leaf))
        self.queues[leaf].append((self.shares["web"].push(flow, length, 1) if leaf == "web" else 0, packet))

    def pop(self):
        at = FIRST
        while at in self.queues:
            queue = self.queues[at]
            if not queue:
                return None
            place = min(range(len(queue)), key=lambda k: queue[k][0])
            rank, value = queue.pop(place)
            if at in self.shares:
                self.shares[at].pop(rank)
            at = value
        return at


def line(seed, count):
    """The line of `soak`."""
    draws, office = Draws(seed), Office()
    pushed = popped = empty = total = 0

    def depart():
        nonlocal popped, empty, total
        packet = office.pop()
        if packet is None:
            empty += 1
        else:
            popped, total = popped + 1, (total * 31 + packet) % 2**32

    for _ in range(count):
        if draws.next() % 5 >= 3:
            depart()
            continue
        leaf, length, flow = CLASSES[draws.next() % 8], 64 + draws.next() % 1437, draws.next() % 16
        draws.next()
        pushed += 1
        office.push(pushed, leaf, length, flow)
    while popped < pushed:
        depart()
    return f"soak pushed {pushed} popped {popped} empty {empty} sum {total}"
