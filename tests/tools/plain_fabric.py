"""The queues of a target reckoned with plain lists, by what docs/commands and docs/FORMATS.md say of `plan`, of a report and
of a spill: nothing of the programs is used but what they write."""


class Differs(Exception):
    """What a report tells isn't what queues in the places of a plan do."""


def address(text):
    """The digits of an address as it is written."""
    return () if text == "-" else tuple(int(digit) for digit in text.split("."))


def images(plan):
    """The image of each node by its source address, and the source address of each name, from the text of `plan`."""
    image, source = {}, {}
    for line in plan.splitlines():
        if line.startswith("map "):
            _, name, at, to = line.split(" ")
            image[address(at)] = address(to)
            source[name] = address(at)
    return image, source


class Fabric:
    """A queue for each address of the target, as a list of ranks and values in the order of their pushes."""

    def __init__(self, plan):
        self.images, self.sources = images(plan)
        every = set(self.images.values())
        self.ends = every - {image[:depth] for image in every for depth in range(len(image))}
        self.queues, self.spills = {}, 0

    def steps(self, leaf, ranks):
        """The address, the rank and the digit of each target node on the way to a leaf's image; the leaf has no digit."""
        source = self.sources[leaf]
        to = self.images[source]
        nodes = [self.images[source[:depth]] for depth in range(len(source) + 1)]
        for depth in range(len(to) + 1):
            above = max(k for k, node in enumerate(nodes) if len(node) <= depth)
            yield to[:depth], ranks[above], to[depth] if depth < len(to) else None

    def push(self, packet, leaf, ranks):
        """Pushes on the way to a leaf's image. A push spills where an entry of its flow with a greater rank waits."""
        for at, rank, digit in self.steps(leaf, ranks):
            queue = self.queues.setdefault(at, [])
            self.spills += any(waiting > rank and digit in (None, value) for waiting, value in queue)
            queue.append((rank, packet if digit is None else digit))

    def pop(self):
        """The packet that leaves."""
        at = ()
        while True:
            queue = self.queues.get(at)
            if not queue:
                raise Differs("the queue at %s is empty" % (at,))
            _, value = queue.pop(min(range(len(queue)), key=lambda k: queue[k][0]))
            if at in self.ends:
                return value
            at += (value,)


def spills(plan, report):
    """How many pushes of a report spill in the places of a plan. What leaves has to be what these queues let leave."""
    fabric = Fabric(plan)
    for line in report.splitlines():
        words = line.split(" ")
        if words[0] == "a":
            fabric.push(int(words[2]), words[3], [int(rank) for rank in words[4].split("/")])
        elif words[0] == "d":
            packet = fabric.pop()
            if packet != int(words[2]):
                raise Differs("packet %d leaves at: %s" % (packet, line))
    return fabric.spills
