"""The leaves and classes of a policy's text, as far as tables and assertions need them."""
from zovatsemo_look.guard import LookError
from zovatsemo_look.texts import shown

MOST_TEXT = 1048576  # bytes


class Policy:
    """The leaves of a policy with their classes, in their order, and the lines that classify packets."""

    def __init__(self, text):
        self.leaves, self.class_lines, self.classes, self.version = {}, [], [], "1"
        for line in text.split("\n"):
            words = line.split("#")[0].split()
            if words[:1] == ["policy"] and len(words) == 2:
                self.version = words[1]
            elif words[:1] == ["leaf"] and "classes" in words:
                self.leaves[words[1]] = words[words.index("classes") + 1:]
            elif words[:1] == ["class"] and len(words) > 1:
                self.class_lines.append(" ".join(words))
                self.classes.append(words[1])

    def one_leaf_a_class(self):
        """The text of a policy that classifies packets as this one does, and has the leaf `class_N` for class N."""
        leaves = ["class_%d" % at for at in range(len(self.classes))]
        lines = ["leaf %s using fifo classes %s" % pair for pair in zip(leaves, self.classes)]
        root = "node root using fifo children " + " ".join(leaves)
        return "\n".join(["policy " + self.version, *self.class_lines, *lines, root]) + "\n"


def read_policy(name):
    """The policy of a file."""
    with open(name, "rb") as stream:
        text = stream.read(MOST_TEXT + 1)
    found = Policy(text.decode("latin-1"))
    if len(text) > MOST_TEXT or not found.leaves:
        raise LookError("%s: it isn't a policy: %s" % (
            shown(name), "it is longer than 1,048,576 bytes" if len(text) > MOST_TEXT else "it has no line `leaf`"))
    return found
