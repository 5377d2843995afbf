"""What tables, verdicts and pictures are made of: one run, or two of the same capture, with their numbers."""
from zovatsemo_look import measures, units
from zovatsemo_look.guard import LookError
from zovatsemo_look.texts import listed

LETTERS = "AB"


class Study:
    """One run, or two beside each other. `leaves` has for each run the leaves of its policy with their classes, or None if
    the policy isn't known; `rate` is in bytes a second, or None."""

    def __init__(self, runs, names, capture=None, rate=None, leaves=None):
        self.runs, self.names, self.capture, self.rate = runs, names, capture, rate
        self.is_time = measures.is_time(runs, capture, rate)
        self.leaves = leaves or [None] * len(runs)
        self.numbers = [measures.RunNumbers(run, capture, self.is_time, rate) for run in runs]
        for run, known, name in zip(runs, self.leaves, names):
            for leaf in run.leaves if known is not None else ():
                if leaf.name not in known:
                    raise LookError("%s has packets at the leaf %s, and its policy has no such leaf" % (name, leaf.name))

    def all_names(self):
        """All leaves: those of the policies in their order, and else those at which packets arrived."""
        known = [name for names in self.leaves for name in names or ()]
        return list(dict.fromkeys(known + measures.leaf_names(self.runs)))

    def chosen(self, asked):
        """The leaves to show: all, or those that are asked for."""
        names = self.all_names()
        for name in asked or ():
            if name not in names:
                hint = "" if any(self.leaves) else "; with --policy, leaves without packets are known too"
                raise LookError("there is no leaf %s; the leaves are: %s%s" % (ascii(name), listed(names), hint))
        return list(dict.fromkeys(asked)) if asked else names

    def has(self, which, name):
        """Whether a run has a leaf, with packets or without."""
        return name in self.numbers[which].by_name or name in (self.leaves[which] or ())

    def row(self, name):
        """The numbers of a leaf in each run; None in a run that doesn't have it."""
        return [numbers.of(name) if self.has(which, name) else None for which, numbers in enumerate(self.numbers)]

    def rows(self, chosen):
        """The rows of a table: each leaf by name, and all leaves."""
        return [(name, self.row(name)) for name in chosen] + [(measures.ALL, [one.all for one in self.numbers])]

    def tails(self):
        """The positive 99th percentiles of the leaves' delays."""
        found = (one.percentile(99) for numbers in self.numbers for one in numbers.by_name.values())
        return [delay for delay in found if delay]

    def release(self):
        """Lets go of the packets. What the table shows stays known."""
        for run, numbers in zip(self.runs, self.numbers):
            run.release()
            for one in (*numbers.by_name.values(), numbers.all):
                one.release()

    def mark(self, which):
        """What stands before something of one of two runs."""
        return LETTERS[which] + ": " if len(self.runs) > 1 else ""


def common_unit(studies, asked):
    """The unit in which the delays of all studies are shown: that in which the 99th percentile of each leaf is 0.1 or more,
    so that a leaf with short delays is seen beside one with long ones."""
    tails = [delay for study in studies for delay in study.tails()]
    return units.delay_unit(asked, studies[0].is_time, 10 * min(tails, default=0))
