"""The table of one run, of two beside each other, or of a sweep over rates."""
import heapq

from zovatsemo_look import measures, units
from zovatsemo_look.texts import plural

COUNTS = ("arrived", "departed", "drops", "queued")
DELAYS = tuple(measures.SHOWN.items())
LAST = ("backlog", "overtaken")
MOST_MOVED = 10
MOST_DIGITS = 3  # of a delay, after the point
NONE = "-"


def summary(run):
    """A line on the whole run."""
    parts = [plural(run.events, "event"), plural(run.all.arrived, "packet"), plural(run.all.departed, "departure"),
             plural(run.empty, "empty departure")]
    if run.unsent is not None:
        parts.append(plural(run.unsent, "packet") + " unsent")
    if run.spills is not None:
        parts.append(plural(run.spills, "spill"))
    return ", ".join(parts)


def delay_line(study, unit):
    """A line on the columns of delays."""
    if study.is_time:
        rounded = ", rounded to %d digits" % MOST_DIGITS if unit.divisor > 10 ** MOST_DIGITS else ""
        return "delay in %s%s, from a packet's timestamp to its start" % (unit.name, rounded)
    return "delay in events, from a packet's arrival to its departure"


def throughput_unit(studies):
    """The size and the name of the unit for throughputs: that of the greatest one."""
    most = max((one.all.throughput or 0 for study in studies for one in study.numbers), default=0)
    return next((pair for pair in units.BIT_NAMES if most >= pair[0]), units.BIT_NAMES[-1])


def cell(values, texts):
    """One text if the runs have the same value, and else those of both."""
    texts = [NONE if text is None else text for text in texts]
    return texts[0] if len(set(values)) == 1 else "|".join(texts)


def column(rows, value_of, text_of):
    """The cells of a column; a row has the numbers of each run, or None in a run that hasn't this leaf."""
    values = [[None if numbers is None else value_of(numbers) for numbers in row] for row in rows]
    return [cell(row, [None if value is None else text_of(value) for value in row]) for row in values]


def count_column(rows, head):
    """The cells of a column of counts."""
    return head, column(rows, lambda numbers: getattr(numbers, head), lambda value: format(value, ","))


def delay_column(rows, head, percent, unit):
    """The cells of a percentile, all with the same number of digits after the point; exports have exact values."""
    values = [[None if numbers is None else numbers.percentile(percent) for numbers in row] for row in rows]
    texts = iter(unit.texts([value for row in values for value in row], MOST_DIGITS))
    return head, [cell(row, [next(texts) for _ in row]) for row in values]


def columns(studies, rows, unit):
    """The heads and cells of the table's columns after the names."""
    found = [count_column(rows, head) for head in COUNTS]
    if all(study.capture for study in studies):
        found.append(count_column(rows, "bytes"))
        found.append(("share", column(rows, lambda numbers: numbers.share, measures.share_text)))
    if all(one.duration is not None for study in studies for one in study.numbers):
        size, name = throughput_unit(studies)
        found.append((name, column(rows, lambda numbers: numbers.throughput, lambda value: units.decimal(value / size, 3))))
    found += [delay_column(rows, head, percent, unit) for head, percent in DELAYS]
    return found + [count_column(rows, head) for head in LAST]


def lay_out(lines, left=1):
    """Lines of words in columns, the first ones flush left and the others flush right."""
    widths = [max(map(len, words)) for words in zip(*lines)]
    return ["  ".join([word.ljust(width) for word, width in zip(line[:left], widths)] +
                      [word.rjust(width) for word, width in zip(line[left:], widths[left:])]).rstrip()
            for line in lines]


def grid(studies, chosen, unit):
    """The words of the table, line by line, and how many columns are names. A sweep has one row a rate for each leaf."""
    pairs = [study.rows(chosen) for study in studies]
    is_sweep = len(studies) > 1
    labels, rows = [], []
    for same_leaf in zip(*pairs):
        for study, (name, row) in zip(studies, same_leaf):
            labels.append([name, units.rate_name(study.rate)] if is_sweep else [name])
            rows.append(row)
    found = columns(studies, rows, unit)
    heads = (["leaf", "rate"] if is_sweep else ["leaf"]) + [head for head, _ in found]
    return [heads] + [label + list(cells) for label, *cells in zip(labels, *(cells for _, cells in found))], len(labels[0])


def moved_lines(study, chosen):
    """The packets of the chosen leaves whose positions among the departures differ most between the two runs."""
    first = study.runs[0]
    here, there = map(measures.places, study.runs)
    is_shown = [leaf.name in set(chosen) for leaf in first.leaves]
    both = [at for at in range(min(len(here), len(there)))
            if here[at] and there[at] and here[at] != there[at] and is_shown[first.leaf_of[at]]]
    most = heapq.nlargest(MOST_MOVED, both, key=lambda at: abs(there[at] - here[at]))
    if not most:
        return ["Every packet that departed in both runs has the same position among the departures."]
    lines = [["packet", "leaf", "position", "in the other run", "later by"]]
    for at in most:
        lines.append([str(at + 1), first.leaves[first.leaf_of[at]].name, str(here[at]), str(there[at]),
                      str(there[at] - here[at])])
    return ["%s changed position among the departures; those that moved most:" % plural(len(both), "packet"),
            *lay_out(lines)]


def ending_lines(runs, names):
    """How runs ended that aren't whole; the last line says where a report breaks off."""
    faults = ["%s: the run ended with %s" % (name, run.fault) for run, name in zip(runs, names) if run.fault]
    return faults + ["%s: broken at %s" % (name, run.broken) for run, name in zip(runs, names) if run.broken]


def tap_lines(study):
    """The lines of taps after the runs; with two runs the run's letter precedes each."""
    return [study.mark(which) + line for which, run in enumerate(study.runs) for line in run.taps.values()]


def head_lines(studies, unit, has_summaries=True):
    """The lines above the table: what the runs are, and what the numbers mean."""
    study = studies[0]
    lines = []
    if len(study.runs) > 1:
        lines += [study.mark(which) + name for which, name in enumerate(study.names)]
    if len(studies) == 1 and has_summaries:
        lines += [study.mark(which) + summary(run) for which, run in enumerate(study.runs)]
    lines.append(delay_line(study, unit))
    if len(study.runs) > 1:
        lines.append("A cell has one number if the runs agree, else that of A, a bar, and that of B.")
    return lines


def text_of(studies, chosen, unit):
    """The whole text of one study, or of a sweep."""
    words, left = grid(studies, chosen, unit)
    parts = [head_lines(studies, unit), lay_out(words, left)]
    if len(studies) == 1:
        study = studies[0]
        parts += [moved_lines(study, chosen) if len(study.runs) == 2 else [], tap_lines(study),
                  ending_lines(study.runs, study.names)]
    return "\n\n".join("\n".join(part) for part in parts if part) + "\n"
