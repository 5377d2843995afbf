"""Assertions on runs, such as `voice.p99 <= 2ms`: their grammar, and whether they hold.

Values are compared as integers and fractions. No float and no rounded number decides.
"""
import fractions
import operator
import re

from zovatsemo_look import measures, units
from zovatsemo_look.guard import LookError
from zovatsemo_look.study import LETTERS
from zovatsemo_look.texts import listed, plural

EVERY = "all"
OPERATORS = {"<=": operator.le, ">=": operator.ge, "<": operator.lt, ">": operator.gt, "==": operator.eq,
             "!=": operator.ne}
SUBJECT = r"(?:([A-Z]):)?([A-Za-z_][\w-]*)\.([a-z]+(?:[0-9]+(?:\.[0-9]+)?)?)"
FORM = re.compile(r"\s*%s\s*(<=|>=|==|!=|<|>)\s*([^\s=].*?)\s*" % SUBJECT, re.ASCII)
OTHER = re.compile(SUBJECT, re.ASCII)
PERCENTILE = re.compile(r"p([0-9]{1,3}(?:\.[0-9]{1,9})?)")
DELAY, SHARE, COUNT, DROPS, THROUGHPUT = "delay", "share", "count", "drops", "throughput"
NOTHING = {DELAY: "no packet departed", SHARE: "no packet departed at all", THROUGHPUT: "the run takes no time"}
NAMED_DELAYS = {"min": 0, "median": 50, "max": 100}
COUNTS = ("arrived", "departed", "queued", "bytes", "backlog", "overtaken")
METRICS = "min, median, max, pN (a percentile from p0 to p100), share, drops, backlog, throughput, arrived, departed, " \
          "queued, bytes and overtaken"
GRAMMAR = """assertions:
  NAME.METRIC OP VALUE [UNIT]     voice.p99 <= 2ms    web.share >= 30%    web.drops == 0
  NAME is a leaf or a class of the policy, or `all`. With two runs, A:NAME or B:NAME is that of one run, and a
  name without A: or B: applies to both. OP is one of <= >= < > == !=. VALUE may be B:NAME.METRIC of the other run.
  METRIC      UNIT                          value
  min, median, max, pN
              ns, us, ms, s, or events      delay; a percentile by nearest rank, such as p99 or p99.9
  share       %                             part of all bytes that departed
  drops       packets or none, or %         packets dropped; with %, of those that arrived
  throughput  bit/s, kbit/s, Mbit/s, .. or B/s, kB/s, MB/s, ..
              bits departed, from the first timestamp until the last packet is sent
  backlog, arrived, departed, queued, overtaken
              packets or none               backlog is the most packets queued at once
  bytes       bytes or none                 bytes that departed
"""


class Metric:
    """A metric by its name: its kind, and its value for the numbers of a leaf."""

    def __init__(self, word):
        self.word, self.percent = word, None
        found = PERCENTILE.fullmatch(word)
        if word in NAMED_DELAYS or found and fractions.Fraction(found.group(1)) <= 100:
            self.kind = DELAY
            self.percent = NAMED_DELAYS[word] if word in NAMED_DELAYS else fractions.Fraction(found.group(1))
        elif word in (SHARE, DROPS, THROUGHPUT):
            self.kind = word
        elif word in COUNTS:
            self.kind = COUNT
        else:
            raise LookError("there is no metric %s; the metrics are %s" % (ascii(word), METRICS))

    def value(self, numbers, is_relative=False):
        """The value, and why there is none. A relative number of drops is that of the packets that arrived."""
        if self.kind == DELAY:
            found = numbers.percentile(self.percent)
            return found, NOTHING[DELAY] if found is None else None
        if self.kind == DROPS and is_relative:
            return (fractions.Fraction(numbers.drops, numbers.arrived), None) if numbers.arrived else (
                None, "no packet arrived")
        found = getattr(numbers, self.word)
        return found, NOTHING[self.kind] if found is None else None

    def missing(self, study):
        """What isn't known of the runs and is needed for this metric; None if nothing is."""
        if self.kind in (SHARE, THROUGHPUT) or self.word == "bytes":
            if not study.capture:
                return "%s needs the capture" % self.word
        if self.kind == THROUGHPUT and any(one.duration is None for one in study.numbers):
            return "throughput needs runs of `link`, and their rate by --rate"
        return None

    def text(self, value, is_relative, study):
        """A value as people read it."""
        if self.kind == DELAY:
            return units.delay_unit(None, study.is_time, value).text(value)
        if self.kind == SHARE or is_relative:
            return exact_or_near(value * 100, 3) + "%"
        if self.kind == THROUGHPUT:
            size, name = next((pair for pair in units.BIT_NAMES if value >= pair[0]), units.BIT_NAMES[-1])
            return "%s %s" % (exact_or_near(value / size, 3), name)
        return plural(value, "byte" if self.word == "bytes" else "packet")


def exact_or_near(value, digits):
    """A fraction with a few digits after the point; `about` says that it is rounded."""
    is_exact = (value * 10 ** digits).denominator == 1
    text = units.decimal(value, digits)
    return text.rstrip("0").rstrip(".") if is_exact else "about " + text


class Assertion:
    """An assertion in its parts."""

    def __init__(self, text):
        self.text = text.strip()
        found = FORM.fullmatch(text)
        if not found:
            raise LookError("--assert %s: it doesn't read NAME.METRIC OP VALUE [UNIT], as in 'voice.p99 <= 2ms'" %
                            ascii(text))
        self.letter, self.name, word, self.sign, right = found.groups()
        self.other = self.value = None
        self.is_relative = False
        try:
            self.metric = Metric(word)
            self.read_right(right)
        except LookError as error:
            raise LookError("--assert %s: %s" % (ascii(text), error))

    def read_right(self, right):
        """Reads a value with its unit, or the metric of a run."""
        found = OTHER.fullmatch(right)
        if found and found.group(1):
            self.other = found.group(1), found.group(2), Metric(found.group(3))
            if self.other[2].kind != self.metric.kind:
                raise LookError("%s and %s can't be compared" % (self.metric.word, self.other[2].word))
            return
        parts = units.amount(right)
        if not parts:
            raise LookError("%s is no number with a unit, and no metric of a run such as B:voice.p99" % ascii(right))
        self.read_unit(*parts)

    def read_unit(self, number, unit):
        """Reads the value in nanoseconds, events, packets, bytes, bits a second, or as a part of 1."""
        kind, scale = self.metric.kind, None
        self.is_events = kind == DELAY and unit in ("events", "event")
        self.is_relative = kind == DROPS and unit == "%"
        if kind == DELAY:
            scale = 1 if self.is_events else units.TIMES.get(unit)
        elif kind == SHARE or self.is_relative:
            scale = fractions.Fraction(1, 100) if unit == "%" else None
        elif kind == THROUGHPUT:
            scale = units.bits_of(unit)
        else:
            known = ("", "bytes", "B") if self.metric.word == "bytes" else ("", "packets", "packet")
            scale = 1 if unit in known else None
        if scale is None:
            raise LookError("%s has no unit %s" % (self.metric.word, ascii(unit)) if unit else
                            "%s needs a unit: %s" % (self.metric.word, UNITS_OF[kind]))
        self.value = number * scale

    def check_unit(self, study):
        """Rejects a delay in time for runs that have none, and one in events for runs of a link."""
        if self.metric.kind == DELAY and self.other is None and self.is_events == study.is_time:
            raise LookError("the delays of these runs are in %s" % (
                "time: ns, us, ms or s" if study.is_time else "events: give the capture, and a report of `link`"))


UNITS_OF = {DELAY: "ns, us, ms, s or events", SHARE: "%", THROUGHPUT: "bit/s, kbit/s, Mbit/s, Gbit/s, B/s, kB/s or MB/s"}


class Result:
    """Whether an assertion holds in one run."""

    def __init__(self, assertion, study, which, holds, said):
        self.text, self.holds, self.said = assertion.text, holds, said
        self.where = listed([part for part in (LETTERS[which] if len(study.runs) > 1 else "",
                                               units.rate_name(study.rate) if study.rate else "") if part])
        self.run, self.rate = LETTERS[which], study.rate

    def as_object(self):
        """The result for JSON."""
        return {"assertion": self.text, "holds": self.holds, "run": self.run, "rate_bytes_per_second": self.rate,
                "found": self.said}


def subject_of(study, which, name, class_numbers):
    """The numbers of a leaf, of a class, or of all, in a run."""
    classes_of = study.leaves[which] or {}
    owner = next((leaf for leaf, classes in classes_of.items() if name in classes), None)
    if owner is not None and is_ambiguous(classes_of, name, owner):
        raise LookError("%s names two things in %s, a class of the leaf %s among them" % (name, study.names[which], owner))
    if study.has(which, name):
        return study.numbers[which].of(name)
    if owner is not None:
        alone = classes_of[owner] == [name]
        return study.numbers[which].of(owner) if alone else class_numbers(study, which)[name]
    if name == EVERY:
        return study.numbers[which].all
    known = listed([*(classes_of or study.numbers[which].by_name), EVERY])
    hint = "" if classes_of else "; with --policy, classes and leaves without packets are known too"
    raise LookError("%s has no leaf or class %s; its leaves are %s%s" % (study.names[which], ascii(name), known, hint))


def is_ambiguous(classes_of, name, owner):
    """Whether the name of a class is also that of other packets."""
    if name in classes_of:
        return classes_of[name] != [name]
    return name == EVERY and sum(map(len, classes_of.values())) > 1


def side(study, which, name, metric, class_numbers, is_relative):
    """The value of a metric in a run, and why there is none."""
    missing = metric.missing(study)
    if missing:
        raise LookError(missing)
    return metric.value(subject_of(study, which, name, class_numbers), is_relative)


def result_of(assertion, study, which, class_numbers):
    """Whether an assertion holds in one run, and what was found."""
    metric, is_relative = assertion.metric, assertion.is_relative
    found, why = side(study, which, assertion.name, metric, class_numbers, is_relative)
    wanted, said = assertion.value, ""
    if why is None and assertion.other:
        letter, name, other = assertion.other
        wanted, why = side(study, run_of(study, letter), name, other, class_numbers, False)
        why = "%s:%s: %s" % (letter, name, why) if why else None
        said = "" if why else ", against %s" % other.text(wanted, False, study)
    if why is not None:
        return Result(assertion, study, which, False, why)
    return Result(assertion, study, which, OPERATORS[assertion.sign](found, wanted),
                  metric.text(found, is_relative, study) + said)


def run_of(study, letter):
    """Which run a letter names."""
    if letter not in LETTERS[:len(study.runs)]:
        raise LookError("there is no run %s" % letter)
    return LETTERS.index(letter)


def verdict_of(assertions, studies, class_numbers):
    """The result of each assertion in each run for which it stands, at each rate. `class_numbers(study, which)` has the
    numbers of a run's classes by name."""
    results = []
    for assertion in assertions:
        for study in studies:
            try:
                assertion.check_unit(study)
                runs = [run_of(study, assertion.letter)] if assertion.letter else range(len(study.runs))
                results += [result_of(assertion, study, which, class_numbers) for which in runs]
            except LookError as error:
                raise LookError("--assert %s: %s" % (ascii(assertion.text), error))
    return results


def verdict_lines(results):
    """The verdict as people read it, failures first."""
    failed = [result for result in results if not result.holds]
    lines = ["%d of %s failed" % (len(failed), plural(len(results), "check"))]
    width = max(len(result.text) for result in results)
    for result in failed + [result for result in results if result.holds]:
        where = result.where + ": " if result.where else ""
        word = "holds " if result.holds else "FAILED"
        lines.append("%s  %s  %s%s" % (word, result.text.ljust(width), where, result.said))
    return lines


def check_whole(studies):
    """Rejects a verdict on runs that didn't come to their ends."""
    for study in studies:
        for run, name in zip(study.runs, study.names):
            fault = measures.fault_of(run, name)
            if fault:
                raise LookError("nothing can be asserted of a run that isn't whole: %s" % fault)
