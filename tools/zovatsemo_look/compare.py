"""The arguments of tools/compare, and what they do: runs on a link, beside each other, with a verdict."""
import shlex

from zovatsemo_look import assertions, belongs, guard, options, policy, program, sources, title, units
from zovatsemo_look.study import Study, common_unit
from zovatsemo_look.texts import shown

NAME = "compare"
DESCRIPTION = "Runs one policy, or two, on a link, shows the numbers beside each other, and judges them by assertions."


def parser():
    """The arguments that are taken."""
    words = options.parser(NAME, DESCRIPTION)
    words.add_argument("policies", metavar="POLICY", nargs="+", help="a policy, or two: the first is A, the second B")
    words.add_argument("--target", metavar="TARGET", required=True, help="the target")
    words.add_argument("--capture", metavar="CAPTURE", required=True, help="the capture")
    words.add_argument("--rate", metavar="RATE[,RATE..]", required=True,
                       help="the link's rate: 10Mbit, 1.25MB, or bytes a second; several give one row a rate")
    words.add_argument("--block", action="store_true", help="run on rank stores, and count spills")
    options.add_table_words(words)
    options.add_picture_words(words)
    return words


def check_words(words, given):
    """Rejects arguments that don't go together; returns the rates in bytes a second."""
    options.check_picture_words(words, given)
    if len(given.policies) > 2:
        words.error("there are %d policies, and at most two are compared" % len(given.policies))
    try:
        rates = [units.rate_of(text) for text in given.rate.split(",")]
    except guard.LookError as error:
        words.error("--rate: %s" % error)
    if len(set(rates)) < len(rates):
        words.error("--rate names a rate twice")
    if len(rates) > 1 and given.panel:
        words.error("--panel draws one rate, and --rate names %d" % len(rates))
    return rates


class Comparison:
    """The policies on one capture and one target."""

    def __init__(self, given):
        self.given = given
        for name in (*given.policies, given.target, given.capture):
            program.check_file(name)
        self.policies = [policy.read_policy(name) for name in given.policies]
        self.class_numbers = program.class_numbers(self.policies, given.capture)
        self.capture = None

    def study(self, rate):
        """The runs at a rate, with their numbers."""
        given, names = self.given, [shown(name) for name in self.given.policies]
        kept = given.packets if given.out and given.out.endswith(".html") else 0
        runs = [program.link(name, given.target, given.capture, rate, given.block, kept) for name in given.policies]
        if self.capture is None:
            self.capture = sources.read_capture(given.capture, runs, names)
        for run, name in zip(runs, names):
            belongs.check_capture(self.capture, run, name)
        return Study(runs, names, self.capture, rate, [found.leaves for found in self.policies])

    def command_of(self, which, rate):
        """The command that made a run."""
        given = self.given
        words = ["zovatsemo", *(["--block"] if given.block else []), "link", given.policies[which], given.target,
                 given.capture, str(rate)]
        return shown(shlex.join(words))


def draw(given, comparison, studies, chosen, results, parts):
    """Writes the page, or the picture of one rate or of a sweep."""
    commands = [comparison.command_of(which, study.rate) for study in studies for which in range(len(study.runs))]
    if given.out.endswith(".html"):
        from zovatsemo_look import document
        document.write(given, studies, chosen, results, document.inputs_of_compare(given), commands, parts)
    else:
        from zovatsemo_look import drawing
        titles = title.lines_of(commands, studies[0].names, given.capture)
        if len(studies) > 1:  # commands of one rate would say too little
            titles = [(text, is_head) for text, is_head in titles if is_head]
        drawing.write(given, studies, chosen, titles, [])


def compare(given, rates, asserted):
    """Runs the policies at each rate, and returns the status. Of a sweep, only the numbers of a rate are kept."""
    if given.out:
        guard.check_writable(given.out)
    comparison, studies, results, parts, chosen = Comparison(given), [], [], [], None
    for rate in rates:
        study = comparison.study(rate)
        chosen = study.chosen(given.leaf)
        common_unit([study], given.unit)
        results += assertions.verdict_of(asserted, [study], comparison.class_numbers)
        if given.out and given.out.endswith(".html"):
            from zovatsemo_look import document
            parts.append(document.part_of(given, study, chosen, len(parts)))
        if len(rates) > 1:
            study.rows(chosen)
            study.release()
        studies.append(study)
    written = options.text_of(given, studies, chosen, results)
    if given.out:
        draw(given, comparison, studies, chosen, results, parts)
    return options.finish(given, written, results)


def main(arguments):
    """The command with its arguments; returns its status."""
    guard.occupy_streams()
    words = parser()
    given = words.parse_args(arguments)
    given.name, given.words = NAME, arguments
    rates = check_words(words, given)
    asserted = options.parsed_assertions(words, given)
    return guard.run(NAME, lambda: compare(given, rates, asserted))
