"""The arguments of tools/look, and what they do."""
from zovatsemo_look import assertions, belongs, guard, options, policy, program, progress, sizes, sources, table, title, units
from zovatsemo_look.study import Study, common_unit

NAME = "look"
DESCRIPTION = "Shows reports of direct, replay or link: a table, pictures, or a page that stands alone. Draws the sizes of size."
WITH_SIZES = ("sizes", "out", "width", "dpi", "command")  # the arguments that go with --sizes


def parser():
    """The arguments that are taken."""
    words = options.parser(NAME, DESCRIPTION)
    words.add_argument("report", metavar="REPORT", nargs="?", help="the report of a run; - is standard input")
    words.add_argument("--sizes", metavar="FILE", help="draw the JSON of `size` in FILE instead of a report; - is standard input")
    words.add_argument("--capture", metavar="CAPTURE", help="the run's capture, for bytes and times")
    words.add_argument("--against", metavar="REPORT2", help="a second report of the same capture, to compare")
    words.add_argument("--policy", metavar="POLICY", help="the run's policy, for classes and for leaves without packets")
    words.add_argument("--against-policy", metavar="POLICY2", help="the policy of REPORT2")
    words.add_argument("--rate", metavar="RATE", help="the link's rate, for throughput: 10Mbit, or bytes a second")
    words.add_argument("--command", metavar="WORDS", help="the command that made REPORT, for the title")
    words.add_argument("--against-command", metavar="WORDS", help="the command that made REPORT2, for the title")
    options.add_table_words(words)
    options.add_picture_words(words)
    return words


def check_words(words, given):
    """Rejects arguments that don't go together."""
    if given.sizes:
        check_sizes_words(words, given)
    elif given.report is None:
        words.error("REPORT is missing")
    options.check_picture_words(words, given)
    for word, value in (("--against-command", given.against_command), ("--against-policy", given.against_policy)):
        if value and not given.against:
            words.error("%s needs --against" % word)
    if given.report == given.against == "-":
        words.error("standard input has one report, and not two")
    if given.rate and not given.capture:
        words.error("--rate needs --capture")


def check_sizes_words(words, given):
    """Rejects arguments that don't go with --sizes."""
    if not given.out or given.out.endswith(".html"):
        words.error("--sizes needs --out with a file whose name ends with %s" % ", ".join(options.PICTURES))
    for action in words._actions:
        if action.dest not in WITH_SIZES and getattr(given, action.dest, action.default) != action.default:
            words.error("--sizes goes without %s" % (action.option_strings or [action.metavar])[-1])


def read_study(given):
    """The runs with their numbers, after everything was found to belong together."""
    files = [given.report] + ([given.against] if given.against else [])
    rate = units.rate_of(given.rate) if given.rate else None
    kept = given.packets if given.out and given.out.endswith(".html") else 0
    runs, names = [sources.read_run(name, kept) for name in files], [sources.name_of(name) for name in files]
    belongs.check_same_capture(runs, names)
    policies = [policy.read_policy(name) if name else None for name in (given.policy, given.against_policy)][:len(runs)]
    capture = sources.read_capture(given.capture, runs, names) if given.capture else None
    for run, name in zip(runs, names):
        if capture and run.is_paced:
            belongs.check_rate(capture, run, name, rate)
    if rate and not all(run.is_paced for run in runs):
        raise guard.LookError("--rate goes with reports of `link`, whose departures have start times")
    leaves = [found.leaves if found else None for found in policies]
    return Study(runs, names, capture, rate, leaves), program.class_numbers(policies, given.capture)


def draw(given, study, chosen, results):
    """Writes the page or the picture."""
    commands = (given.command, given.against_command)
    if given.out.endswith(".html"):
        from zovatsemo_look import document
        document.write(given, [study], chosen, results, document.inputs_of_look(given), commands)
    else:
        from zovatsemo_look import drawing
        titles = title.lines_of(commands, study.names, given.capture)
        drawing.write(given, [study], chosen, titles, table.ending_lines(study.runs, study.names))


def look(given, asserted):
    """Does what the arguments ask for, and returns the status."""
    if given.out:
        guard.check_writable(given.out)
    study, class_numbers = read_study(given)
    chosen = study.chosen(given.leaf)
    if asserted:
        assertions.check_whole([study])
    results = assertions.verdict_of(asserted, [study], class_numbers)
    common_unit([study], given.unit)  # rejects a unit that isn't that of the runs
    is_text = given.csv or given.json or not given.out
    said = progress.Progress(given.out or "table")
    said.tell("counting")
    written = options.text_of(given, [study], chosen, results) if is_text else ""
    said.end()
    if given.out:
        draw(given, study, chosen, results)
    endings = "".join(line + "\n" for line in table.ending_lines(study.runs, study.names))
    status = options.finish(given, written if is_text else endings, results)
    if given.csv or given.json:
        guard.say(endings)
    return guard.TROUBLE if any(run.broken for run in study.runs) else status


def main(arguments):
    """The command with its arguments; returns its status."""
    guard.occupy_streams()
    words = parser()
    given = words.parse_args(arguments)
    given.name, given.words = NAME, arguments
    check_words(words, given)
    asserted = options.parsed_assertions(words, given)
    return guard.run(NAME, lambda: sizes.write(given) if given.sizes else look(given, asserted))
