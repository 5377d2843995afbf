"""Arguments that tools/look and tools/compare share, and what they write."""
import argparse
import sys

from zovatsemo_look import assertions, exports, guard, table, units
from zovatsemo_look.study import common_unit
from zovatsemo_look.texts import shown

PICTURES = (".svg", ".png", ".pdf")
PANELS = ("delay", "backlog", "bytes", "packets", "throughput")
WIDTHS, DPIS = (2, 20), (50, 1200)  # inches, and points an inch
PAGE_WIDTH, LEAST_PAGE_WIDTH, PANEL_WIDTH = 9, 5.5, 6


class Parser(argparse.ArgumentParser):
    """A parser of arguments that says in one line what is wrong with them."""

    def error(self, message):
        """Ends with one line."""
        guard.say("%s: %s; tools/%s --help has the arguments\n" % (self.prog, shown(message), self.prog))
        sys.exit(guard.TROUBLE)


def parser(name, description):
    """A parser whose help ends with the grammar of assertions and the exit statuses."""
    return Parser(prog=name, usage="tools/%s [OPTION ..] %s" % (name, "REPORT" if name == "look" else "POLICY [POLICY]"),
                  description=description, epilog=assertions.GRAMMAR + "\n" + guard.STATUSES,
                  formatter_class=argparse.RawDescriptionHelpFormatter, allow_abbrev=False)


def add_table_words(words):
    """The arguments on what is shown of the runs, and on the verdict."""
    words.add_argument("--assert", dest="asserted", metavar="'NAME.METRIC OP VALUE'", action="append", default=[],
                       help="end with status 1 if this doesn't hold; may be given several times")
    words.add_argument("--leaf", metavar="NAME", nargs="+", help="show these leaves only")
    words.add_argument("--unit", choices=[*units.NANOSECONDS, units.AUTO],
                       help="the unit of delays; without it, the table chooses one, and --csv and --json have ns")
    form = words.add_mutually_exclusive_group()
    form.add_argument("--csv", action="store_true",
                      help="print comma-separated values in place of the table; the verdict goes to standard error")
    form.add_argument("--json", action="store_true", help="print JSON in place of the table")


def add_picture_words(words):
    """The arguments on pictures."""
    words.add_argument("--out", metavar="FILE", help="write a page: .html has table and pictures in one file that stands "
                                                     "alone; .svg, .png and .pdf have pictures only")
    words.add_argument("--panel", choices=PANELS, help="draw this picture alone")
    words.add_argument("--width", type=float, metavar="INCHES",
                       help="how wide the page (%g) or the single panel (%g) is" % (PAGE_WIDTH, PANEL_WIDTH))
    words.add_argument("--dpi", type=int, default=150, metavar="N", help="pixels an inch of a PNG (150)")
    words.add_argument("--log", action="store_true", help="draw delays on a logarithmic axis")
    words.add_argument("--cdf", action="store_true", help="draw the distribution of delays as a curve for each leaf")
    words.add_argument("--own-scale", action="store_true", help="scale each leaf's lane by itself")
    words.add_argument("--packets", type=int, default=20000, metavar="N",
                       help="how many packets of a run the .html page finds by number (20000)")


def check_picture_words(words, options):
    """Rejects arguments on pictures that don't go together."""
    out = options.out
    if out is None:
        given = [word for word, is_given in (("--panel", options.panel), ("--width", options.width), ("--log", options.log),
                                             ("--cdf", options.cdf), ("--own-scale", options.own_scale)) if is_given]
        return words.error("%s needs --out" % given[0]) if given else None
    if not out.endswith((".html", *PICTURES)):
        words.error("--out needs a file whose name ends with .html, %s" % ", ".join(PICTURES))
    if options.panel and out.endswith(".html"):
        words.error("--panel draws a picture; the .html page has all of them")
    if options.width is None:
        options.width = PANEL_WIDTH if options.panel else PAGE_WIDTH
    least = WIDTHS[0] if options.panel else LEAST_PAGE_WIDTH
    if not least <= options.width <= WIDTHS[1]:
        words.error("--width is from %g to %g inches here" % (least, WIDTHS[1]))
    if not DPIS[0] <= options.dpi <= DPIS[1]:
        words.error("--dpi is from %d to %d" % DPIS)
    if options.packets < 0:
        words.error("--packets is 0 or more")
    return None


def parsed_assertions(words, options):
    """The assertions, each in its parts."""
    try:
        return [assertions.Assertion(text) for text in options.asserted]
    except guard.LookError as error:
        return words.error(str(error))


def text_of(options, studies, chosen, results):
    """What goes to standard output: the table in the form that is asked for, and the verdict."""
    if options.csv:
        return exports.csv_of(studies, chosen, exports.exact_unit(studies, options.unit))
    if options.json:
        return exports.json_of(studies, chosen, exports.exact_unit(studies, options.unit), results)
    return table.text_of(studies, chosen, common_unit(studies, options.unit))


def finish(options, text, results):
    """Writes a text and the verdict, and returns the status. JSON has the verdict already, and beside CSV it goes to
    standard error."""
    verdict = "\n".join(assertions.verdict_lines(results)) + "\n" if results and not options.json else ""
    if options.csv:
        guard.write_out(text)
        guard.say(verdict)
    else:
        guard.write_out(text + ("\n" if text and verdict else "") + verdict)
    return guard.FAILED if any(not result.holds for result in results) else guard.DONE
