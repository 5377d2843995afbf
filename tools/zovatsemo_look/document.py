"""A page in HTML that stands alone: table, verdict, pictures, and packets found by number. It names no other file."""
import html
import json
import os
import pathlib
import platform
import re
import shlex

import matplotlib

from zovatsemo_look import drawing, guard, page, program, sources, svg, table, units
from zovatsemo_look.progress import Progress
from zovatsemo_look.study import LETTERS, common_unit
from zovatsemo_look.texts import shown

HERE = pathlib.Path(__file__).resolve().parent
POLICY = "default-src 'none'; style-src 'unsafe-inline'; script-src 'unsafe-inline'; img-src data:"
MOST_EXACT = 2 ** 53  # of a number in a browser
FORM = """<!DOCTYPE html>
<html lang="en">
<head>
<meta charset="utf-8">
<meta http-equiv="Content-Security-Policy" content="{policy}">
<meta name="viewport" content="width=device-width">
<title>{title}</title>
<style>
{css}</style>
</head>
<body>
<h1>{title}</h1>
{body}
<div id="hint"></div>
<script type="application/json" id="data">{data}</script>
<script>
{js}</script>
</body>
</html>
"""
FIND = """<h2>Find a packet</h2>
<form id="find"><label>Packet number <input id="number" inputmode="numeric" size="12"></label> <button>Find</button></form>
<p id="found">Enter a number, or move the pointer over a bar.</p>
"""


def escaped(text):
    """A text in HTML."""
    return html.escape(text, quote=True)


def element(name, text, look=""):
    """An element with a text."""
    return "<%s%s>%s</%s>" % (name, ' class="%s"' % look if look else "", escaped(text), name)


def table_of(lines, names):
    """A table in HTML; the first line has the heads, and so many columns are names."""
    rows = []
    for at, line in enumerate(lines):
        cells = [element("td" if at else "th", word, "name" if column < names else "") for column, word in enumerate(line)]
        rows.append("<tr>%s</tr>" % "".join(cells))
    return '<div class="scroll"><table>\n%s\n</table></div>' % "\n".join(rows)


def paragraphs(lines):
    """Lines below each other."""
    return "<p>%s</p>" % "<br>\n".join(map(escaped, lines)) if lines else ""


def verdict_of(results):
    """The verdict as a list."""
    if not results:
        return ""
    failed = sum(not result.holds for result in results)
    rows = "\n".join("<tr>%s%s%s%s</tr>" % (
        element("td", "holds" if result.holds else "FAILED", "holds name" if result.holds else "failed name"),
        element("td", result.text, "name"), element("td", result.where, "name"), element("td", result.said, "name"))
        for result in sorted(results, key=lambda result: result.holds))
    return '<h2>Verdict</h2>\n<p id="verdict">%d of %d checks failed</p>\n<table>\n%s\n</table>' % (
        failed, len(results), rows)


def inputs_of_look(given):
    """The files that tools/look read, each with what it is."""
    pairs = (("report", given.report), ("report of B", given.against), ("capture", given.capture),
             ("policy", given.policy), ("policy of B", given.against_policy))
    return [(role, name) for role, name in pairs if name]


def inputs_of_compare(given):
    """The files that tools/compare read, each with what it is."""
    policies = [("policy" if len(given.policies) == 1 else "policy %s" % LETTERS[at], name)
                for at, name in enumerate(given.policies)]
    return [*policies, ("target", given.target), ("capture", given.capture)]


def facts_of(given, inputs, commands):
    """Commands, versions and sums."""
    lines = [["input", "file", "bytes", "sha256"]]
    for role, name in inputs:
        is_file = name != "-" and os.path.isfile(name)
        lines.append([role, sources.name_of(name), format(os.path.getsize(name), ",") if is_file else "-",
                      sources.sum_of(name) if is_file else "not a file"])
    said = [shlex.join(["tools/" + given.name, *map(shown, given.words)]), *(shown(one) for one in commands if one)]
    versions = [*program.version_lines(), "Python %s, matplotlib %s" % (platform.python_version(), matplotlib.__version__)]
    return "\n".join(["<h2>Commands</h2>", *("<p>%s</p>" % element("code", line) for line in said),
                      "<h2>Inputs</h2>", table_of(lines, 4), "<h2>Versions</h2>", paragraphs(versions)])


def numbers_of(values):
    """Numbers for a browser, as text if they are too large for it to be exact."""
    return [value if value is None or -MOST_EXACT < value < MOST_EXACT else str(value) for value in values]


def data_of(given, study, prefix):
    """What the page knows of the first packets of each run."""
    found = []
    for which, (run, name) in enumerate(zip(study.runs, study.names)):
        count, capture = min(given.packets, len(run.arrived)), study.capture
        rate = ", " + units.rate_name(study.rate) if study.rate else ""
        one = {"title": study.mark(which) + name + rate, "prefix": prefix, "isOther": which == 1,
               "packets": len(run.arrived), "leaves": [leaf.name for leaf in run.leaves],
               "leaf": list(run.leaf_of[:count]), "arrived": list(run.arrived[:count]), "left": list(run.left[:count]),
               "pushed": filled(run.pushed_ranks, count), "taken": filled(run.taken_ranks, count)}
        if capture:
            first = capture.moments[0] if len(capture.moments) else 0
            one["moments"] = numbers_of(moment - first for moment in capture.moments[:count])
            one["lengths"] = list(capture.lengths[:count])
        if study.is_time:
            starts = [None] * count
            for packet, start in zip(run.order, run.starts):
                if packet <= count:
                    starts[packet - 1] = start - first
            one["starts"] = numbers_of(starts)
        found.append(one)
    return found


def filled(values, count):
    """A list of so many values; None is in the place of those that aren't there."""
    return values[:count] + [None] * (count - len(values))


def figures_of(given, study, chosen, prefix, said):
    """The pictures of one study, one below the other, with their axes aligned."""
    look = page.look_of(given, True, prefix)
    shared, kinds = page.Page(study, chosen, look), drawing.kinds_of(study)
    blocks = [drawing.Block(shared, kind) for kind in kinds]
    margins = drawing.margins_of(shared, blocks)
    figures = []
    for block in blocks:
        drawn = drawing.bytes_of(shared, [block], [], [], "svg", 72, said, margins)
        figures.append("<figure>\n%s\n%s\n</figure>" % (
            element("figcaption", block.drawn.title()), svg.inline(drawn, "%s%s-" % (prefix, block.kind))))
    return figures


def sweep_of(given, studies, chosen):
    """The picture of a sweep."""
    shared = page.Page(studies[0], chosen, page.look_of(given, True), studies)
    block = drawing.Block(shared, drawing.SWEEP)
    drawn = drawing.bytes_of(shared, [block], [], [], "svg", 72, Progress(given.out))
    return "<figure>\n%s\n%s\n</figure>" % (element("figcaption", block.drawn.title()), svg.inline(drawn, "sweep-"))


def part_of(given, study, chosen, number):
    """What the page shows of one study besides the table: its pictures, and its packets."""
    prefix, said = "r%d-" % number, Progress(given.out)
    try:
        figures = figures_of(given, study, chosen, prefix, said)
    finally:
        said.end()
    head = units.rate_name(study.rate) if study.rate else "Pictures"
    lines = [study.mark(which) + table.summary(run) for which, run in enumerate(study.runs)]
    moved = table.moved_lines(study, chosen) if len(study.runs) == 2 else []
    notes = table.tap_lines(study) + table.ending_lines(study.runs, study.names)
    body = "\n".join([element("h2", head), paragraphs(lines), *figures,
                      "<pre>%s</pre>" % escaped("\n".join(moved)) if moved else "", paragraphs(notes)])
    return body, data_of(given, study, prefix)


def write(given, studies, chosen, results, inputs, commands, parts=None):
    """Writes the page. `parts` has what was made of each study, if that was made before."""
    parts = parts or [part_of(given, study, chosen, at) for at, study in enumerate(studies)]
    unit = common_unit(studies, given.unit)
    words, names = table.grid(studies, chosen, unit)
    head = table.head_lines(studies, unit, has_summaries=False)
    body = [verdict_of(results), "<h2>Numbers</h2>", paragraphs(head), table_of(words, names),
            sweep_of(given, studies, chosen) if len(studies) > 1 else "", FIND,
            *(body for body, _ in parts), facts_of(given, inputs, commands)]
    data = json.dumps({"runs": [run for _, runs in parts for run in runs]}, separators=(",", ":"))
    data = re.sub("[<>&\u2028\u2029]", lambda found: "\\u%04x" % ord(found.group()), data)
    text = FORM.format(policy=POLICY, title=escaped(" against ".join(studies[0].names)),
                       css=(HERE / "document.css").read_text(), js=(HERE / "document.js").read_text(),
                       body="\n".join(part for part in body if part), data=data)
    guard.write_file(given.out, text.encode("utf-8"))
