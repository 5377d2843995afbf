"""The links of the pages: each relative one leads to a file of the repository, and to a heading if it names one."""
import re
import unittest
import urllib.parse

import pages
from test_check import check

CODE = re.compile(r"(`+)(?!`).+?(?<!`)\1(?!`)")
LINK = re.compile(r"\]\(([^()\s]+)(?: \"[^\"]*\")?\)")
HEADING = re.compile(r"#{1,6} +(.*?)(?: +#+)? *$")
ELSEWHERE = re.compile(r"[a-zA-Z][a-zA-Z0-9+.-]*:|//")


def links(text):
    """The number of the line and the destination of each link of a page; code has none."""
    for number, line in enumerate(text.splitlines(), 1):
        if not line.startswith(pages.INDENT):
            yield from ((number, found[1]) for found in LINK.finditer(CODE.sub("", line)))


def anchors(text):
    """The anchors of a page's headings, as GitHub makes them."""
    taken = {}
    for line in text.splitlines():
        heading = HEADING.match(line)
        if heading:
            shown = re.sub(r"\]\([^)]*\)", "", heading[1].replace("`", "").replace("*", "")).lower()
            name = re.sub(r"[^\w\- ]", "", shown).replace(" ", "-")
            count = taken[name] = taken.get(name, -1) + 1
            yield "%s-%d" % (name, count) if count else name


def fault_of(page, destination):
    """What is wrong with a link of a page; nothing if it resolves, or leads to another site."""
    if ELSEWHERE.match(destination):
        return None
    name, _, anchor = urllib.parse.unquote(destination).partition("#")
    path = (page.parent / name).resolve() if name else page.resolve()
    if pages.TOP not in (path, *path.parents):
        return "leads out of the repository"
    if not path.exists():
        return "there is no such file"
    if anchor and (path.suffix != ".md" or anchor not in anchors(path.read_text())):
        return "there is no such heading"
    return None


class Links(unittest.TestCase):
    def test_each_link_resolves(self):
        found = 0
        for page in sorted({path for form in check.PAGES for path in pages.TOP.glob(form)}):
            for number, destination in links(page.read_text()):
                found += 1
                with self.subTest("%s:%d: %s" % (page.relative_to(pages.TOP), number, destination)):
                    self.assertIsNone(fault_of(page, destination))
        self.assertGreater(found, 50)

    def test_links_are_found(self):
        text = "[a](b.md), [`c`](d.md#e) and ![f](g.svg) | [h](i.md) |\n    [j](k.md)\n`[l](m.md)` [n](o.md \"p\")\n"
        self.assertEqual([(1, "b.md"), (1, "d.md#e"), (1, "g.svg"), (1, "i.md"), (3, "o.md")], list(links(text)))

    def test_anchors_are_those_of_headings(self):
        text = "# Can a push spill?\n## `run`, the [call](x.md#y)\n## Taps\n    # no\n## Taps\n### A_b-c: 2.4 ##\n#no\n"
        self.assertEqual(["can-a-push-spill", "run-the-call", "taps", "taps-1", "a_b-c-24"], list(anchors(text)))

    def test_what_does_not_resolve(self):
        page = pages.TOP / "docs/COMMANDS.md"
        for destination in ("commands/taps.md", "commands/replay.md#tap", "#no-such-heading", "/COMMANDS.md",
                            "../tools/look#usage", "../../x"):
            with self.subTest(destination):
                self.assertIsNotNone(fault_of(page, destination))
        for destination in ("commands/replay.md", "commands/replay.md#taps", "#exit-statuses", "../tools/look", "commands",
                            "https://toml.io", "mailto:a@b"):
            with self.subTest(destination):
                self.assertIsNone(fault_of(page, destination))


if __name__ == "__main__":
    unittest.main()
