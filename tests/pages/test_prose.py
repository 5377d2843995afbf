"""The prose of the pages and of the messages of `zovatsemo`, and that the check of it fails on a page that is wrong."""
import unittest

import pages
import prose
from test_check import check

SPEAKING = ("crates/front_core/src", "crates/front_defs/src", "crates/front_forms/src", "crates/zovatsemo/src")  # where the messages for people are


def all_pages():
    """Each page with its text."""
    return [(path, path.read_text()) for form in check.PAGES for path in sorted(pages.TOP.glob(form))]


def words(count):
    """A sentence of COUNT words."""
    return "word " * (count - 1) + "word."


class Pages(unittest.TestCase):
    """The pages as they are."""

    def each_page(self):
        for path, text in all_pages():
            with self.subTest(str(path.relative_to(pages.TOP))):
                yield path, text

    def test_sentences_cells_and_words(self):
        for _, text in self.each_page():
            self.assertEqual([], prose.prose_faults(text))

    def test_files_and_functions_exist(self):
        for path, text in self.each_page():
            self.assertEqual([], prose.name_faults(text, path))

    def test_all_pages_together_are_short(self):
        self.assertEqual([], prose.length_faults(text for _, text in all_pages()))

    def test_the_words_of_messages(self):
        found = 0
        for path in (path for folder in SPEAKING for path in sorted((pages.TOP / folder).rglob("*.rt"))):
            for number, message in prose.messages(path.read_text()):
                found += 1
                with self.subTest("%s:%d" % (path.relative_to(pages.TOP), number)):
                    self.assertEqual([], prose.word_faults(prose.without_names(message)))
        self.assertGreater(found, 100)


class Prose(unittest.TestCase):
    """Pages of a few lines."""

    def assert_right(self, *lines):
        self.assertEqual([], prose.prose_faults("\n".join(lines)))

    def assert_wrong(self, said, *lines):
        self.assertIn(said, "\n".join(prose.prose_faults("\n".join(lines))))

    def test_long_sentences(self):
        self.assert_right(words(40))
        self.assert_wrong("3: a sentence of 41 words", "# Title", "", words(41))
        self.assert_wrong("1: a sentence of 41 words", words(20)[:-1] + "; " + words(21))
        self.assert_wrong("2: a sentence of 41 words", "- " + words(3), "- " + words(41))
        self.assert_wrong("1: a sentence of 41 words", *(words(41)[:-1] + ":").split())

    def test_one_sentence_of_a_page_may_be_long(self):
        self.assert_right(words(31), "", words(30))
        self.assert_wrong("3: a sentence of 31 words, and not the only one above 30", words(32), "", words(31))

    def test_sentences_end_at_their_marks_and_at_blocks(self):
        self.assert_right(words(20) + " " + words(20) + " (" + words(9)[:-1] + ".) " + words(25))
        self.assert_right(words(20)[:-1] + ":", "", "    $ a command " + words(90), "", "word " * 15)
        self.assert_right("- " + "word " * 25, "- " + "word " * 25, "1. " + "word " * 25)
        self.assertEqual([(1, "At most 25. Then one.", False)], list(prose.paragraphs("- At most 25. Then one.")))

    def test_code_and_links_are_short(self):
        self.assert_right(words(38)[:-1] + " `a b c d e` [x](y.md).")
        self.assert_wrong("a sentence of 41 words", words(38)[:-1] + " [a b c](y.md).")

    def test_cells(self):
        self.assert_right("| a | b |", "|---|---|", "| " + "word " * 25 + "| `behind` |")
        self.assert_wrong("3: a cell of 26 words", "| a | b |", "|---|---|", "| c | " + "word " * 26 + "|")

    def test_length_of_all_pages(self):
        self.assertEqual([], prose.length_faults(["word " * 12500, "word | " * 6250]))
        self.assertEqual(["all pages together have 25001 words, more than 25000"],
                         prose.length_faults(["word " * 12500, "a `b c`\n" * 4167]))

    def test_words(self):
        for text in ("It ran out for want of memory.", "The moment of a packet.", "The words of a command.", "A line in no form.",
                     "It tells nothing.", "What is told.", "It stands at the front.", "Behind an option.", "There are so many.",
                     "A first part of it.", "A refusal.", "It is refused.", "A name that is lent.", "A packet came.",
                     "Packets that left.", "It has one fault.", "The nodes on its way.", "It sorts packets.",
                     "The link of a capture.", "Source and target.", "It says who acts.", "Packets are held.", "The place of it.",
                     "It is kept as it was.", "They are told apart."):
            with self.subTest(text):
                self.assert_wrong("1: '", text)
                self.assert_wrong("1: '", "# " + text)
                self.assert_wrong("3: '", "| a |", "|---|", "| %s |" % text)
                self.assert_wrong("1: '", "Line one", text)
                self.assert_right("The name `%s` is code." % text)
                self.assert_right("    $ echo " + text)

    def test_words_that_are_like_them(self):
        self.assert_right("Readers who rely on it see a placement, a link, a target and a way to do it in sched_core/behind.rt.",
                          "The words are in tests/refused, as KIND and PLACE. Line `stands` is left, and comes to an end.")

    def test_messages(self):
        source = '// "behind"\n/// "behind"\nconst A: &str = "\\\nsays \\"this\\"\nand";\n    say("stands", \'x\')\n'
        self.assertEqual([(3, 'says \\"this\\"\nand'), (6, "stands")], list(prose.messages(source)))
        self.assertEqual(["'stands': write is at, is in, is"], prose.word_faults("stands"))


class Names(unittest.TestCase):
    """Names of files and functions on a page of a few lines."""

    def faults(self, text):
        return prose.name_faults(text, pages.TOP / "docs/PROOFS.md")

    def test_files(self):
        for text in ("docs/PROOFS.md", "`tests/tools/mutate`", "pifo_core/src/heap.rt", "src/heap.rt", "specs/Queue.antt",
                     "Queue.antt", "crates/NAME/src/", "crates.txt", "tests/wrong_bodies/pifo_core", "./tools/look",
                     "crates/replay_main/out/replay_main", "commands/replay.md", "[a](../tools/look) 10.9.0.0/16 and/or 1/0/0",
                     "rows.jsonl", "**.. a.** src/heap.rt", "`proofs/ArrivalLaws.antt`", "proofs/ArrivalLaws.antt."):
            with self.subTest(text):
                self.assertEqual([], self.faults(text))
        for text in ("docs/NONE.md", "`tests/tools/none`", "pifo_core/src/none.rt", "src/none.rt", "None.antt", "crates/none/",
                     "none.jsonl", "| a | see tools/none |", "[docs/NONE.md](PROOFS.md)"):
            with self.subTest(text):
                self.assertIn("there is no file", "".join(self.faults(text)))

    def test_functions(self):
        for text in ("`take_least`", "`HeapPifo::push`", "`heap_ties_newest_first`", "`kept`", "`no such words`", "`pifo_core`",
                     "`take_least` (tree_defs/specs/Queue.antt)", "`push` of `HeapPifo` (pifo_core/src/heap.rt)",
                     "`NOT_RUN`", "`tc`", "`none-at-all`\n\n    $ echo none-at-all"):
            with self.subTest(text):
                self.assertEqual([], self.faults(text))
        self.assertEqual(["3: no source has the name take_leastest"], self.faults("# A\n\n`take_leastest`"))
        self.assertEqual(["1: no source has the name pushest"], self.faults("`HeapPifo::pushest`"))
        self.assertEqual(["1: put_head isn't in pifo_core/src/heap.rt"], self.faults("`put_head` (pifo_core/src/heap.rt)"))
        self.assertEqual(["1: push of Report isn't in pifo_core/src/heap.rt"],
                         self.faults("`push` of `Report` (pifo_core/src/heap.rt)"))


if __name__ == "__main__":
    unittest.main()
