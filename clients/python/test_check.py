"""Tests of `python3 -m pequod check FILE`: PEQUOD=path/of/the/built/program python3 -m unittest test_check"""

import contextlib
import io
import pathlib
import random
import tempfile
import unittest

from pequod.__main__ import main
from pequod.advice import warnings
from pequod.check import Line, judge, slot_notes
from pequod.joins import read_join
from serving import FOLDER, PROGRAM, want_program

WRONG = """\
# A feed
page|<a>|<id>|k = check art|<a>|<id>  copy karma|<a>
karma|<a> = count vote|<a>|<id>|<voter>\r

karma|<z> = copy x|<z>
\u00fc|<z> = copy \u65e5\u672c|<z> chek x|<z>
t|<u> = copy
vote|<a>|<b>|<c> = copy page|<a>|<b>|<c>
out|<a>|<b:4> = check s|<b>|<c> copy v|<c>|<d>
two|<a> = copy v|<a> copy w|<a>
"""
TOLD = """\
FILE:5: clash: its output overlaps that of another join
  the join
    karma|<z> = copy x|<z>
  and that of line 3, at position 2
    karma|<a> = count vote|<a>|<id>|<voter>
FILE:6: syntax: this is no text of a join
  chek is not wanted here, but one of the operators check, copy, count, sum, min and max
    \u00fc|<z> = copy \u65e5\u672c|<z> chek x|<z>
                          ^
FILE:7: syntax: this is no text of a join
  it ends too early: a pattern behind copy is wanted
    t|<u> = copy
                ^
FILE:8: cycle: the joins would read one another in a circle
  the join
    vote|<a>|<b>|<c> = copy page|<a>|<b>|<c>
  and that of line 2, at position 1
    page|<a>|<id>|k = check art|<a>|<id>  copy karma|<a>
  and that of line 3, at position 2
    karma|<a> = count vote|<a>|<id>|<voter>
FILE:9: slots: the slots of the join do not go together
  <a> of the output occurs in no source
    out|<a>|<b:4> = check s|<b>|<c> copy v|<c>|<d>
        ^
  <b> has another width than <b:4>
    out|<a>|<b:4> = check s|<b>|<c> copy v|<c>|<d>
                            ^
  <c> of what is copied does not occur in the output
    out|<a>|<b:4> = check s|<b>|<c> copy v|<c>|<d>
                                           ^
  <d> of what is copied does not occur in the output
    out|<a>|<b:4> = check s|<b>|<c> copy v|<c>|<d>
                                               ^
FILE:10: sources: a join has one value source, at most 7 checks, and none beside count, sum, min or max
  a second value source, beside copy v|<a>
    two|<a> = copy v|<a> copy w|<a>
                         ^
2 accepted, 6 refused
"""
# A line that is refused, the sentence that says why, and the character at which the caret stands.
CAUSES = (
    ("b|<user-id> = copy a|<x>", "the name of a slot has the letters a to z and A to Z, digits and _ alone", "-"),
    ("b|<user:08> = copy a|<user:08>", "a width has no zero in front", "0"),
    ("b|<x> = check c|<x>", "it has no value source: one copy, count, sum, min or max", ""),
    ("b|<x> = copy c|<x> sum d|<x>", "a second value source, beside copy c|<x>", "s"),
    (f"b|<x> = {' '.join(f'check c{number}|<x>' for number in range(8))} copy d|<x>", "more than 7 checks", "c"),
    ("b|<x> = check c|<x> sum d|<x>|<y>",
     "a check beside sum, which takes none: let a join with the check make the pairs that it reads", "c"),
    ("b|<x> = check c|<x> copy b|<x>", "the join reads its own output: keys may fit both b|<x> and b|<x>", "b"),
)
# A join that is accepted, and the warnings about it, each with what stands at the caret.
WARNED = (
    ("page|<thread>|<n>|<author> = copy post|<author>|<thread>|<n>", (
        ("a read of page|<thread>| walks all of post|: <thread> stands behind <author>, which such a read does not know",
         "<author>|<thread>"),
    )),
    ("page|<thread>|<n:8>|<author> = copy post|<thread>|<n:8>|<author>", ()),
    ("at|<game>|<player>|<level> = copy level|<game>|<level>|<player>", (
        ("a read of at|<game>|<player>| walks all of level|<game>|: <player> stands behind <level>, which such a read does not know",
         "<level>|<player>"),
    )),
    ("z|<k> = check a|<x> copy v|<k>", (("a read of z|<k> walks all of a|: none of its slots is known by then", "<x>"),)),
    ("t|user|time = copy p|user|time", (
        ("the output has no slot, so it is one pair; was <user> meant? A read of it walks the key p|user|time", "user|time ="),
    )),
    ("t|user|time = count p|user|time", (
        ("the output has no slot, so it is one pair; was <user> meant? A read of it walks the key p|user|time", "user|time ="),
    )),
    ("t|user|<time:8> = count p|<user>|<time:8>", (
        ("user is a literal here, and <user> is a slot of this join", "user|"),
        ("a read of t|user|<time:8> walks all of p|: <time:8> stands behind <user>, which such a read does not know", "<user>"),
    )),
    ("t|<user>|<time>|<poster> = check s|<user>|<poster> copy p|<poster>|<time>", (
        ("a page of t|<user>| that is cut by <time> walks all of p|<poster>| for each <poster>, since the slot has no width, as <time:16>",
         "<time>"),
    )),
    ("t|<user>|<time:9>|<poster> = check s|<user>|<poster> copy p|<poster>|<time:9>", ()),
    ("second|<user>|<other> = pull check friend|<user>|<mutual> check friend|<mutual>|<other> copy name|<other>", ()),
    ("users|all = count user|<number:8>|<name>", ()),
    ("page|<a>|<id>|k = check art|<a>|<id> copy karma|<a>", ()),
)


def setUpModule():
    want_program()


class Checks(unittest.TestCase):
    def setUp(self):
        folder = tempfile.TemporaryDirectory()
        self.addCleanup(folder.cleanup)
        self.file = pathlib.Path(folder.name, "some.joins")

    def check(self, content, program=PROGRAM):
        """The status, and what is printed."""
        self.file.write_bytes(content)
        with contextlib.redirect_stdout(io.StringIO()) as printed, contextlib.redirect_stderr(io.StringIO()) as told:
            status = main(["check", str(self.file), "--program", program])
        return status, printed.getvalue().replace(str(self.file), "FILE") + told.getvalue()

    def test_each_refusal_is_told_with_its_place(self):
        status, told = self.check(WRONG.encode())
        self.assertEqual(told, TOLD)
        self.assertEqual(status, 7)

    def test_files_that_are_accepted(self):
        for name, count in ("feeds.joins", 2), ("timeline/timeline.joins", 6):
            content = (FOLDER.parent.parent / "examples" / name).read_bytes()
            status, told = self.check(content)
            self.assertEqual((status, told.splitlines()[-1].partition(", 1 warning")[0]), (0, f"{count} accepted, 0 refused"))
        self.assertEqual(self.check(b""), (0, "0 accepted, 0 refused\n"))

    def test_each_cause_is_told_where_it_stands(self):
        for text, sentence, character in CAUSES:
            status, told = self.check(text.encode())
            _, cause, line, caret, count = told.splitlines()
            seen = (status, cause, line[len(caret) - 1:len(caret)], count)
            self.assertEqual(seen, (7, f"  {sentence}", character, "0 accepted, 1 refused"))

    def test_what_is_accepted_and_warned_of(self):
        for text, wanted in WARNED:
            status, told = self.check(text.encode())
            self.assertEqual((status, told.splitlines()[-1].split(", ")[:2]), (0, ["1 accepted", "0 refused"]))
            self.assertEqual([(note.sentence, note.text.encode()[note.byte:].decode()[:len(place)])
                              for note, (_, place) in zip(warnings(read_join(text)), wanted)], list(wanted), text)
            self.assertEqual([line.split(": warning: ")[1] for line in told.splitlines() if ": warning: " in line],
                             [sentence for sentence, _ in wanted])

    def test_what_is_no_text(self):
        status, told = self.check(b"b|<x> = copy a|<x>\nc|<x> = copy \xff|<x>\n")
        self.assertEqual((status, told.splitlines()[1]), (7, "  from byte 13 on it is no UTF-8"))

    def test_a_long_text_is_shown_in_part(self):
        status, told = self.check(b"b|<x> = copy a|<x> " + b"x" * 5_000)
        self.assertEqual(status, 7)
        self.assertEqual(told.splitlines()[1:4], [
            "  it has more than 4,096 bytes", f"    \u2026{'x' * 89}{'x' * 39}\u2026", " " * 94 + "^",
        ])

    def test_what_cannot_be_used(self):
        self.assertEqual(self.check(b"", "/nowhere/pequod"), (
            9, "pequod check: the program /nowhere/pequod is not there; --program PATH or $PEQUOD names the one that was built\n",
        ))
        self.assertEqual(self.check(b"", "/bin/false")[0], 9)
        with contextlib.redirect_stderr(io.StringIO()):
            self.assertEqual(main(["check", "/nowhere/some.joins"]), 9)

    def test_slots_that_go_together(self):
        self.assertEqual(list(slot_notes(read_join("t|<u>|<p:4> = check s|<u>|<p:4>|<q> copy p|<p:4>"))), [])
        self.assertEqual(list(slot_notes(read_join("n|<u> = count v|<u>|<w>"))), [])

    def test_drawn_joins_whose_slots_the_program_refuses(self):
        draw = random.Random(7)
        slots = ("<a>", "<b>", "<c>", "<a:2>", "<b:3>", "x")

        def pattern(table):
            return "|".join([table, *(draw.choice(slots) for _ in range(draw.randint(1, 3)))])

        texts = []
        for number in range(600):
            checks = [f"check c{each}|{draw.choice(slots)}" for each in range(draw.randint(0, 2))]
            texts.append(" ".join([pattern(f"o{number}"), "=", *checks, draw.choice(("copy", "sum")), pattern("p")]))
        verdicts, accepted = judge([Line(number, text) for number, text in enumerate(texts)], PROGRAM)
        refused = {verdict.line.number for verdict in verdicts if verdict.name == "slots"}
        self.assertGreater(len(accepted), 10)
        self.assertGreater(len(refused), 100)
        self.assertEqual({number for number, text in enumerate(texts) if list(slot_notes(read_join(text)))}, refused)


if __name__ == "__main__":
    unittest.main()
