"""Tests of how the text of a join is read, held to what the program says of it:
PEQUOD=path/of/the/built/program python3 -m unittest test_joins"""

import json
import random
import subprocess
import unittest

from pequod.joins import NoJoin, overlap, read_join, read_pattern
from serving import PROGRAM, want_program

SEEDS = (
    "t|<user>|<time>|<poster> = check s|<user>|<poster> copy p|<poster>|<time>",
    "b|<x:3> = pull sum a|<x:3>|k",
    "n|all = push  count v|<w>|<z_1:64>",
    f"x|<{'n' * 32}> = copy y|<{'n' * 32}>|<a:10>",
    "a|b|c|d|e|f|g|h|i|j|k|l|m|n|o|p = copy z|q",
    f"q|{'|'.join(f'<s{number}>' for number in range(14))} = copy r|<s14>|<s15>",
)
PIECES = (
    *"<>|: =0123456789_-a~Z\t\0\x1f\x7f\u00fc", "  ", "copy", "check", "push", "pull", "=", "<a>", "<b:4>", "65", "64", "08", "|<x>",
    "chek ", "min max", "\u65e5\u672c", *[""] * 10,
)
EDGES = (
    f"t|{'a' * 510} = copy x|y", f"t|{'a' * 511} = copy x|y", f"{'t' * 64}|<a> = copy x|<a>", f"{'t' * 65}|<a> = copy x|<a>",
    f"{'a|' * 15}a = copy b|c", f"{'a|' * 16}a = copy b|c", f"b|c = copy a|{' ' * 4_084}", f"b|c = copy a|d{' ' * 4_082}",
    f"b|c = copy a|d{' ' * 4_083}", "", " ", "=", "= = =", "b|<x> = copy a|<x>\u00a0check c|<x>",
)
FAULTS = (
    ("b|<user-id> = copy a|<x>", "the name of a slot has the letters a to z and A to Z, digits and _ alone", "-"),
    ("b|<x> = copy a|<x:08>", "a width has no zero in front", "0"),
    ("b|<x> = copy a|<x:65>", "a width is a number from 1 to 64", "6"),
    ("b|<x> = copy a|<x:>", "a width is a number from 1 to 64", ">"),
    ("b|<> = copy a|<x>", "the name of a slot has 1 to 32 characters", ">"),
    ("b|<x = copy a|<x>", "a slot ends with >", " "),
    ("b|<x>y = copy a|<x>", "a slot is a whole segment, and nothing stands behind its >", "y"),
    ("b|y<x> = copy a|<x>", "a literal has no <: a slot is a whole segment, as <user>", "<"),
    ("b|a\tc = copy a|<x>", "a literal has no control character", "\t"),
    ("b||<x> = copy a|<x>", "a segment is not empty", "|"),
    ("<b>|<x> = copy a|<x>", "a pattern begins with the table's name, which is no slot", "<"),
    ("b|<x> = chek a|<x>", "chek is not wanted here, but one of the operators check, copy, count, sum, min and max", "c"),
    ("b|<x> copy a|<x>", "copy is not wanted here, but an = behind the output", "c"),
    ("b|<x> = copy check", "check is not wanted here, but a pattern behind copy: segments with | between them", "c"),
    ("b|<x> = copy", "it ends too early: a pattern behind copy is wanted", ""),
    ("b|<x> =", "it ends too early: one of the operators check, copy, count, sum, min and max is wanted", ""),
)
KEYS = (
    ("t|<u>|k|<u>|<w:2>", "t|ann|k|ann|07", {"u": "ann", "w": "07"}),
    ("t|<u>|k|<u>|<w:2>", "t|\u00e9|k|\u00e9|\u00e9", {"u": "\u00e9", "w": "\u00e9"}),
    ("t|<u>|k|<u>|<w:2>", "s|ann|k|ann|07", "its table is s, and not t"),
    ("t|<u>|k|<u>|<w:2>", "t|ann|k|ann", "it has 4 segments, and the pattern has 5"),
    ("t|<u>|k|<u>|<w:2>", "t|ann|x|ann|07", "segment 3 is 'x', and the pattern has 'k' there"),
    ("t|<u>|k|<u>|<w:2>", "t||k||07", "segment 2 is '', and <u> is never empty"),
    ("t|<u>|k|<u>|<w:2>", "t|ann|k|bob|07", "segment 4 is 'bob', and <u> was 'ann' before"),
    ("t|<u>|k|<u>|<w:2>", "t|ann|k|ann|7", "segment 5 is '7', and <w:2> has 2 bytes, not 1"),
)


def setUpModule():
    want_program()


def answers(requests):
    """What the program answers to requests, each line read."""
    sent = "".join(json.dumps(request, ensure_ascii=False) + "\n" for request in requests).encode()
    replies = subprocess.run([PROGRAM, "run"], input=sent, capture_output=True, check=True).stdout.splitlines()
    return [json.loads(reply) for reply in replies]


def drawn_texts(draw, count):
    """Texts of joins with up to three places that are changed."""
    for _ in range(count):
        text = draw.choice(SEEDS)
        for _ in range(draw.randint(0, 3)):
            place = draw.randint(0, len(text))
            end = place + draw.choice((0, 0, 0, 1, 1, 2, 5, 20))
            text = text[:place] + draw.choice(PIECES) + text[end:]
        yield text


def byte_of_fault(text):
    try:
        read_join(text)
    except NoJoin as fault:
        return fault.byte
    return None


class Texts(unittest.TestCase):
    def test_drawn_texts_are_read_as_the_program_reads_them(self):
        texts = [*EDGES, *(text for text, _, _ in FAULTS), *drawn_texts(random.Random(11), 8_000)]
        replies = answers(["join", text] for text in texts)
        wanted = [reply[2] if reply[:2] == ["error", "syntax"] else None for reply in replies]
        self.assertEqual([(text, byte_of_fault(text)) for text in texts], list(zip(texts, wanted)))
        self.assertGreater(wanted.count(None), 1_000)
        self.assertGreater(len(texts) - wanted.count(None), 1_000)

    def test_a_fault_has_its_place(self):
        for text, sentence, character in FAULTS:
            with self.assertRaises(NoJoin) as caught:
                read_join(text)
            fault = caught.exception
            self.assertEqual((fault.sentence, text[fault.at:fault.at + 1]), (sentence, character), text)

    def test_a_join_is_read_whole(self):
        join = read_join("t|<u>|x = pull copy p|<u>|<u> check s|<u:3>|k")
        self.assertEqual([str(pattern) for pattern in join.patterns()], ["t|<u>|x", "p|<u>|<u>", "s|<u:3>|k"])
        self.assertEqual([str(source) for source in join.in_order()], ["check s|<u:3>|k", "copy p|<u>|<u>"])
        self.assertTrue(join.is_pull)

    def test_keys_that_fit_and_that_do_not(self):
        for pattern, key, wanted in KEYS:
            self.assertEqual(read_pattern(pattern).match(key), wanted)

    def test_drawn_patterns_overlap_where_the_program_says_so(self):
        draw = random.Random(5)
        segments = ("<a>", "<b>", "<a:1>", "<b:2>", "x", "y", "xx", "\u00fc")

        def pattern():
            return "|".join(["t", *(draw.choice(segments) for _ in range(draw.randint(1, 2)))])

        def join(output, table):
            slots = [slot for slot in output.split("|") if slot.startswith("<")]
            return read_join(f"{output} = copy {'|'.join([table, 'k', *dict.fromkeys(slots)])}")

        seen = 0
        for _ in range(150):
            one, two = join(pattern(), "u"), join(pattern(), "v")
            first, second = answers([["join", one.text], ["join", two.text]])
            if first == ["ok", 1] and second[1] != "slots":
                seen += 1
                self.assertEqual(overlap(one.output, two.output), second[1] == "clash", (one.text, two.text))
        self.assertGreater(seen, 50)


if __name__ == "__main__":
    unittest.main()
