"""Tests that a relay answers streams of bytes as the server does: PEQUOD=path/of/the/built/program python3 -m unittest
test_relay_streams"""

import random
import unittest

from relaying import Relay, clean_end, connected, talk
from serving import Server, want_program

MOST = 1_048_576
GET = b'["get","a|1"]\n'
# Each stream is sent to a server and to a relay before another one, whole and in pieces. In the names, 'quit' is one that ends.
STREAMS = (
    ("ordinary", b'["put","a|1","x"]\n["get","a|1"]\n["quit"]\n["get","a|1"]\n'),
    ("unended last line", b'["put","a|1","x"]\n["get","a|1"]'),
    ("unended quit", GET + b'["quit"]'),
    ("blank lines", b"\n\n" + GET + b" \n\n"),
    ("returns before line ends", b'["get","a|1"]\r\n ["quit"] \r\n["get","a|1"]\r\n'),
    ("a return alone", b"\r"),
    ("no lines", b""),
    ("what is no JSON, and what looks like a quit", b'xx\n["get"\n\xff\xfe\n["quit","a"]\n' + GET),
    ("a quit in UTF-16, which is none", '["quit"]'.encode("utf-16-le") + b"\n" + GET),
    ("a quit with a byte order mark, which is none", b'\xef\xbb\xbf["quit"]\n' + GET),
    ("two quits in one line, which are none", b'["quit","quit"]\n' + GET),
    ("a quit with an escape", b'["qu\\u0069t"]\n' + GET),
    ("a quit that begins with an escape", b'["\\u0071uit"]\n' + GET),
    ("a quit with spaces", b'[ "quit"\t]\n' + GET),
    ("a quit after much", b"[" + b" " * 100 + b'"quit"]\n' + GET),
    ("a line that is too long", GET + b'["put","a|1","' + b"y" * MOST + b'"]\n' + GET),
    ("the longest line, of spaces and a get", GET + b" " * (MOST - 13) + GET + GET),
    ("the longest line, of no form", b'["x","' + b"y" * (MOST - 8) + b'"]\n' + GET),
    ("a line with one byte too many", b'["x","' + b"y" * (MOST - 7) + b'"]\n' + GET),
    ("a line that is too long and does not end", GET + b"y" * 1_500_000),
    ("two hundred brackets", b"[" * 200 + b"]" * 200 + b"\n" + GET),
    # Beyond those of the trial.
    ("a quit that is escaped wholly", b'["\\u0071\\u0075\\u0069\\u0074"]\n' + GET),
    ("an escape with a capital U, which is none", b'["\\U0071uit"]\n' + GET),
    ("white space that JSON has not", b'\x0b["quit"]\n\x0c["quit"]\n["quit"]\xc2\xa0\n["quit"]\x00\n' + GET),
    ("a quit within an array", b'[["quit"]]\n"quit"\n["Quit"]\n["quit",1]\n[]\n' + GET),
    ("a quit that is too long", b" " * (MOST - 7) + b'["quit"]\n' + GET),
    ("the longest quit", b" " * (MOST - 8) + b'["quit"]\n' + GET),
    ("a longest line that does not end", b" " * (MOST - 13) + GET[:-1]),
    ("a scan in unusual spellings", b'["scan" ,"a|","a}"]\n[ "scan","a|","a}"]\n["\\u0073can","a|","a}"]\n["scan","a|","a}",1]\n' * 9),
    ("every kind", b'["put","a|2","z"]\n["remove","a|2"]\n["join","b|<x> = copy a|<x>"]\n["scan","b|","b}"]\n'
                   b'["changes","a|","a}",1]\n["drop",99]\n["join","x"]\n["put","b|1","y"]\n["quit"]\n'),
)
# What drawn streams are put together from, with how often.
PARTS = (
    (6, b'["put","d|%d","%d"]\n'), (6, b'["get","d|%d"]\n'), (2, b'["remove","d|%d"]\n'), (2, b'["scan","d|","d|%d"]\n'),
    (1, b'["changes","d|","d}",%d]\n'), (1, b'[ "get" , "d|%d" ]\r\n'), (1, b'["scan","d|","d}",%d]\n'), (1, b"\n"), (1, b"  \n"),
    (1, b'["quit","%d"]\n'), (1, b'["quit"\n'), (1, b'"quit"\n'), (1, b"\xff%d\n"), (1, b"[[%d]]\n"), (1, b'["drop",%d]\n'),
)
ENDS = (
    b"", b'["get","d|1"]', b'["quit"]', b'\t[\r"q\\u0075it" ]\n["get","d|1"]\n', b'["\\u0071\\u0075i\\u0074"]\nx',
    b"[" + b"1," * 600_000, b" " * (MOST + 1) + b'\n["put","d|1","never"]\n', b'["q',
)
DRAWN = 60


def setUpModule():
    want_program()


def draw(seed):
    """A stream, and the pieces in which it is sent."""
    chance = random.Random(seed)
    weights = [weight for weight, _ in PARTS]
    lines = []
    for _, part in chance.choices(PARTS, weights, k=chance.choice((3, 40, 700))):
        lines.append(part % tuple(chance.randrange(9) for _ in range(part.count(b"%d"))))
    stream = b"".join(lines) + chance.choice(ENDS)
    cuts = sorted(chance.randrange(len(stream) + 1) for _ in range(chance.randrange(1, 40)))
    return stream, [stream[start:end] for start, end in zip([0, *cuts], [*cuts, len(stream)])]


class Streams(unittest.TestCase):
    @classmethod
    def setUpClass(cls):
        cls.alone, cls.behind = Server("--workers", "4"), Server("--workers", "4")
        cls.addClassCleanup(cls.alone.stop)
        cls.addClassCleanup(cls.behind.stop)
        cls.relay = Relay(cls.behind.port)
        cls.addClassCleanup(lambda: clean_end(cls("hold"), cls.relay))

    def hold(self, stream=b"", pieces=None):
        """The relay answers a stream byte for byte as a server of the same history does, in order to its end, and loses no link
        by it. Where a reset ends the connection to the server itself, the last replies may be missing there."""
        wanted, is_reset = talk(connected(self.alone.port), stream, pieces)
        came, is_relay_reset = talk(connected(self.relay.port), stream, pieces)
        self.assertFalse(is_relay_reset)
        self.assertEqual(came[:len(wanted)] if is_reset else came, wanted)
        self.assertEqual(self.relay.counted("pequod_links_lost_total"), 0)

    def test_streams(self):
        for name, stream in STREAMS:
            with self.subTest(name):
                self.hold(stream)
                width = 7 if len(stream) < 2_000 else 65_536
                self.hold(stream, [stream[at:at + width] for at in range(0, len(stream), width)])

    def test_drawn_streams(self):
        for seed in range(DRAWN):
            with self.subTest(seed=seed):
                self.hold(*draw(seed))

    def test_a_last_reply_is_not_lost(self):
        for _ in range(20):
            self.assertEqual(talk(connected(self.relay.port), b"", [GET, b'["quit"]\n', *[GET] * 20])[0][-8:], b'["bye"]\n')


if __name__ == "__main__":
    unittest.main()
