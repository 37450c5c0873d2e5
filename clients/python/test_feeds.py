"""Tests of questions about earlier positions, by both clients: PEQUOD=path/of/the/built/program python3 -m unittest test_feeds"""

import itertools
import unittest

import pequod
from awaited import Awaited
from pequod import Changes, Done, Pairs
from serving import HOST, Server, want_program

REACH = 65_536
FEED = "t|ann|", "t|ann}"
HI, YO = ("t|ann|100|bob", "Hi"), ("t|ann|120|bob", "Yo")
# Each call with its answer, or with the refusal and the length of the history that it tells.
ROWS = (
    (("join", "t|<user>|<time>|<poster> = check s|<user>|<poster> copy p|<poster>|<time>"), Done(1)),
    (("put", "s|ann|bob", "1"), Done(2)),
    (("put", "p|bob|100", "Hi"), Done(3)),
    (("put", "p|bob|120", "Yo"), Done(4)),
    (("scan", *FEED), Pairs(4, (HI, YO))),
    (("scan", *FEED, 3), Pairs(3, (HI,))),
    (("scan", *FEED, 0), Pairs(0, ())),
    (("scan", *FEED, 5), (pequod.Ahead, 4)),
    (("changes", *FEED, 3), Changes(3, 4, (YO,))),
    (("changes", *FEED, 5), (pequod.Ahead, 4)),
    (("remove", "s|ann|bob"), Done(5)),
    (("changes", *FEED, 3), Changes(3, 5, (("t|ann|100|bob", None),))),
    (("changes", *FEED, 5), Changes(5, 5, ())),
    (("scan_prefix", "t|ann|", 4), Pairs(4, (HI, YO))),
    (("put", "p|bob|100", "Ho"), Done(6)),
    (("drop", 1), Done(7)),
    (("put", "t|ann|120|bob", "own"), Done(8)),
    (("changes", *FEED, 4), Changes(4, 8, (("t|ann|100|bob", None), ("t|ann|120|bob", "own")))),
    (("scan", *FEED, 4), Pairs(4, (HI, YO))),
)
# What stands after a restart: fewer entries than before, and more than that.
RESTARTS = (
    [("k|b", "2"), ("k|c", "1")],
    [*((f"other|{number}", "x") for number in range(10)), ("k|b", "2"), ("k|c", "1")],
)


def setUpModule():
    want_program()


def answered(client, name, *words):
    """What a call is answered with, or the refusal and its position."""
    try:
        return getattr(client, name)(*words)
    except pequod.Refused as error:
        return type(error), error.position


class Feeds(unittest.TestCase):
    def setUp(self):
        self.server = Server()
        self.addCleanup(self.server.stop)
        self.connect()

    def connect(self):
        self.client = self.server.connect()
        self.addCleanup(self.client.close)

    def put_all(self, pairs):
        """Puts by another client."""
        with self.server.connect() as other, other.pipeline() as pipeline:
            for key, value in pairs:
                pipeline.put(key, value)

    def watch(self):
        """A watch of two pairs, which were told."""
        self.put_all([("k|a", "1"), ("k|b", "1")])
        watch = self.client.watch("k|", "k}", every=0.01)
        self.assertEqual([next(watch), next(watch)], [("k|a", "1"), ("k|b", "1")])
        return watch

    def test_rows(self):
        for call, wanted in ROWS:
            with self.subTest(call):
                self.assertEqual(answered(self.client, *call), wanted)
        self.assertEqual(self.client.position, 8)

    def test_more_entries_than_can_be_asked_about(self):
        watch = self.watch()
        self.put_all(("z|a", str(number)) for number in range(3, REACH + 4))
        length = REACH + 3
        for at, wanted in (2, (pequod.Gone, length)), (3, Pairs(3, (("z|a", "3"),))):
            self.assertEqual(answered(self.client, "scan", "z|", "z}", at), wanted)
        for since, wanted in (2, (pequod.Gone, length)), (3, Changes(3, length, (("z|a", str(length)),))):
            self.assertEqual(answered(self.client, "changes", "z|", "z}", since), wanted)
        # The watch has seen two entries, so it cannot ask for what changed since.
        self.put_all([("k|b", "2")])
        self.assertEqual(next(watch), ("k|b", "2"))
        self.put_all([("k|a", "2")])
        self.assertEqual(next(watch), ("k|a", "2"))

    def test_a_watch_goes_on_after_a_restart(self):
        for pairs in RESTARTS:
            with self.subTest(len(pairs)):
                watch = self.watch()
                self.server.restart()
                self.put_all(pairs)
                self.assertEqual(list(itertools.islice(watch, 3)), [("k|a", None), ("k|b", "2"), ("k|c", "1")])
                self.put_all([("k|b", "3")])
                self.assertEqual(next(watch), ("k|b", "3"))
                self.server.restart()
                self.connect()


class FeedsOfTasks(Feeds):
    def connect(self):
        self.client = Awaited(HOST, self.server.port, 20)
        self.addCleanup(self.client.end)


if __name__ == "__main__":
    unittest.main()
