"""Tests of keys of segments, of strict puts and what explains them, of many pairs, files of pairs and restarts in a watch:
PEQUOD=path/of/the/built/program python3 -m unittest test_helpers"""

import asyncio
import contextlib
import io
import pathlib
import subprocess
import sys
import tempfile
import unittest

import pequod
from pequod import aio
from pequod.__main__ import main
from serving import FOLDER, HOST, Case, Server, want_program

TIMELINE = "t|<user>|<time:3>|<poster> = check s|<user>|<poster> copy p|<poster>|<time:3>"
POSTS = "posts|<poster> = count p|<poster>|<time:3>"
VIA = "via|<user>|<other> = check friend|<user>|<mutual> check friend|<mutual>|<other> copy posts|<other>"
JOINS = (TIMELINE, POSTS, VIA)
KEYS = (
    (("p", "bob", 7), {"widths": (None, 4)}, "p|bob|0007"),
    (("p", "bob", 7), {}, "p|bob|7"),
    (("p", "bob", "0007"), {"widths": (None, 4)}, "p|bob|0007"),
    (("p", "\u00e9", -3), {"widths": (2,)}, "p|\u00e9|-3"),
    (("t" * 64, "a" * 447), {}, f"{'t' * 64}|{'a' * 447}"),
)
NO_KEYS = (
    (("p", "a|b"), {}, "'a|b' is no segment: it is not empty and has no |"),
    (("p", ""), {}, "'' is no segment: it is not empty and has no |"),
    (("p|q", "a"), {}, "'p|q' is no segment: it is not empty and has no |"),
    (("p",), {}, "a key has a segment behind its table"),
    (("p", 12345), {"widths": (4,)}, "'12345' has 5 bytes, and its slot has 4"),
    (("p", "ab"), {"widths": (4,)}, "'ab' has 2 bytes, and its slot has 4"),
    (("p", -1), {"widths": (4,)}, "-1 is below 0, so zeros in front would not bring it into the order of numbers"),
    (("p", "a"), {"widths": (None, 4)}, "there are 2 widths for 1 segments behind the table"),
    (("t" * 65, "a"), {}, f"a table's name has at most 64 bytes, and '{'t' * 65}' has 65"),
    (("t" * 64, "a" * 448), {}, "a key has at most 512 bytes"),
)
# A key, and what is printed of it, each line without what stands before it.
EXPLAINED = (
    ("p|bob|101", 0, [
        "p|bob|101 feeds line 2 through copy p|<poster>|<time:3>", TIMELINE, "as the value of t|<user>|101|bob",
        "p|bob|101 feeds line 3 through count p|<poster>|<time:3>", POSTS, "as one of the values of posts|bob",
    ]),
    ("friend|ann|bob", 0, [
        "friend|ann|bob feeds line 4 through check friend|<user>|<mutual>", VIA, "as one that is wanted for via|ann|<other>",
        "friend|ann|bob feeds line 4 through check friend|<mutual>|<other>", VIA, "as one that is wanted for via|<user>|bob",
    ]),
    ("t|ann|101|bob", 0, [
        "t|ann|101|bob is made by line 2, and cannot be put", TIMELINE, "a get of it reads", "the key s|ann|bob", "the key p|bob|101",
    ]),
    ("posts|bob", 0, [
        "posts|bob is made by line 3, and cannot be put", POSTS, "a get of it reads", "p|bob| to p|bob}",
        "posts|bob feeds line 4 through copy posts|<other>", VIA, "as the value of via|<user>|bob",
    ]),
    ("via|ann|cat", 0, [
        "via|ann|cat is made by line 4, and cannot be put", VIA, "a get of it reads", "friend|ann| to friend|ann}",
        "the key friend|<mutual>|cat, for each <mutual> that was found", "the key posts|cat, which line 3 may make",
    ]),
    ("p|bob|7", 1, [
        "p|bob|7 feeds no join", "p|<poster>|<time:3> of line 2: segment 3 is '7', and <time:3> has 3 bytes, not 1",
        "p|<poster>|<time:3> of line 3: segment 3 is '7', and <time:3> has 3 bytes, not 1",
    ]),
    ("post|bob", 1, ["post|bob feeds no join", "no join reads the table post; those that are read are friend, p, posts, s"]),
)


def setUpModule():
    want_program()


class Keys(unittest.TestCase):
    def test_what_is_a_key_and_its_parts(self):
        for words, named, wanted in KEYS:
            made = pequod.key(*words, **named)
            self.assertEqual((made, pequod.key(*pequod.parts(made))), (wanted, wanted))

    def test_what_is_none(self):
        for words, named, sentence in NO_KEYS:
            with self.assertRaises(ValueError) as caught:
                pequod.key(*words, **named)
            self.assertIn(sentence, str(caught.exception))
        for wrong in None, True, 1.5, b"a":
            with self.assertRaises(TypeError):
                pequod.key("p", wrong)
        for wrong in "p", "", "|a", "t" * 65 + "|a", "k|" + "a" * 511:
            with self.assertRaises(ValueError):
                pequod.parts(wrong)


class Explained(unittest.TestCase):
    def setUp(self):
        folder = tempfile.TemporaryDirectory()
        self.addCleanup(folder.cleanup)
        self.file = pathlib.Path(folder.name, "some.joins")
        self.file.write_text("\n".join(("# Joins", *JOINS, "")))

    def explain(self, *words):
        with contextlib.redirect_stdout(io.StringIO()) as printed, contextlib.redirect_stderr(io.StringIO()) as told:
            status = main(["explain", *words])
        return status, printed.getvalue(), told.getvalue()

    def test_each_key_is_explained(self):
        for key, status, lines in EXPLAINED:
            given, printed, told = self.explain(str(self.file), key)
            self.assertEqual((given, [line.strip() for line in printed.splitlines()], told), (status, lines, ""))

    def test_what_cannot_be_explained(self):
        self.assertEqual(self.explain("/nowhere/some.joins", "k|a")[0], 9)
        self.file.write_text("b|<x> = copy\n")
        self.assertEqual(self.explain(str(self.file), "k|a"), (9, "", (
            f"pequod explain: {self.file}: line 1 is no join, from byte 12 on: it ends too early: a pattern behind copy is wanted\n")))
        with self.assertRaises(SystemExit) as caught:
            self.explain(str(self.file), "nokey")
        self.assertEqual(caught.exception.code, 2)

    def test_the_joins_of_a_file(self):
        joins = pequod.Joins.of_file(self.file)
        self.assertEqual((len(joins), [feed.number for feed in joins.feeds("p|bob|101")]), (3, [2, 3]))
        with self.assertRaises(ValueError):
            pequod.Joins(["b|<x> = copy a|<x>", "no join"])


class Strict(Case):
    joins = JOINS

    def test_a_put_that_no_join_reads_is_not_sent(self):
        strict = pequod.Joins(JOINS)
        self.assertEqual(self.client.put("p|bob|101", "Hi", strict=strict), pequod.Done(4))
        for put in self.client.put, self.client.pipeline().put:
            with self.assertRaises(pequod.Unread) as caught:
                put("s|ann|bob|x", "1", strict=strict)
        self.assertEqual(caught.exception.misses, ("s|<user>|<poster> of line 1: it has 4 segments, and the pattern has 3",))
        self.assertEqual(self.client.get("p|bob|101").position, 4)
        self.refused("computed", 4, (2,), lambda: self.client.put("posts|bob", "7", strict=strict))
        with self.assertRaises(TypeError):
            self.client.put(5, "x", strict=strict)

    def test_what_is_explained_as_read_changes_what_is_made(self):
        strict = pequod.Joins(JOINS)
        pairs = ("p|bob|101", "s|ann|bob", "friend|ann|bob", "friend|bob|cat", "p|cat|102", "p|bob|7", "friend|ann", "posts|a|b", "x|a")
        for key in pairs:
            before = self.client.put(key, "1").position - 1
            made = [change for table in ("t", "posts", "via") for change in self.client.changes(f"{table}|", f"{table}}}", before)
                    if change[0] != key]
            if made:
                self.assertTrue(strict.feeds(key), key)
            self.assertEqual(bool(strict.feeds(key)), key not in ("p|bob|7", "friend|ann", "posts|a|b", "x|a"))


class Many(Case):
    joins = ["b|<x> = copy a|<x>"]

    def test_many_pairs(self):
        pairs = {f"k|{number:05}": str(number) for number in range(5_000)}
        self.assertEqual(self.client.put_many(pairs), 5_000)
        self.assertEqual((dict(self.client.scan("k|", "k}")), self.client.position), (pairs, 5_001))
        self.assertEqual(self.client.put_many((f"l|{number}", "x" * 60_000) for number in range(40)), 40)
        self.assertEqual((len(self.client.scan("l|", "l}")), self.client.put_many([])), (40, 0))
        wrong = [*((f"m|{number}", "x") for number in range(3_000)), ("b|1", "x"), ("m|a", "x")]
        with self.assertRaises(pequod.Refused) as caught:
            self.client.put_many(wrong)
        self.assertEqual((caught.exception.name, caught.exception.number), ("computed", 3_000))
        self.assertEqual(len(self.client.scan("m|", "m}")), 3_001)
        with self.assertRaises(pequod.Unread):
            self.client.put_many({"x|1": "x"}, strict=pequod.Joins(self.joins))

    def test_over_asyncio(self):
        async def work():
            async with await aio.connect(HOST, self.server.port, 20) as client:
                count = await client.put_many((f"k|{number}", "x") for number in range(2_500))
                with self.assertRaises(pequod.Unread):
                    await client.put("x|1", "x", strict=pequod.Joins(self.joins))
                return count, len(await client.scan("k|", "k}"))

        self.assertEqual(asyncio.run(work()), (2_500, 2_500))

    def command(self, *words, given=b""):
        """What a command of the package prints, says and ends with."""
        ended = subprocess.run([sys.executable, "-m", "pequod", words[0], f"{HOST}:{self.server.port}", *words[1:]], input=given,
                               capture_output=True, cwd=FOLDER, check=False)
        return ended.returncode, ended.stdout.decode(), ended.stderr.decode()

    def test_tables_are_dumped_and_put_again(self):
        pairs = {"k|a": "she said \"no\"\n\u65e5", "k|b": "", "a|1": "one"}
        self.client.put_many(pairs)
        lines = '["k|a","she said \\"no\\"\\n\u65e5"]\n["k|b",""]\n["b|1","one"]\n'
        self.assertEqual(self.command("dump", "k", "b"), (0, lines, "3 pairs at position 4\n"))
        self.assertEqual(self.command("dump", "none"), (0, "", "0 pairs at position 4\n"))
        for key in pairs:
            self.client.remove(key)
        told = self.command("load", "-", given=(lines.splitlines()[0] + "\n\n" + lines.splitlines()[1]).encode())
        self.assertEqual(told, (0, "2 pairs, at position 9\n", ""))
        self.assertEqual(dict(self.client.scan("k|", "k}")), {"k|a": pairs["k|a"], "k|b": ""})

    def test_what_is_not_put(self):
        for given, sentence in (
            (b'["b|1","x"]\n', "pair 1: put of 'b|1': refused: computed at position 1, 1"),
            (b'["k|1","x"]\n["k|2"]\n', "line 2 is no [\"KEY\",\"VALUE\"]: b'[\"k|2\"]\\n'"),
            (b'["k|1",5]\n', "line 1 is no [\"KEY\",\"VALUE\"]: b'[\"k|1\",5]\\n'"),
            (b'\xff\n', "line 1 is no [\"KEY\",\"VALUE\"]: b'\\xff\\n'"),
        ):
            self.assertEqual(self.command("load", "-", given=given), (1, "", f"pequod load: {sentence}\n"))
        self.assertEqual(self.command("load", "/nowhere/pairs")[0], 9)
        self.assertEqual(self.command("dump", "k|")[0], 1)


class Watches(unittest.TestCase):
    """A server is started anew, and filled with other pairs, while a range is watched."""

    def setUp(self):
        self.server = Server("--workers", "8")
        self.addCleanup(self.server.stop)

    def fill(self, count):
        with self.server.connect() as client:
            client.put_many({f"k|{number}": "x" for number in range(count)})

    def test_a_restart_is_one_event(self):
        self.fill(134)
        with self.server.connect() as client:
            watch = client.watch("k|", "k}", 0.01, restarts=True)
            first = [next(watch) for _ in range(134)]
            self.server.restart()
            event = next(watch)
            self.assertEqual((type(event), event.before, event.position), (pequod.Restarted, 134, 0))
            self.fill(3)
            self.assertEqual([next(watch) for _ in range(3)], first[:1] + [("k|1", "x"), ("k|2", "x")])

    def test_without_asking_for_it_keys_go_and_come_back(self):
        self.fill(2)
        with self.server.connect() as client:
            watch = client.watch("k|", "k}", 0.01)
            seen = [next(watch) for _ in range(2)]
            self.server.restart()
            seen += [next(watch) for _ in range(2)]
            self.assertEqual(seen, [("k|0", "x"), ("k|1", "x"), ("k|0", None), ("k|1", None)])

    def test_all_watches_over_one_client_for_asyncio_are_told(self):
        self.fill(5)

        async def work():
            async with await aio.connect(HOST, self.server.port, 20) as client:
                watches = [client.watch("k|", "k}", 0.01, restarts=True) for _ in range(4)]
                for watch in watches:
                    for _ in range(5):
                        await watch.__anext__()
                self.server.restart()
                events = await asyncio.gather(*(watch.__anext__() for watch in watches))
                for watch in watches:
                    await watch.aclose()
                return [(type(event), event.before, event.position) for event in events]

        self.assertEqual(asyncio.run(work()), [(pequod.Restarted, 5, 0)] * 4)


if __name__ == "__main__":
    unittest.main()
