"""Tries the recipes of docs/COOKBOOK.md: PEQUOD=/path/of/pequod python3 -m unittest test_cookbook

Each recipe is run and its replies are compared, the lines that the document shows are looked up in the files that it names, and
the functions of recipes.py are tried.
"""

import asyncio
import contextlib
import json
import pathlib
import re
import secrets
import subprocess
import sys
import threading
import time
import unittest
import unittest.mock

FOLDER = pathlib.Path(__file__).resolve().parent
sys.path[:0] = [str(FOLDER), str(FOLDER.parent.parent / "clients" / "python")]
import pequod  # noqa: E402
import recipes  # noqa: E402
from pequod import aio  # noqa: E402
from serving import HOST, PROGRAM, Case, Server, want_program as setUpModule  # noqa: E402, F401

FORUM = FOLDER.parent / "forum"
DOCUMENT = FOLDER.parent.parent / "docs" / "COOKBOOK.md"


def lines_of(name):
    return (FOLDER / name).read_text(encoding="utf-8").splitlines()


def joins_of(recipe):
    requests = map(json.loads, lines_of(f"{recipe}.requests"))
    return [request[1] for request in requests if request[0] == "join"]


class Files(unittest.TestCase):
    def test_each_recipe(self):
        for file in sorted(FOLDER.glob("*.requests")):
            with self.subTest(file.stem), file.open("rb") as requests:
                replies = subprocess.run([PROGRAM, "run"], stdin=requests, capture_output=True, check=True).stdout.decode()
                self.assertEqual(replies.splitlines(), lines_of(f"{file.stem}.replies"))

    def test_the_document_shows_what_the_files_have(self):
        named = []
        for section in DOCUMENT.read_text(encoding="utf-8").split("\n## ")[1:]:
            recipes_of = set(re.findall(r"cookbook/(\w+)\.requests", section))
            if not recipes_of:
                # It is of programs and not of pairs.
                continue
            (recipe,) = recipes_of
            named.append(recipe)
            blocks = [block.splitlines() for block in re.findall(r"```\n(.*?)```", section, re.S)]
            with self.subTest(recipe):
                self.assertEqual(blocks[0], joins_of(recipe) or blocks[0])
                for block in blocks[1 if joins_of(recipe) else 0 :]:
                    self.check_lines(block, lines_of(f"{recipe}.requests"), lines_of(f"{recipe}.replies"))
        self.assertEqual(sorted(named), sorted(file.stem for file in FOLDER.glob("*.requests")))

    def test_the_first_recipe_shows_what_the_forum_has(self):
        section = DOCUMENT.read_text(encoding="utf-8").split("\n## ")[1]
        files = "\n".join(file.read_text(encoding="utf-8") for file in sorted(FORUM.iterdir()) if file.is_file())
        lines = [line for block in re.findall(r"```\n(.*?)```", section, re.S) for line in block.splitlines()]
        self.assertGreater(len(lines), 10)
        for line in lines:
            self.assertIn(line, files)

    def check_lines(self, block, requests, replies):
        """Each line of a block is a request or a reply, and a reply behind a request answers that one."""
        for line in block:
            self.assertIn(line, requests + replies)
        for line, following in zip(block, block[1:]):
            if line in requests and following in replies:
                self.assertIn((line, following), list(zip(requests, replies)))


class Scores(Case):
    joins = joins_of("scores")

    def scores(self):
        return [key.split("|")[3] for key, _ in self.client.scan_prefix("at|chess|ann|")]

    def test_one_lock_keeps_one_score(self):
        self.client.put("name|ann", "Ann")
        lock, truth = threading.Lock(), {"ann": 0}

        def write():
            with self.server.connect() as client:
                for _ in range(25):
                    with lock:
                        truth["ann"] += 1
                        recipes.move_score(client, "chess", "ann", truth["ann"])

        threads = [threading.Thread(target=write) for _ in range(3)]
        for thread in threads:
            thread.start()
        for thread in threads:
            thread.join()
        self.assertEqual(self.scores(), ["0075"])
        self.assertEqual(list(self.client.scan_prefix("top|chess|")), [("top|chess|0075|ann", "Ann")])

    def test_the_next_write_removes_strays(self):
        for score in "0990", "85":
            self.client.put(f"at|chess|ann|{score}", "1")
        self.client.put("score|chess|0990|ann", "1")
        self.client.put("score|chess|0990|bob", "1")
        self.assertEqual(self.scores(), ["0990", "85"])
        recipes.move_score(self.client, "chess", "ann", 980)
        self.assertEqual(self.scores(), ["0980"])
        recipes.move_score(self.client, "chess", "ann", 980)
        keys = [key for key, _ in self.client.scan_prefix("score|chess|")]
        self.assertEqual(keys, ["score|chess|0980|ann", "score|chess|0990|bob"])


class Best(Case):
    joins = joins_of("best")

    def best(self):
        return json.loads(self.client.get("best|karma").value or "[]")

    def wait_for(self, wanted):
        end = time.monotonic() + 20
        while self.best() != wanted and time.monotonic() < end:
            time.sleep(0.01)
        self.assertEqual(self.best(), wanted)

    def test_ties_go_by_name_and_the_size_holds(self):
        karma = {"karma|cat": "2", "karma|bob": "2", "karma|ann": "-1", "karma|dan": "10"}
        self.assertEqual(json.loads(recipes.best_of(karma, 3)), [["dan", 10], ["bob", 2], ["cat", 2]])

    def test_the_best_follow(self):
        with self.client.pipeline() as pipeline:
            for author in range(30):
                for voter in range(author):
                    pipeline.put(f"vote|a{author:02}|{voter}", "1")
        keeper = self.server.connect()

        def keep():
            with contextlib.suppress(pequod.LinkLost):
                recipes.keep_best(keeper, 3, 0.01)

        thread = threading.Thread(target=keep)
        thread.start()
        try:
            self.wait_for([["a29", 29], ["a28", 28], ["a27", 27]])
            self.client.remove("vote|a29|0")
            self.client.remove("vote|a29|1")
            self.wait_for([["a28", 28], ["a27", 27], ["a29", 27]])
        finally:
            self.server.end()
            thread.join()
            keeper.close()
            self.server.start()


class Newest(Case):
    joins = joins_of("newest")

    def test_pages_go_from_the_newest(self):
        self.client.put("follow|ann|bob", "1")
        moments = [1764288000000000 + 1000 * number for number in range(50)]
        with self.client.pipeline() as pipeline:
            for moment in moments:
                pipeline.put(f"post|bob|{recipes.back(moment)}", f"at {moment}")
        first = recipes.newest(self.client, "ann", moments[30])
        self.client.put(f"post|bob|{recipes.back(moments[-1] + 1)}", "later")
        last_key = first.pairs[-1][0]
        second = recipes.newest(self.client, "ann", moments[10], last_key, first.position)
        shown = [recipes.moment_of(key) for key, _ in (*first, *second)]
        self.assertEqual(shown, moments[:9:-1])
        self.assertEqual(len(first), 20)


class Expiry(Case):
    joins = joins_of("expiry")
    now = 29750400

    def keys(self):
        tables = "session", "until", *(f"end{self.now + ahead:08}" for ahead in range(-2, 9))
        return [key for table in tables for key, _ in self.client.scan(f"{table}|", f"{table}}}")]

    def test_what_ends_goes(self):
        recipes.put_until(self.client, "session|x1", "ann", self.now + 1)
        recipes.put_until(self.client, "session|x2", "bob", self.now + 2)
        recipes.sweep_up_to(self.client, self.now)
        self.assertEqual(self.client.get("online|all").value, "2")
        self.assertEqual(recipes.value_at(self.client, "session|x1", self.now), "ann")
        self.assertIsNone(recipes.value_at(self.client, "session|x1", self.now + 1))
        recipes.sweep_up_to(self.client, self.now + 1)
        self.assertEqual(self.client.get("online|all").value, "1")
        recipes.sweep_up_to(self.client, self.now + 4)
        self.assertEqual(self.keys(), [])
        self.assertEqual(self.client.get("swept|minute").value, f"{self.now + 4:08}")

    def test_what_is_put_again_stays(self):
        for ahead in 1, 3, 2:
            recipes.put_until(self.client, "session|x1", f"until {ahead}", self.now + ahead)
        recipes.put_until(self.client, "session|x1", "last", self.now + 3)
        for ahead in 1, 2:
            recipes.sweep_up_to(self.client, self.now + ahead)
            self.assertEqual(recipes.value_at(self.client, "session|x1", self.now + ahead), "last")
        recipes.sweep_up_to(self.client, self.now + 3)
        self.assertEqual(self.keys(), [])

    def test_a_sweeper_that_was_away_goes_on_where_it_was(self):
        recipes.sweep_up_to(self.client, self.now)
        recipes.put_until(self.client, "session|x1", "ann", self.now + 2)
        recipes.sweep_up_to(self.client, self.now + 5)
        self.assertEqual(self.keys(), [])


class Refill(Case):
    joins = joins_of("refill")
    rows = (("sea", 1, "Oar"), ("sea", 2, "Sail"), ("tea", 1, "Pot"))

    def test_a_reader_waits_for_the_sentinel(self):
        self.assertIsNone(recipes.stock(self.client, "sea"))
        self.client.put("item|sea|1", "Oar")
        self.assertIsNone(recipes.stock(self.client, "sea"))
        recipes.fill(self.client, self.rows)
        self.assertEqual((recipes.stock(self.client, "sea"), recipes.stock(self.client, "air")), (2, 0))

    def test_a_refused_row_leaves_no_sentinel(self):
        with self.assertRaises(pequod.Refused):
            recipes.fill(self.client, [*self.rows, ("sea", 3, "x" * 65_537), ("tea", 2, "Cup")])
        self.assertIsNone(recipes.stock(self.client, "sea"))

    def test_the_sentinel_is_asked_for_first(self):
        client = unittest.mock.MagicMock()
        recipes.stock(client, "sea")
        asked = client.pipeline().__enter__().get.call_args_list
        self.assertEqual([call.args[0] for call in asked], ["ready|items", "stock|sea"])

    def test_a_restart_is_seen(self):
        recipes.fill(self.client, self.rows)
        self.server.restart()
        with self.server.connect() as client:
            self.assertIsNone(recipes.stock(client, "sea"))
            recipes.fill(client, self.rows)
            self.assertEqual(recipes.stock(client, "sea"), 2)

    def test_a_pool_fills_after_a_restart(self):
        fills = []

        def fill(client):
            fills.append(client.position)
            recipes.fill(client, self.rows)

        with pequod.Pool(HOST, self.server.port, on_restart=fill) as pool:
            with pool.client() as client:
                recipes.fill(client, self.rows)
            self.server.restart()
            with pool.client() as client:
                self.assertEqual(recipes.stock(client, "sea"), 2)
        self.assertEqual(fills, [1])

    def test_a_sentinel_tells_what_positions_do_not(self):
        with pequod.Pool(HOST, self.server.port, on_restart=lambda client: recipes.fill(client, self.rows)) as pool:
            with pool.client() as client:
                recipes.fill(client, self.rows)
            self.server.restart()
            with self.server.connect() as other, other.pipeline() as pipeline:
                for number in range(10):
                    pipeline.put(f"other|{number}", "x")
            with pool.client() as client:
                self.assertIsNone(recipes.stock(client, "sea"))


class LongList(Case):
    joins = joins_of("long_list")

    def test_pages_at_one_position_are_one_scan(self):
        with self.client.pipeline() as pipeline:
            for number in range(1, 51):
                pipeline.put(f"item|sea|{number:04}", f"item {number}")
        pages, after = [], "item|sea|"
        while not pages or pages[-1]:
            pages.append(list(recipes.next_page(self.client, "sea", after, 20)))
            after = pages[-1][-1][0] if pages[-1] else after
        self.assertEqual([len(page) for page in pages], [20, 20, 10, 0])
        self.assertEqual(self.client.position, 50)
        self.assertEqual(sum(pages, []), list(self.client.scan_prefix("item|sea|")))

    def test_a_gap_is_passed(self):
        for number in (1, 700, 9999):
            self.client.put(f"item|sea|{number:04}", "x")
        keys = ["item|sea|"]
        while page := recipes.next_page(self.client, "sea", keys[-1], 5):
            keys += [key for key, _ in page]
        self.assertEqual(keys[1:], ["item|sea|0001", "item|sea|0700", "item|sea|9999"])

    def test_what_changes_between_two_pages(self):
        for number in (1, 2, 3, 4):
            self.client.put(f"item|sea|{number:04}", "x")
        first = recipes.next_page(self.client, "sea", "item|sea|", 2)
        self.client.put("item|sea|0000", "behind")
        self.client.remove("item|sea|0003")
        self.client.put("item|sea|0005", "ahead")
        second = recipes.next_page(self.client, "sea", first.pairs[-1][0], 3)
        self.assertEqual([key[-4:] for key, _ in (*first, *second)], ["0001", "0002", "0004", "0005"])
        self.assertEqual((first.position, second.position), (4, 7))
        then = recipes.next_page(self.client, "sea", first.pairs[-1][0], 3, first.position)
        self.assertEqual([key[-4:] for key, _ in then], ["0003", "0004"])


class Fresh(Case):
    joins = joins_of("fresh")

    def test_what_is_shown_follows(self):
        self.client.put("follow|ann|bob", "1")
        first, last = "feed|ann|", "feed|ann}"
        pairs = self.client.scan(first, last)
        shown, position = dict(pairs), pairs.position
        steps = [
            ("put", "post|bob|100", "Hi"),
            ("put", "post|cat|110", "Hello"),
            ("put", "post|bob|100", "Ho"),
            ("put", "follow|ann|cat", "1"),
            ("remove", "post|bob|100"),
        ]
        for word, *texts in steps:
            getattr(self.client, word)(*texts)
            position = recipes.refresh(self.client, first, last, shown, position)
            self.assertEqual((shown, position), (dict(self.client.scan(first, last)), self.client.position))

    def test_a_position_that_never_was(self):
        self.client.put("follow|ann|bob", "1")
        shown = {"feed|ann|1|bob": "stale"}
        self.assertEqual(recipes.refresh(self.client, "feed|ann|", "feed|ann}", shown, 1000), self.client.position)
        self.assertEqual(shown, {})


class OpenPage(Case):
    joins = joins_of("open_page")
    bounds = "feed|ann|", "feed|ann}"

    def setUp(self):
        super().setUp()
        self.fill()

    def fill(self):
        with self.server.connect() as client:
            client.put("follow|ann|bob", "1")
            client.put("ready|feeds", secrets.token_hex(8))

    def test_it_goes_on_over_any_connection(self):
        run, pairs = recipes.open_page(self.client, *self.bounds)
        self.client.put("post|bob|100", "Hi")
        with self.server.connect() as other:
            news = recipes.what_is_new(other, run, *self.bounds, pairs.position)
        self.assertEqual(list(news), [("feed|ann|100|bob", "Hi")])

    def test_a_position_of_another_run_is_seen(self):
        run, pairs = recipes.open_page(self.client, *self.bounds)
        self.server.restart()
        self.fill()
        with self.server.connect() as other, other.pipeline() as pipeline:
            for number in range(10):
                pipeline.put(f"other|{number}", "x")
        with self.server.connect() as other:
            self.assertGreater(other.get("k|a").position, pairs.position)
            self.assertIsNone(recipes.what_is_new(other, run, *self.bounds, pairs.position))

    def test_an_empty_cache_and_a_position_out_of_reach(self):
        run, pairs = recipes.open_page(self.client, *self.bounds)
        self.assertIsNone(recipes.what_is_new(self.client, run, *self.bounds, 1000))
        self.client.remove("ready|feeds")
        self.assertEqual(recipes.open_page(self.client, *self.bounds)[0], None)
        self.assertIsNone(recipes.what_is_new(self.client, None, *self.bounds, pairs.position))


class ManyFeeds(Case):
    """Hundreds of readers over one client."""

    options = ("--workers", "2")
    joins = joins_of("fresh")
    users = 300

    def follow(self):
        with self.client.pipeline() as pipeline:
            for user in range(self.users):
                pipeline.put(f"follow|u{user:03}|bob{user % 3}", "1")
            pipeline.put("post|bob0|100", "Old")

    async def with_feeds(self, act):
        async with await aio.connect(HOST, self.server.port) as client:
            feeds = recipes.Feeds(client)
            running = asyncio.ensure_future(feeds.run(0.05))
            try:
                with contextlib.ExitStack() as held:
                    followed = [held.enter_context(feeds.follow(f"u{user:03}")) for user in range(self.users)]
                    await asyncio.wait_for(act(followed), 60)
            finally:
                running.cancel()

    def test_each_is_told_of_its_own(self):
        self.follow()

        async def act(followed):
            for user, feed in enumerate(followed):
                wanted = [(f"feed|u{user:03}|100|bob0", "Old")] if user % 3 == 0 else []
                self.assertEqual(await feed.told.get(), (True, wanted))
            self.client.put("post|bob1|110", "Hi")
            self.client.remove("post|bob0|100")
            for user, feed in enumerate(followed):
                if user % 3 == 0:
                    self.assertEqual(await feed.told.get(), (False, [(f"feed|u{user:03}|100|bob0", None)]))
                if user % 3 == 1:
                    self.assertEqual(await feed.told.get(), (False, [(f"feed|u{user:03}|110|bob1", "Hi")]))
            self.assertTrue(all(feed.told.empty() for feed in followed))

        asyncio.run(self.with_feeds(act))

    def test_after_a_restart_all_begin_anew(self):
        self.follow()

        async def act(followed):
            for feed in followed:
                await feed.told.get()
            self.server.restart()
            for feed in followed:
                self.assertEqual(await feed.told.get(), (True, []))

        asyncio.run(self.with_feeds(act))


class Move(Case):
    """A new server in the place of the old one."""

    joins = joins_of("refill")

    def test_what_was_written_meanwhile_is_there(self):
        truth = {"item|sea|1": "Oar", "item|sea|2": "Sail"}
        recipes.bring_to(self.client, truth, ["item"])
        asked, used = [], []

        def read_truth():
            asked.append(dict(truth))
            # Somebody writes when most was read, and nobody while the lock is held.
            truth.pop("item|sea|2", None)
            truth["item|sea|3"] = "Rope"
            return asked[-1]

        with Server(joins=self.joins) as server, server.connect() as new:
            recipes.move_to(new, read_truth, ["item"], contextlib.nullcontext(), lambda: used.append(server.port))
            self.assertEqual(dict(new.scan("item|", "item}")), truth)
            self.assertEqual((recipes.stock(new, "sea"), used, len(asked)), (2, [server.port], 2))

    def test_only_what_differs_is_written(self):
        truth = {"item|sea|1": "Oar", "item|sea|2": "Sail"}
        self.assertEqual(recipes.bring_to(self.client, truth, ["item"]), 2)
        self.assertEqual(recipes.bring_to(self.client, truth, ["item"]), 0)
        self.assertEqual(recipes.bring_to(self.client, {"item|sea|1": "Oars"}, ["item"]), 2)
        self.assertEqual(dict(self.client.scan("item|", "item}")), {"item|sea|1": "Oars"})


if __name__ == "__main__":
    unittest.main()
