"""Tries the pages over a server that it starts: PEQUOD=/path/of/pequod python3 -m unittest test_app, in this folder."""

import json
import pathlib
import re
import sqlite3
import subprocess
import sys
import tempfile
import threading
import time
import unittest
import unittest.mock
import urllib.error
import urllib.parse
import urllib.request

FOLDER = pathlib.Path(__file__).resolve().parent
sys.path[:0] = [str(FOLDER), str(FOLDER.parent.parent / "clients" / "python")]
from cache import SENTINEL, TABLES, Cache, pequod, put_all  # noqa: E402
from serving import HOST, Server, want_program as setUpModule  # noqa: E402, F401
from truth import Truth  # noqa: E402

NASTY = "<script>alert('x')</script> & \"quoted\"\n| caf\u00e9 \u65e5\u672c"


class Case(unittest.TestCase):
    """A test with a server as the cache, and a file for the truth."""

    def setUp(self):
        folder = tempfile.TemporaryDirectory()
        self.addCleanup(folder.cleanup)
        self.data = f"{folder.name}/data.sqlite"
        self.server = Server("--joins", str(FOLDER / "timeline.joins"), "--workers", "8")
        self.addCleanup(self.server.stop)
        self.where = f"{HOST}:{self.server.port}"

    def pairs(self):
        """All that was put into the cache, but the sentinel."""
        with self.server.connect() as client:
            return {key: value for table in TABLES for key, value in client.scan(f"{table}|", f"{table}}}")}

    def position(self):
        with self.server.connect() as client:
            return client.get(SENTINEL).position


class Pages(Case):
    """A test with the pages too."""

    def setUp(self):
        super().setUp()
        self.start_site()

    def start_site(self):
        words = ("--port", "0", "--pequod", self.where, "--data", self.data)
        self.site = subprocess.Popen(
            [sys.executable, str(FOLDER / "app.py"), *words], stdout=subprocess.PIPE, stderr=subprocess.DEVNULL
        )
        self.addCleanup(self.site.stdout.close)
        self.addCleanup(self.site.wait)
        self.addCleanup(self.site.terminate)
        self.page = self.site.stdout.readline().decode().strip()

    def ask(self, place, **fields):
        """The status and the text of a page, after it was sent the fields if there are any."""
        body = urllib.parse.urlencode(fields).encode() if fields else None
        try:
            with urllib.request.urlopen(self.page + place, body, timeout=20) as answer:
                return answer.status, answer.read().decode()
        except urllib.error.HTTPError as error:
            with error:
                return error.code, error.read().decode()


class Shown(Pages):
    def test_posts_and_follows(self):
        self.assertIn("Nobody yet", self.ask("")[1])
        self.assertIn('<p id="nothing">Nothing here', self.ask("ann")[1])
        self.assertIn("Hello there", self.ask("bob/post", text="Hello there")[1])
        self.assertIn('value="bob"><button aria-label="Follow bob">Follow', self.ask("ann")[1])
        self.assertIn("Hello there", self.ask("ann/follow", poster="bob")[1])
        self.assertIn("Again", self.ask("bob/post", text="Again")[1])
        text = self.ask("ann")[1]
        self.assertLess(text.index("Again"), text.index("Hello there"))
        self.assertIn('<p id="nothing" hidden>Nothing here', text)
        text = self.ask("")[1]
        self.assertIn('bob</a></td><td>2</td><td>0</td>', text)
        self.assertIn('ann</a></td><td>0</td><td>1</td>', text)
        self.assertNotIn("Hello there", self.ask("ann/unfollow", poster="bob")[1])

    def test_all_text_is_escaped(self):
        text = self.ask("ann/post", text=NASTY)[1]
        self.assertIn("&lt;script&gt;alert(&#x27;x&#x27;)&lt;/script&gt; &amp; &quot;quoted&quot;", text)
        self.assertIn("\n| caf\u00e9 \u65e5\u672c</p>", text)
        self.assertNotIn("<script>", text)

    def test_times_are_told_by_age(self):
        truth, now = Truth(self.data), time.time_ns() // 1_000
        for ago, words in ((0, "now"), (150, "2 min"), (2 * 3600 + 60, "2 h"), (3 * 86400 + 60, "3 d")):
            truth.post("ann", now - ago * 1_000_000, words)
        self.server.restart()
        articles = re.findall(r'<time datetime="(.*?)">(.*?)</time></p><p class="text">(.*?)</p>', self.ask("ann")[1])
        self.assertEqual([told for _, told, _ in articles], ["now", "2 min", "2 h", "3 d"])
        self.assertEqual([text for _, _, text in articles], ["now", "2 min", "2 h", "3 d"])
        self.assertEqual(articles[0][0], time.strftime("%Y-%m-%dT%H:%M:%SZ", time.gmtime(now // 1_000_000)))
        text = self.ask("ann?before=1000000000000000&hours=1")[1]
        self.assertNotIn("<time", text)
        truth.post("ann", 999_999_999_000_000, "old")
        self.server.restart()
        self.assertIn(">9 September 2001</time>", self.ask("ann?before=1000000000000000&hours=1")[1])

    def test_fields_and_buttons_have_names(self):
        self.ask("bob/post", text="Hi")
        for place in "", "ann":
            text = self.ask(place)[1]
            for field in re.findall(r'<(?:input|textarea) id="(\w+)"', text):
                self.assertIn(f'<label for="{field}">', text)
            for field in re.findall(r"<(?:input|textarea) [^>]*>", text):
                self.assertRegex(field, 'id="|type="hidden"')
        self.assertIn('aria-label="Follow bob"', text)
        self.assertIn('id="news" role="status"', text)

    def test_what_is_no_name(self):
        self.assertEqual(self.ask("Ann|x")[0], 404)
        for query in ("hours=x", "hours=0", "hours=999999", "before=1", "before=0000000000000000", "before=9999999999999999"):
            self.assertEqual(self.ask(f"ann?{query}")[0], 200)
        self.assertEqual(self.ask("?from=x")[0], 200)
        self.assertEqual(self.ask("ann/follow", poster="a|b")[0], 200)
        self.assertEqual(self.ask("ann/follow", poster="ann")[0], 200)
        self.assertIn("Nobody yet", self.ask("")[1])
        self.assertIn("Who are you", self.ask("", name="<b>")[1])
        self.assertIn("<h1>ann</h1>", self.ask("", name="Ann")[1])

    def test_keys_of_other_clients(self):
        with self.server.connect() as client, client.pipeline() as pipeline:
            pipeline.put("s|ann|/x<b>", "1")
            pipeline.put("user|other", "1")
            pipeline.put("user|00000001", "1")
            pipeline.put("p|/x<b>|later", "no time")
            pipeline.put("p|/x<b>|9999999999999999", "a time")
        text = self.ask("ann")[1]
        self.assertIn('href="/%2Fx%3Cb%3E">/x&lt;b&gt;</a>', text)
        self.assertIn("a time", text)
        self.assertNotIn("no time", text)
        self.assertEqual(self.ask("")[0], 200)

    def test_users_come_in_pages(self):
        for user in range(45):
            self.ask(f"u{user}/post", text="Hi")
        names, place = [], ""
        while place is not None:
            text = self.ask(place)[1]
            names.append(re.findall(r'href="/(u\d+)"', text))
            more = re.search(r'href="/(\?from=\d+)">More', text)
            place = more and more[1]
        self.assertEqual([len(page) for page in names], [20, 20, 5])
        self.assertEqual(sum(names, []), [f"u{user}" for user in range(45)])
        newest = re.findall(r'value="(u\d+)"><button aria-label="Follow u\d+">Follow', self.ask("ann")[1])
        self.assertEqual(newest, [f"u{user}" for user in range(44, 34, -1)])

    def test_older_posts_come_in_pages(self):
        truth, day = Truth(self.data), 24 * 3_600_000_000
        now = time.time_ns() // 1_000
        truth.follow("ann", "bob")
        for ago in (1, 8, 30, 400):
            truth.post("ann", now - ago * day, f"{ago} days ago")
            truth.post("bob", now - (ago + 1) * day, f"{ago + 1} days ago")
        self.server.restart()
        place, shown, visits = "ann", [], 0
        while place and len(shown) < 8:
            visits += 1
            text = self.ask(place)[1]
            shown += re.findall(r"(\d+) days ago", text)
            older = re.search(r'href="/(ann\?before=\d{16}&amp;hours=\d+)">Older', text)
            place = older and older[1].replace("&amp;", "&")
        self.assertEqual(shown, ["1", "2", "8", "9", "30", "31", "400", "401"])
        # Of 7, 14, 28, 56, 112 and 224 days, since none of them has many posts.
        self.assertEqual(visits, 6)

    def test_the_sample(self):
        words = ("--pequod", self.where, "--data", self.data)
        subprocess.run([sys.executable, str(FOLDER / "sample.py"), *words], stdout=subprocess.DEVNULL, check=True)
        text = self.ask("ann")[1]
        self.assertEqual(text.count("<article "), 25)
        self.assertNotIn("<b>", text)
        self.assertEqual(self.ask("")[1].count("<td>5</td><td>4</td>"), 8)


class Live(Pages):
    """What an open page asks for."""

    def setUp(self):
        super().setUp()
        self.ask("bob/post", text="Hello there")
        self.ask("ann/follow", poster="bob")

    def open_page(self, user):
        text = self.ask(user)[1]
        names = "user", "run", "position", "since"
        return {name: re.search(rf'<div id="live"[^>]* data-{name}="(\w+)"', text)[1] for name in names}

    def changes(self, page):
        """What the script of the page is told, and notes for the next time."""
        words = urllib.parse.urlencode({name: page[name] for name in ("run", "position", "since")})
        status, text = self.ask(f"{page['user']}/changes?{words}")
        self.assertEqual(status, 200)
        told = json.loads(text)
        if told is not None:
            page["position"] = told["position"]
        return told

    def test_an_open_page_is_told_what_is_new(self):
        page = self.open_page("ann")
        self.assertEqual(self.changes(page)["posts"], [])
        self.ask("bob/post", text=NASTY)
        self.ask("cleo/post", text="Not for ann")
        (post,) = self.changes(page)["posts"]
        self.assertIn("&lt;script&gt;", post["text"])
        self.assertIn(f'id="{post["name"]}"', self.ask("ann")[1])
        self.assertEqual(self.changes(page)["posts"], [])
        self.ask("ann/post", text="My own")
        (post,) = self.changes(page)["posts"]
        self.assertIn("My own", post["text"])
        self.ask("ann/unfollow", poster="bob")
        self.assertEqual([post["text"] for post in self.changes(page)["posts"]], [None, None])

    def test_posts_that_are_older_than_the_page_are_not_told(self):
        truth, now = Truth(self.data), time.time_ns() // 1_000
        truth.post("dora", now - 8 * 24 * 3_600_000_000, "Old")
        truth.post("dora", now, "New")
        self.server.restart()
        page = self.open_page("ann")
        self.ask("ann/follow", poster="dora")
        (post,) = self.changes(page)["posts"]
        self.assertIn("New", post["text"])

    def test_a_page_of_another_run_is_loaded_again(self):
        page = self.open_page("ann")
        self.server.restart()
        for number in range(20):
            self.ask("bob/post", text=f"post {number}")
        self.assertIsNone(self.changes(page))
        page = {**self.open_page("ann"), "position": "1000000"}
        self.assertIsNone(self.changes(page))

    def test_what_no_page_asks(self):
        for words in "", "?run=x&position=y", "?position=999999999999999", "?run=&position=-1&since=z":
            status, text = self.ask(f"ann/changes{words}")
            self.assertEqual((status, json.loads(text)), (200, None))
        self.assertEqual(self.ask("Ann|x/changes")[0], 404)
        self.server.end()
        self.assertEqual(self.ask("ann/changes")[0], 503)
        self.server.start()

    def test_older_pages_do_not_go_on(self):
        self.assertNotIn("data-position", self.ask("ann?before=1764288000000000")[1])
        self.assertIn("fetch(", self.ask("live.js")[1])


class Ends(Pages):
    """What becomes of the pages when the cache or they themselves end."""

    def setUp(self):
        super().setUp()
        self.ask("bob/post", text="Hello there")
        self.ask("ann/follow", poster="bob")

    def test_a_restarted_cache_is_filled(self):
        before = self.pairs()
        self.server.restart()
        self.assertEqual(self.pairs(), {})
        status, text = self.ask("ann")
        self.assertEqual((status, text.count("Hello there")), (200, 1))
        self.assertEqual(self.pairs(), before)

    def test_a_write_to_a_restarted_cache_is_not_taken_for_all_of_it(self):
        self.server.restart()
        status, text = self.ask("bob/post", text="Again")
        self.assertEqual((status, text.count("Again"), text.count("Hello there")), (200, 1, 1))
        self.assertEqual(self.pairs(), Truth(self.data).pairs())

    def test_another_client_may_write_first_to_a_restarted_cache(self):
        self.server.restart()
        with self.server.connect() as client, client.pipeline() as pipeline:
            for number in range(100):
                pipeline.put(f"other|{number}", "x")
        self.assertIn("Hello there", self.ask("ann")[1])

    def test_a_cache_that_is_gone(self):
        self.server.end()
        for place, what in (("", "Who are you"), ("bob", "Hello there"), ("ann", "does not answer")):
            status, text = self.ask(place)
            self.assertEqual(status, 503)
            self.assertIn("The cache does not answer", text)
            self.assertIn("data-without-cache", text)
            self.assertIn(what, text)
        status, text = self.ask("bob/post", text=NASTY)
        self.assertEqual(status, 503)
        self.assertIn("&lt;script&gt;", text)
        self.assertEqual(self.ask("ann/unfollow", poster="bob")[0], 503)
        self.ask("cleo/follow", poster="bob")
        self.server.start()
        self.assertEqual(self.ask("ann")[1].count("<article "), 0)
        status, text = self.ask("cleo")
        self.assertEqual((status, text.count("&lt;script&gt;"), text.count("Hello there")), (200, 1, 1))

    def test_a_change_that_is_not_saved_keeps_what_was_typed(self):
        before = self.pairs()
        with sqlite3.connect(self.data) as other:
            other.execute("begin exclusive")
            status, text = self.ask("bob/post", text=NASTY)
            other.rollback()
        other.close()
        self.assertEqual(status, 503)
        self.assertIn("not saved", text)
        self.assertRegex(text, r"<textarea[^>]*>\n&lt;script&gt;alert")
        self.assertEqual(self.pairs(), before)
        self.assertEqual(self.ask("bob")[1].count("<article "), 1)

    def test_pages_that_start_again_write_what_differs(self):
        before = self.position()
        self.site.terminate()
        self.site.wait()
        Truth(self.data).post("bob", time.time_ns() // 1_000, "Saved and not sent")
        with self.server.connect() as client:
            client.put("s|ann|stray", "1")
        self.start_site()
        self.assertIn("Saved and not sent", self.ask("ann")[1])
        self.assertEqual(self.pairs(), Truth(self.data).pairs())
        # The stray, its removal and the post.
        self.assertEqual(self.position(), before + 3)


class Writers(Case):
    """Truth and cache without pages, as two processes have them."""

    def setUp(self):
        super().setUp()
        self.truth = Truth(self.data)
        self.caches = [Cache(Truth(self.data), HOST, self.server.port) for _ in range(2)]
        for cache in self.caches:
            self.addCleanup(cache.close)

    def test_changes_come_to_the_cache_in_the_order_of_the_truth(self):
        in_between = threading.Event()

        def follow_slowly(*words):
            pairs = self.truth.follow(*words)
            in_between.set()
            time.sleep(0.5)
            return pairs

        slow = threading.Thread(target=self.caches[0].write, args=(follow_slowly, "ann", "bob"))
        slow.start()
        in_between.wait()
        self.caches[1].write(self.truth.unfollow, "ann", "bob")
        slow.join()
        self.assertEqual(self.pairs(), self.truth.pairs())

    def test_a_reader_is_shown_all_or_waits(self):
        for moment in range(4):
            self.truth.post("bob", moment, "x")
        before = self.position()
        seen = []
        reader = threading.Thread(target=lambda: seen.append(self.caches[1].read(lambda client: client.get("posts|bob").value)))

        def put_slowly(client, pairs):
            put_all(client, pairs[:2])
            if not reader.ident:
                reader.start()
                reader.join(0.5)
            put_all(client, pairs[2:])

        # Only the sentinel tells this reader whether the cache is filled.
        self.caches[1]._is_behind = False
        with unittest.mock.patch("cache.put_all", put_slowly):
            self.caches[0].read(lambda client: None)
        reader.join()
        self.assertEqual(seen, ["4"])
        # The user, the posts and the sentinel, each once.
        self.assertEqual(self.position(), before + 1 + 4 + 1)

    def test_a_change_that_did_not_arrive_is_mended(self):
        cache = self.caches[0]
        cache.read(lambda client: None)
        with unittest.mock.patch("cache.put_all", side_effect=pequod.LinkLost("lost")):
            cache.write(self.truth.follow, "ann", "bob")
        self.assertEqual(self.pairs(), {})
        self.assertEqual(cache.read(lambda client: client.get("s|ann|bob").value), "1")

    def test_a_restart_within_a_read(self):
        self.truth.follow("ann", "bob")
        restarts = [self.server.restart]

        def make(client):
            if restarts:
                restarts.pop()()
            return client.get("s|ann|bob").value

        self.assertEqual(self.caches[0].read(make), "1")

    def test_a_write_to_a_restarted_cache_fills_it(self):
        cache = self.caches[0]
        cache.write(self.truth.post, "bob", 1, "Hi")
        cache.read(lambda client: None)
        self.server.restart()
        cache.write(self.truth.follow, "ann", "bob")
        self.assertEqual(self.pairs(), self.truth.pairs())


if __name__ == "__main__":
    unittest.main()
