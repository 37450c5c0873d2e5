"""Tests of questions about earlier positions: python3 -m unittest test_earlier

No server of Pequod is needed: one in this file keeps its whole history, has no joins, and lets its positions be moved.
"""

import asyncio
import contextlib
import io
import itertools
import json
import logging
import socket
import socketserver
import threading
import time
import unittest
import unittest.mock

import pequod
from awaited import Awaited
from pequod import aio
from pequod.prompt import Prompt
from serving import HOST

REACH = 65_536
PROMPTS = (
    "scan k| 1", "scan k| k} 2", "scan k|", "changes k| 0", "changes k| k} 1", "changes k| 3",
    "changes k| 4", "changes k|", "scan 3", "changes",
)
PROMPTED = """\
k|a  1
(1 pair, at position 1)
k|a   1
k|bb  2
(2 pairs, at position 2)
k|bb  2
(1 pair, at position 3)
k|bb  2
(1 change from position 0 to 3)
k|a
k|bb  2
(2 changes from position 1 to 3)
(0 changes from position 3 to 3)
refused, ahead: the history has not come to the position yet (at position 3)
changes takes a prefix that ends with |, or two bounds, and a position; `help` says what there is
scan takes a prefix that ends with |, or two bounds; `help` says what there is
changes takes a prefix that ends with |, or two bounds, and a position; `help` says what there is
"""


def setUpModule():
    # The loop of these tests would tell of each step that a busy machine made slow.
    logging.getLogger("asyncio").setLevel(logging.ERROR)


class Toy:
    """A history of puts and removes, and what is answered of it."""

    def __init__(self):
        self.entries = []
        self.before = 0
        """How many entries came before these, of which nothing is kept."""

    @property
    def position(self):
        return self.before + len(self.entries)

    def state(self, position, first, last):
        pairs = {}
        for key, value in self.entries[:position - self.before]:
            pairs.pop(key, None)
            if value is not None and first.encode() <= key.encode() < last.encode():
                pairs[key] = value
        return dict(sorted(pairs.items(), key=lambda pair: pair[0].encode()))

    def answer(self, request):
        kind, *words = request
        now = self.position
        if kind in ("put", "remove"):
            self.entries.append((words[0], words[1] if kind == "put" else None))
            return ["ok", self.position]
        if kind == "get":
            value = self.state(now, words[0], words[0] + "\0").get(words[0])
            return ["none", now] if value is None else ["value", now, value]
        first, last, *at = words
        if at and at[0] + REACH < now:
            return ["error", "gone", now]
        if at and at[0] > now:
            return ["error", "ahead", now]
        then = self.state(at[0] if at else now, first, last)
        if kind == "scan":
            return ["pairs", at[0] if at else now, [list(pair) for pair in then.items()]]
        new = self.state(now, first, last)
        keys = sorted(then.keys() | new.keys(), key=str.encode)
        return ["changes", at[0], now, [[key, new[key]] if key in new else [key] for key in keys if then.get(key) != new.get(key)]]


class Handler(socketserver.StreamRequestHandler):
    def handle(self):
        server = self.server
        with contextlib.suppress(ConnectionError):
            for line in self.rfile:
                request = json.loads(line)
                server.asked.append(request)
                server.answers.wait()
                if server.drops and request[0] in ("scan", "changes"):
                    server.drops -= 1
                    return
                self.wfile.write(json.dumps(server.told or server.toy.answer(request)).encode() + b"\n")


class Server(socketserver.ThreadingTCPServer):
    allow_reuse_address = True
    daemon_threads = True
    block_on_close = False

    def __init__(self, port=0):
        super().__init__((HOST, port), Handler)
        self.toy, self.links, self.asked = Toy(), set(), []
        self.told = None
        """What is answered to all requests, if it is anything."""
        self.drops = 0
        """How many scans and questions for changes are answered by the end of their link."""
        self.answers = threading.Event()
        """Whether it answers now, or lets all requests wait."""
        self.answers.set()
        threading.Thread(target=self.serve_forever, args=(0.01,)).start()

    def process_request(self, request, client_address):
        self.links.add(request)
        super().process_request(request, client_address)

    def shutdown_request(self, request):
        self.links.discard(request)
        super().shutdown_request(request)

    @property
    def port(self):
        return self.server_address[1]

    def cut(self):
        """Ends all links."""
        for link in list(self.links):
            with contextlib.suppress(OSError):
                link.shutdown(socket.SHUT_RDWR)

    def count_links(self, wanted):
        """How many links are open. It waits until that is what is wanted, but not for ever."""
        end = time.monotonic() + 10
        while len(self.links) != wanted and time.monotonic() < end:
            time.sleep(0.01)
        return len(self.links)

    def end(self):
        self.shutdown()
        self.server_close()
        self.cut()
        self.answers.set()


class Clock:
    """A clock that goes on by what is slept, at once."""

    def __init__(self):
        self.now = 0.0
        self.slept = []

    def monotonic(self):
        return self.now

    def sleep(self, seconds):
        self.slept.append(seconds)
        self.now += seconds

    async def doze(self, seconds):
        self.sleep(seconds)

    @contextlib.contextmanager
    def runs(self):
        """It is the clock of both clients for the length of a `with`."""
        patch = unittest.mock.patch
        with patch("pequod.client.time", self), patch("pequod.aio.time", self), patch("asyncio.sleep", self.doze):
            yield


class Case(unittest.TestCase):
    """A test with a server and a client for threads."""

    def setUp(self):
        self.server = Server()
        self.addCleanup(lambda: self.server.end())
        self.connect()

    def connect(self):
        self.client = pequod.connect(HOST, self.server.port, 20)
        self.addCleanup(self.client.close)

    def put(self, key, value):
        self.server.toy.answer(["put", key, value] if value is not None else ["remove", key])


class Tasks:
    """What a test has instead that tries the client for asyncio."""

    def connect(self):
        self.client = Awaited(HOST, self.server.port, 20)
        self.addCleanup(self.client.end)


class Earlier(Case):
    def test_scans_at_a_position(self):
        client = self.client
        client.put("k|a", "1")
        client.put("k|a", "2")
        client.put("k|b", "3")
        self.assertEqual(client.scan("k|", "k}", at=1), pequod.Pairs(1, (("k|a", "1"),)))
        self.assertEqual(client.scan_prefix("k|", at=0), pequod.Pairs(0, ()))
        self.assertEqual(client.position, 3)
        with client.pipeline() as pipeline:
            both = pipeline.get("k|a"), pipeline.scan("k|", "k}", at=2)
        self.assertEqual((both[1].result().pairs, client.position), ((("k|a", "2"),), 3))

    def test_changes(self):
        client = self.client
        for key in "abc":
            client.put(f"k|{key}", "1")
        client.put("k|b", "2")
        client.remove("k|a")
        client.put("k|c", "3")
        client.put("k|c", "1")
        changes = client.changes("k|", "k}", since=3)
        self.assertEqual(changes, pequod.Changes(3, 7, (("k|a", None), ("k|b", "2"))))
        self.assertEqual((list(changes), len(changes), client.position), ([("k|a", None), ("k|b", "2")], 2, 7))
        self.assertEqual(len(client.changes("k|", "k}", since=7)), 0)

    def test_a_feed_turns_the_earlier_pairs_into_the_later_ones(self):
        client = self.client
        acts = [("a", "1"), ("b", "1"), ("a", None), ("c", "1"), ("b", "2"), ("a", "3"), ("c", None), ("b", "1")]
        for key, value in acts:
            if value is None:
                client.remove(f"k|{key}")
            else:
                client.put(f"k|{key}", value)
        now = dict(client.scan("k|", "k}"))
        for since in range(len(acts) + 1):
            pairs = dict(client.scan("k|", "k}", at=since))
            for key, value in client.changes("k|", "k}", since=since):
                pairs.pop(key, None)
                if value is not None:
                    pairs[key] = value
            self.assertEqual(pairs, now)

    def test_positions_that_are_out_of_reach(self):
        client = self.client
        self.server.toy.before = 5 + REACH
        for call in client.scan, client.changes:
            with self.assertRaises(pequod.Gone) as caught:
                call("k|", "k}", 4)
            self.assertEqual((caught.exception.name, caught.exception.position), ("gone", 5 + REACH))
            self.assertIsInstance(caught.exception, pequod.Refused)
            with self.assertRaises(pequod.Ahead) as caught:
                call("k|", "k}", 6 + REACH)
            self.assertEqual((caught.exception.name, caught.exception.position), ("ahead", 5 + REACH))
            call("k|", "k}", 5 + REACH)
        self.assertEqual(client.position, 5 + REACH)

    def test_what_is_no_position(self):
        for given in "3", True, None, 3.0:
            with self.assertRaises(TypeError):
                self.client.changes("k|", "k}", given)
            if given is not None:
                with self.assertRaises(TypeError):
                    self.client.scan("k|", "k}", at=given)
        self.assertTrue(self.client.is_open)

    def test_replies_about_another_position(self):
        for told, call in (["pairs", 2, []], self.client.scan), (["changes", 2, 3, []], self.client.changes):
            self.server.told = told
            with self.assertRaises(pequod.BadReply):
                call("k|", "k}", 1)
            self.server.told = None
            self.client.reconnect()
        self.server.told = ["changes", 1, 3, [["k|a", "b", "c"]]]
        with self.assertRaises(pequod.BadReply):
            self.client.changes("k|", "k}", 1)


class EarlierOfTasks(Tasks, Earlier):
    pass


class Watched(Case):
    def start(self, every=0):
        """A watch of two pairs, which were told."""
        self.put("k|a", "1")
        self.put("k|b", "1")
        watch = self.client.watch("k|", "k}", every=every)
        self.assertEqual([next(watch), next(watch)], [("k|a", "1"), ("k|b", "1")])
        self.server.asked.clear()
        return watch

    def test_changes_come_in_order(self):
        watch = self.start()
        for key, value in ("k|b", "2"), ("k|c", "1"), ("k|a", None):
            self.put(key, value)
        self.assertEqual([next(watch) for _ in range(3)], [("k|a", None), ("k|b", "2"), ("k|c", "1")])
        self.put("k|c", "2")
        self.assertEqual(next(watch), ("k|c", "2"))

    def test_it_scans_anew_where_its_position_is_gone(self):
        watch = self.start()
        self.put("k|b", None)
        self.put("k|c", "1")
        self.server.toy.before += REACH
        self.assertEqual([next(watch), next(watch)], [("k|b", None), ("k|c", "1")])
        self.put("k|a", "2")
        self.assertEqual(next(watch), ("k|a", "2"))

    def test_it_goes_on_over_other_links(self):
        watch = self.start()
        for value in "234":
            self.server.cut()
            self.put("k|b", value)
            self.assertEqual(next(watch), ("k|b", value))
            self.assertEqual(self.server.count_links(1), 1)

    def test_it_goes_on_after_a_restart(self):
        for entries in 1, 5:
            with self.subTest(entries):
                watch = self.start()
                self.restart()
                for number in range(entries):
                    self.put("k|b", f"new {number}")
                self.put("k|c", "1")
                told = dict(itertools.islice(watch, 3))
                self.assertEqual(told, {"k|a": None, "k|b": f"new {entries - 1}", "k|c": "1"})
                self.put("k|c", None)
                self.assertEqual(next(watch), ("k|c", None))
                self.restart()
                self.connect()

    def restart(self):
        self.server.end()
        self.server = Server(self.server.port)

    def test_a_question_is_asked_twice_and_not_for_ever(self):
        watch = self.start()
        self.put("k|b", "2")
        self.server.drops = 1
        self.assertEqual(next(watch), ("k|b", "2"))
        self.server.asked.clear()
        self.server.drops = 2
        with self.assertRaises(pequod.LinkLost):
            next(watch)
        self.assertEqual([kind for kind, *_ in self.server.asked], ["changes", "get", "scan"])

    def test_a_link_that_another_request_lost_does_not_count(self):
        watch = self.start()
        self.server.cut()
        with self.assertRaises(pequod.LinkLost):
            self.client.get("k|a")
        self.put("k|b", "2")
        self.server.drops = 1
        self.assertEqual(next(watch), ("k|b", "2"))

    def test_a_closed_client_ends_it(self):
        watch = self.start()
        self.client.close()
        with self.assertRaisesRegex(pequod.LinkLost, "the client was closed"):
            next(watch)
        self.assertEqual((self.client.is_open, self.server.asked), (False, []))
        self.client.reconnect()
        self.assertEqual(next(self.client.watch("k|", "k}")), ("k|a", "1"))

    def test_it_tries_to_connect_at_a_pace_of_its_own(self):
        for every in 0, 60:
            with self.subTest(every):
                watch, clock = self.start(every), Clock()
                port = self.server.port
                self.server.end()
                with clock.runs(), self.assertRaises(ConnectionRefusedError):
                    next(watch)
                first, *pauses = clock.slept
                self.assertEqual((first, set(pauses)), (every, {0.2}))
                # The client's timeout is 20 seconds.
                self.assertIn(len(pauses), range(99, 103))
                self.server = Server(port)
                self.connect()


class WatchedByTasks(Tasks, Watched):
    pass


class Prompted(unittest.TestCase):
    def test_the_prompt_asks_about_positions(self):
        server = Server()
        self.addCleanup(server.end)
        for request in ["put", "k|a", "1"], ["put", "k|bb", "2"], ["remove", "k|a"]:
            server.toy.answer(request)
        with pequod.connect(HOST, server.port, 5) as client, contextlib.redirect_stdout(io.StringIO()) as printed:
            prompt = Prompt(client)
            done = [prompt.do(line) for line in PROMPTS]
        self.assertEqual(done, [True] * 6 + [False] * 4)
        self.assertEqual(printed.getvalue(), PROMPTED)
        self.assertEqual(prompt.keys, {"k|", "k}", "k|a", "k|bb"})


class Shared(unittest.IsolatedAsyncioTestCase):
    """Tasks that share one client."""

    def setUp(self):
        self.server = Server()
        self.addCleanup(lambda: self.server.end())

    async def asyncSetUp(self):
        self.client = await aio.connect(HOST, self.server.port, 20)
        self.addCleanup(self.client.close)

    async def start(self):
        """Two watches of one pair each, which was told."""
        self.put("1")
        watches = [self.client.watch(f"{table}|", f"{table}}}", every=0) for table in "km"]
        self.assertEqual(await self.told(*watches), [("k|a", "1"), ("m|a", "1")])
        return watches

    def put(self, value):
        for table in "km":
            self.server.toy.answer(["put", f"{table}|a", value])

    async def told(self, *watches):
        """The next change of each."""
        return await asyncio.wait_for(asyncio.gather(*(watch.__anext__() for watch in watches)), 60)

    async def count_links(self, wanted):
        return await asyncio.to_thread(self.server.count_links, wanted)

    async def test_two_watches_go_on_over_one_other_link(self):
        watches = await self.start()
        for value in "234":
            self.server.cut()
            self.put(value)
            self.assertEqual(await self.told(*watches), [("k|a", value), ("m|a", value)])
            self.assertEqual(await self.count_links(1), 1)

    async def under_way(self, asking):
        """A task that asks this, and whose question the server has and does not answer."""
        self.server.asked.clear()
        self.server.answers.clear()
        task = asyncio.ensure_future(asking)
        while not self.server.asked:
            await asyncio.sleep(0.01)
        return task

    async def test_what_waits_for_its_turn_is_sent_over_no_later_link(self):
        one, other = await self.start()
        first = await self.under_way(one.__anext__())
        gets = asyncio.gather(*(self.client.get("k|a") for _ in range(100)), return_exceptions=True)
        last = asyncio.ensure_future(other.__anext__())
        await asyncio.sleep(0.05)
        self.server.end()
        self.server = Server(self.server.port)
        # Since the position that the watches have, nothing changed here.
        self.put("2")
        self.server.toy.entries += [("z|", "1")] * 5
        # While the requests fail one by one, the first watch connects anew, and the other one stands behind them.
        told = await asyncio.wait_for(asyncio.gather(first, last), 60)
        self.assertEqual(told, [("k|a", "2"), ("m|a", "2")])
        self.assertEqual({type(error) for error in await gets}, {pequod.LinkLost})
        self.assertNotIn(["get", "k|a"], self.server.asked)

    async def test_a_new_link_outlives_a_request_over_the_one_before(self):
        await self.client.put("k|a", "1")
        asked = await self.under_way(self.client.get("k|a"))
        loop = asyncio.get_running_loop()
        made = await loop.create_connection(aio._Link, HOST, self.server.port)

        async def connect_at_once(*_):
            return made

        with unittest.mock.patch.object(loop, "create_connection", connect_at_once):
            connecting = asyncio.ensure_future(self.client.reconnect())
            await asyncio.sleep(0.05)
            self.server.answers.set()
            await connecting
        with self.assertRaises(pequod.LinkLost):
            await asked
        self.assertEqual(await self.client.get("k|a"), pequod.Found(1, "1"))
        self.assertEqual(await self.count_links(1), 1)

    async def test_tasks_that_reconnect_at_once_make_one_link(self):
        await self.client.put("k|a", "1")
        self.server.cut()
        self.server.asked.clear()
        await asyncio.gather(*(self.client.reconnect() for _ in range(5)))
        self.assertEqual(await self.client.get("k|a"), pequod.Found(1, "1"))
        self.assertEqual(self.server.asked, [["get", "pequod|"], ["get", "k|a"]])
        self.assertEqual(await self.count_links(1), 1)

    async def test_a_client_that_is_closed_while_a_watch_tries_to_connect(self):
        watch, _ = await self.start()
        self.server.end()
        told = asyncio.ensure_future(self.told(watch))
        while self.client.is_open:
            await asyncio.sleep(0.01)
        self.client.close()
        self.server = Server(self.server.port)
        with self.assertRaisesRegex(pequod.LinkLost, "the client was closed"):
            await told
        self.assertEqual((self.client.is_open, self.server.links), (False, set()))

    async def test_a_client_that_is_closed_while_it_connects(self):
        watches = await self.start()
        loop = asyncio.get_running_loop()
        connect = loop.create_connection

        async def connect_and_close(*words):
            made = await connect(*words)
            self.client.close()
            return made

        self.server.cut()
        with unittest.mock.patch.object(loop, "create_connection", connect_and_close):
            told = await asyncio.gather(*(watch.__anext__() for watch in watches), return_exceptions=True)
        self.assertEqual([(type(error), str(error)) for error in told], [(pequod.LinkLost, "the client was closed")] * 2)
        self.assertFalse(self.client.is_open)
        self.assertEqual(await self.count_links(0), 0)


if __name__ == "__main__":
    unittest.main()
