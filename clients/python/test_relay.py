"""Tests of the relay: PEQUOD=path/of/the/built/program python3 -m unittest test_relay"""

import asyncio
import contextlib
import itertools
import json
import random
import socket
import subprocess
import sys
import threading
import unittest

import pequod
from pequod import aio
from relaying import Relay, Told, clean_end, connected, leave, talk, wait_for
from serving import FOLDER, HOST, Server, free_port, want_program

GET = b'["get","a|1"]\n'


def setUpModule():
    want_program()


class Served(unittest.TestCase):
    """A test with a server, and relays to it."""

    def setUp(self):
        self.server = Server("--workers", "6")
        self.addCleanup(self.server.stop)

    def relay(self, *options, links=2):
        relay = Relay(self.server.port, *options, links=links)
        self.addCleanup(clean_end, self, relay)
        return relay

    def client(self, relay):
        client = relay.connect()
        self.addCleanup(client.close)
        return client


class Promises(Served):
    """What a client is promised over a relay."""

    CLIENTS, TURNS = 40, 30

    def drawn_client(self, relay, number, acknowledged, wrong):
        """Pipelines of puts and gets at keys of its own. Each put stands above all that it was told before, and each get sees the
        last put of its key."""
        chance, told, mine = random.Random(number), 0, {}
        with contextlib.closing(connected(relay.port)) as link, link.makefile("rb") as replies:
            for turn in range(self.TURNS):
                asked = []
                for place in range(chance.randrange(1, 40)):
                    key = f"d|{number}|{chance.randrange(5)}"
                    if chance.random() < 0.5:
                        mine[key] = f"{turn}.{place}"
                        asked.append((["put", key, mine[key]], None))
                    else:
                        asked.append((["get", key], mine.get(key)))
                link.sendall(b"".join(json.dumps(request).encode() + b"\n" for request, _ in asked))
                for request, value in asked:
                    reply = json.loads(replies.readline())
                    is_write = request[0] == "put"
                    wanted = ["ok"] if is_write else ["none"] if value is None else ["value", value]
                    if [reply[0], *reply[2:]] != wanted or reply[1] < told or (is_write and reply[1] == told):
                        wrong.append((number, request, reply, wanted, told))
                    told = reply[1]
                    if is_write:
                        acknowledged.append(told)

    def test_clients_at_once(self):
        relay, acknowledged, wrong = self.relay(links=3), [], []
        clients = [
            threading.Thread(target=self.drawn_client, args=(relay, number, acknowledged, wrong)) for number in range(self.CLIENTS)
        ]
        for client in clients:
            client.start()
        for client in clients:
            client.join()
        self.assertEqual(wrong, [])
        self.assertEqual(sorted(acknowledged), list(range(1, len(acknowledged) + 1)))
        self.assertEqual(relay.counted("pequod_links_lost_total"), 0)

    def test_a_write_is_seen_over_another_link(self):
        relay = self.relay(links=3)
        clients = [self.client(relay) for _ in range(6)]
        for number in range(300):
            put = clients[number % 6].put("k|a", str(number))
            seen = clients[(number * 5 + 1 + number // 6) % 6].get("k|a")
            self.assertEqual((seen.value, seen.position), (str(number), put.position))

    def test_the_client_for_asyncio_and_pools(self):
        relay = self.relay()

        async def work():
            async with aio.Pool(HOST, relay.port, size=8, timeout=20) as pool:
                async def put(number):
                    async with pool.client() as client, client.pipeline() as pipeline:
                        for place in range(50):
                            pipeline.put(f"k|{number}|{place}", "x")
                await asyncio.gather(*(put(number) for number in range(20)))
                async with pool.client() as client:
                    return await client.scan_prefix("k|")

        pairs = asyncio.run(work())
        self.assertEqual((len(pairs), pairs.position), (1_000, 1_000))


class Ends(Served):
    """How connections end, and what others have of it."""

    def test_a_client_that_ends_its_side_has_all_replies(self):
        relay = self.relay()
        lines = b"".join(b'["put","k|%d","x"]\n' % number for number in range(2_000))
        came, is_reset = talk(connected(relay.port), lines)
        self.assertEqual((came, is_reset), (b"".join(b'["ok",%d]\n' % number for number in range(1, 2_001)), False))

    def test_clients_that_leave(self):
        relay = self.relay(links=1)
        stays = self.client(relay)
        lefts = b"", b'["put","k|a"', GET * 500, b'["scan","k|","k}"]\n' * 100, b"y" * 2_000_000
        for left, end in itertools.product(lefts, (leave, socket.socket.close)):
            with self.subTest(left[:20], end=end):
                link = connected(relay.port)
                with contextlib.suppress(OSError):
                    link.sendall(left)
                end(link)
                self.assertFalse(stays.get("k|a"))
        self.assertTrue(wait_for(lambda: relay.counted("pequod_clients") == 1))
        self.assertEqual(relay.counted("pequod_links_lost_total"), 0)

    def test_a_server_that_is_started_anew(self):
        relay = self.relay()
        clients = [self.client(relay) for _ in range(6)]
        for number, client in enumerate(clients):
            client.put(f"k|{number}", "x")
        self.server.end()
        # Also those that ask nothing are reset, or they would go on with another history and not learn of it.
        for client in clients:
            self.assertTrue(wait_for(lambda: not client._is_quiet()))
        with self.assertRaises((pequod.LinkLost, ConnectionError)):
            self.client(relay).get("k|1")
        self.server.start()
        self.assertTrue(wait_for(lambda: relay.is_anew(2)))
        for number, client in enumerate(clients):
            with self.assertRaises(pequod.LinkLost):
                client.get("k|1")
            with self.assertRaises(pequod.Restarted) as caught:
                client.reconnect()
            self.assertEqual((caught.exception.before, caught.exception.position), (number + 1, 0))
            self.assertEqual(client.get("k|1"), pequod.Absent(0))
        counts = relay.counts()
        self.assertEqual((counts["pequod_links_lost_total"], counts["pequod_position"]), (2, 0))
        self.assertEqual(counts['pequod_clients_reset_total{cause="link_lost"}'], 6)
        self.assertEqual(counts['pequod_clients_reset_total{cause="no_link"}'], 1)

    def test_a_pool_is_filled_anew(self):
        relay, fills = self.relay(), []

        def fill(client):
            fills.append(client)
            client.put("k|a", "filled")

        pool = pequod.Pool(HOST, relay.port, size=4, timeout=20, on_restart=fill)
        self.addCleanup(pool.close)
        with pool.client() as client:
            client.put("k|a", "x")
            client.put("k|a", "y")
        self.server.restart()
        self.assertTrue(wait_for(lambda: relay.is_anew(2)))
        with pool.client() as client:
            self.assertEqual(client.get("k|a").value, "filled")
        self.assertEqual(len(fills), 1)

    def test_a_client_is_lost_with_its_link_and_with_no_other(self):
        told = Told()
        self.addCleanup(told.close)
        relay = Relay(told.port, links=3)
        self.addCleanup(clean_end, self, relay)
        for number in range(1, 10):
            self.addCleanup(connected(relay.port).close)
            self.assertTrue(wait_for(lambda: relay.counted("pequod_clients") == number))
        for ended in 1, 2, 3:
            told.drop(told.links[ended - 1])
            self.assertTrue(wait_for(lambda: relay.counted('pequod_clients_reset_total{cause="link_lost"}') == 3 * ended))
            self.assertEqual(relay.counted("pequod_clients"), 9 - 3 * ended)


class Counts(Served):
    """What a relay shows to Prometheus."""

    def test_requests_and_refusals(self):
        relay = self.relay()
        talk(connected(relay.port), b"".join((
            b'["put","a|1","x"]\n' * 3, GET * 5, b'["remove","a|2"]\n', b'["scan","a|","a}"]\n' * 2, b'["scan","a|","a}",9]\n',
            b'["changes","a|","a}",1]\n', b'["join","b|<x> = copy a|<x>"]\n', b'["put","b|1","x"]\n', b'["drop",9]\n', b"\n",
            b'[ "get","a|1"]\n', b'["get","a"]\n', b'["quit"]\n',
        )))
        self.assertTrue(wait_for(lambda: relay.counted("pequod_clients") == 0))
        counts = relay.counts()
        requests = {"put": 4, "get": 6, "remove": 1, "scan": 3, "changes": 1, "join": 1, "drop": 1, "other": 2, "quit": 1}
        self.assertEqual(self.labelled(counts, "pequod_requests_total", "kind"), requests)
        refusals = {"ahead": 1, "computed": 1, "nojoin": 1, "json": 1, "key": 1}
        self.assertEqual(self.labelled(counts, "pequod_refusals_total", "name"), refusals)
        self.assertEqual(counts["pequod_latency_seconds_count"], sum(requests.values()) - 1)
        self.assertEqual(counts["pequod_position"], 5)
        self.assertEqual((counts["pequod_clients"], counts["pequod_links"]), (0, 2))

    @staticmethod
    def labelled(counts, name, label):
        head = f'{name}{{{label}="'
        return {sample[len(head):-2]: value for sample, value in counts.items() if sample.startswith(head)}

    def test_a_line_that_is_too_long(self):
        relay = self.relay()
        talk(connected(relay.port), b"y" * 1_100_000)
        counts = relay.counts()
        self.assertEqual(counts['pequod_requests_total{kind="long"}'], 1)
        self.assertEqual(counts['pequod_refusals_total{name="long"}'], 1)

    def test_the_position_is_that_of_now(self):
        relay = self.relay()
        with self.server.connect() as client, client.pipeline() as pipeline:
            for number in range(10):
                pipeline.put("k|a", str(number))
        client = self.client(relay)
        for at, wanted in (3, 0), (None, 10):
            client.scan("k|", "k}", at)
            self.assertEqual(relay.counted("pequod_position"), wanted or 3)


class Words(unittest.TestCase):
    """How it is called, and its statuses."""

    def run_relay(self, *words):
        ended = subprocess.run(
            [sys.executable, "-m", "pequod", "relay", *words], cwd=FOLDER, capture_output=True, text=True, timeout=20, check=False
        )
        return ended.returncode, ended.stderr.splitlines()[-1]

    def test_words_that_form_no_command(self):
        where = f"{HOST}:7100", "--server", f"{HOST}:7000"
        rows = (
            ((f"{HOST}:7100",), "the following arguments are required: --server"),
            (("7100", *where[1:]), "argument LISTEN: '7100' is no HOST:PORT"),
            ((f"{HOST}:70000", *where[1:]), f"argument LISTEN: '{HOST}:70000' is no HOST:PORT"),
            ((*where, "--links", "0"), "argument --links: '0' is no number from 1 to 64"),
            ((*where, "--links", "65"), "argument --links: '65' is no number from 1 to 64"),
            ((*where, "--clients", "none"), "argument --clients: 'none' is no number from 1 to 1000000"),
            ((*where, "--metrics", "70000"), "argument --metrics: '70000' is no number from 0 to 65535"),
            ((*where, "--cert", "a.pem"), "--cert, --key and --ca are given together, or none of them"),
            ((*where, "--server-ca", "a.pem"), "--server-cert, --server-key and --server-ca are given together, or none of them"),
        )
        for words, wanted in rows:
            with self.subTest(words):
                self.assertEqual(self.run_relay(*words), (2, f"python3 -m pequod relay: error: {wanted}"))

    def test_what_cannot_be_had(self):
        taken = connected_listener(self)
        other = free_port()
        rows = (
            ((f"{HOST}:{taken}", "--server", f"{HOST}:{other}"), 8),
            ((f"{HOST}:{other}", "--server", f"{HOST}:{taken}", "--metrics", str(taken)), 8),
            ((f"{HOST}:{other}", "--server", f"{HOST}:{taken}", "--cert", "none", "--key", "none", "--ca", "none"), 9),
            ((f"{HOST}:{other}", "--server", f"{HOST}:{taken}", "--clients", "1000000"), 6),
        )
        for words, status in rows:
            with self.subTest(words):
                ended, told = self.run_relay(*words)
                self.assertEqual((ended, told[:14]), (status, "pequod relay: "))


def connected_listener(case):
    """The port of a listener that stands as long as the test."""
    listener = socket.create_server((HOST, 0))
    case.addCleanup(listener.close)
    return listener.getsockname()[1]


if __name__ == "__main__":
    unittest.main()
