"""Tests of what a relay has under way and lets wait: PEQUOD=path/of/the/built/program python3 -m unittest test_relay_bounds"""

import contextlib
import socket
import subprocess
import sys
import threading
import time
import unittest

from relaying import PATIENCE, Relay, Told, clean_end, connected, leave, wait_for
from serving import FOLDER, HOST, Server, free_port, want_program

GET = b'["get","a|1"]\n'
SCAN = b'["scan","big|","big}"]\n'
CHANGES = b'["changes","a|","a}",1]\n'
UNUSUAL = b'[ "get","a|1"]\n'
NONE = b'["none",0]\n'
# Lines that are sent at once, and how many of them are under way while none is answered.
UNDER_WAY = (
    ("gets", [GET] * 1_000, 256),
    ("puts of many bytes", [b'["put","a|1","' + b"x" * 60_000 + b'"]\n'] * 300, 2),
    ("a long line between others", [GET, b" " * 900_000 + b"\n", GET, GET], 2),
    ("scans", [SCAN] * 9, 2),
    ("changes", [CHANGES] * 9, 2),
    ("unusual spellings", [UNUSUAL] * 9, 2),
    ("scans among others", [GET, SCAN, GET, UNUSUAL, GET, GET, CHANGES, GET], 6),
)
VALUE = "v" * 65_536


def setUpModule():
    want_program()


def connect(case, port, receiving=None):
    """A connection of a client, with so much room in the system for what it does not read."""
    link = socket.socket()
    case.addCleanup(link.close)
    if receiving is not None:
        link.setsockopt(socket.SOL_SOCKET, socket.SO_RCVBUF, receiving)
    link.settimeout(PATIENCE)
    link.connect((HOST, port))
    return link


def read(link, lines):
    """All that comes until so many lines have ended."""
    pieces, left = [], lines
    while left > 0:
        pieces.append(link.recv(1 << 16))
        assert pieces[-1], "the connection ended"
        left -= pieces[-1].count(b"\n")
    return b"".join(pieces)


def read_bytes(link, count):
    """So many bytes."""
    came = b""
    while len(came) < count:
        came += link.recv(count - len(came))
    return came


class UnderWay(unittest.TestCase):
    """What a server sees that answers only when it is told to."""

    def setUp(self):
        self.told = Told()
        self.addCleanup(self.told.close)
        self.relay = Relay(self.told.port, links=1)
        self.addCleanup(clean_end, self, self.relay)

    def came(self, count):
        """The lines that come: after so many it looks for a while whether there are more."""
        lines = []
        wait_for(lambda: lines.extend(self.told.lines()) or len(lines) >= count)
        time.sleep(0.1)
        return lines + self.told.lines()

    def test_lines_under_way(self):
        for name, sent, bound in UNDER_WAY:
            with self.subTest(name):
                link = connected(self.relay.port)
                self.addCleanup(link.close)
                sender = threading.Thread(target=link.sendall, args=(b"".join(sent),))
                sender.start()
                lines, answered = self.came(bound), 0
                self.assertEqual(lines, sent[:bound])
                while answered < len(sent):
                    self.told.say(NONE * (len(lines) - answered))
                    answered = len(lines)
                    wait_for(lambda: lines.extend(self.told.lines()) or len(lines) > answered or answered == len(sent))
                    self.assertLessEqual(len(lines) - answered, bound)
                self.assertEqual(lines, sent)
                self.assertEqual(read(link, len(sent)), NONE * len(sent))
                sender.join()

    @staticmethod
    def give(link, block):
        """Sends what the system takes at once, and gives how many bytes that were."""
        given = 0
        with contextlib.suppress(BlockingIOError):
            while given < len(block):
                given += link.send(block[given:given + 65_536])
        return given

    def two(self, lines):
        """A client with lines under way, and another with a get behind them."""
        first, other = connect(self, self.relay.port), connect(self, self.relay.port)
        for link, sent in (first, lines), (other, [GET]):
            link.sendall(b"".join(sent))
            self.assertEqual(self.came(len(sent)), sent)
        return first, other

    def test_a_long_reply_is_handed_on_before_its_end(self):
        first, other = self.two([SCAN, GET])
        beginning = b'["pairs",7,[["big|1","' + b"x" * 100_000
        self.told.say(beginning)
        self.assertEqual(read_bytes(first, len(beginning)), beginning)
        self.told.say(b'["error","no"]"]]]\n["error","memory"]\n["value",9,"y')
        self.told.say(b'"]\n')
        self.assertEqual(read(first, 2), b'["error","no"]"]]]\n["error","memory"]\n')
        self.assertEqual(read(other, 1), b'["value",9,"y"]\n')
        counts = self.relay.counts()
        self.assertEqual({name: value for name, value in counts.items() if "refusals" in name}, {
            'pequod_refusals_total{name="memory"}': 1,
        })
        self.assertEqual((counts["pequod_position"], counts["pequod_latency_seconds_count"]), (9, 3))

    def test_a_client_that_left_has_its_replies_thrown_away(self):
        first, other = self.two([GET] * 3)
        leave(first)
        self.assertTrue(wait_for(lambda: self.relay.counted("pequod_clients") == 1))
        self.told.say(b'["value",1,"a"]\n["value",1,"b"]\n["value",1,"' + b"c" * 50_000 + b'"]\n["value",1,"d"]\n')
        self.assertEqual(read(other, 1), b'["value",1,"d"]\n')

    def test_a_reply_that_nobody_asked_for_ends_the_link(self):
        client = connect(self, self.relay.port)
        self.assertTrue(wait_for(lambda: self.relay.counted("pequod_clients") == 1))
        self.told.say(NONE)
        with self.assertRaises(ConnectionResetError):
            client.recv(1)

    def test_clients_wait_in_turn_for_a_server_that_takes_nothing(self):
        first, other = connect(self, self.relay.port), connect(self, self.relay.port)
        self.told.hold.set()
        block = b'["put","a|1","' + b"x" * 60_000 + b'"]\n'
        first.setblocking(False)
        given = 0
        while True:
            more = self.give(first, (block * 20)[given % len(block):])
            given += more
            time.sleep(0.1)
            if not more:
                break
        self.assertLess(given, 40 << 20)
        self.assertLess(self.relay.kilobytes(), 60_000)
        other.sendall(GET)
        self.told.hold.clear()
        self.assertTrue(wait_for(lambda: GET in self.told.came))


class OthersSide(unittest.TestCase):
    """What is no server of this kind, or does not answer."""

    def first_line(self, told, seconds=PATIENCE):
        port = free_port()
        process = subprocess.Popen(
            [sys.executable, "-m", "pequod", "relay", f"{HOST}:{port}", "--server", f"{HOST}:{told}"],
            cwd=FOLDER, stderr=subprocess.PIPE, text=True,
        )
        try:
            return process.stderr.readline()
        finally:
            process.terminate()
            process.wait(seconds)
            process.stderr.close()

    def test_what_it_says(self):
        page, silent, nobody = Told(b"HTTP/1.1 400 Bad Request\n"), Told(b""), free_port()
        self.addCleanup(page.close)
        self.addCleanup(silent.close)
        rows = (
            (page.port, "no link to {}: it answers a get by b'HTTP/1.1 400 Bad Request\\n'; it tries again and again\n"),
            (silent.port, "{} does not answer: are all its workers taken?\n"),
            (nobody, None),
        )
        for port, wanted in rows:
            with self.subTest(wanted):
                line = self.first_line(port)
                if wanted is None:
                    self.assertIn(f"no link to {HOST}:{port}: ", line)
                else:
                    self.assertEqual(line, "pequod relay: " + wanted.format(f"{HOST}:{port}"))


class Slow(unittest.TestCase):
    """A client that does not read, beside others."""

    VALUES = 160

    def setUp(self):
        self.server = Server("--workers", "4")
        self.addCleanup(self.server.stop)
        with self.server.connect() as client, client.pipeline() as pipeline:
            for number in range(self.VALUES):
                pipeline.put(f"big|{number:04}", VALUE)

    def relay(self, *options):
        relay = Relay(self.server.port, *options, links=1)
        self.addCleanup(clean_end, self, relay)
        return relay

    def test_one_that_reads_late(self):
        relay = self.relay()
        slow = connect(self, relay.port, receiving=4_096)
        sent = UnderWay.give(nonblocking(slow), SCAN * 20_000)
        with relay.connect() as other:
            self.assertTrue(wait_for(lambda: relay.counted("pequod_waiting_reply_bytes") > 0))
            for _ in range(50):
                self.assertFalse(other.get("k|a"))
            # Two scans of 10 MB are under way for it, and no more.
            self.assertLess(relay.counted('pequod_requests_total{kind="scan"}'), 4)
            self.assertLess(relay.kilobytes(), 80_000)
            slow.settimeout(PATIENCE)
            self.assertEqual(read_bytes(slow, 16), b'["pairs",%d,[["' % self.VALUES)
            self.assertGreater(sent, 3 * len(SCAN))
            # It reads on, and its further scans are answered.
            read(slow, 5)
            self.assertGreater(relay.counted('pequod_requests_total{kind="scan"}'), 4)
        self.assertEqual(relay.counted("pequod_links_lost_total"), 0)

    def test_one_that_is_let_go(self):
        relay = self.relay("--held", "1")
        slow = connect(self, relay.port, receiving=4_096)
        slow.sendall(SCAN * 2)
        with relay.connect() as other:
            self.assertTrue(wait_for(lambda: relay.counted('pequod_clients_reset_total{cause="too_slow"}') == 1))
            self.assertFalse(other.get("k|a"))
            counts = relay.counts()
        self.assertEqual((counts["pequod_links_lost_total"], counts["pequod_waiting_reply_bytes"]), (0, 0))
        with self.assertRaises(ConnectionResetError):
            while slow.recv(1 << 16):
                pass

    def test_more_clients_than_there_may_be(self):
        relay = self.relay("--clients", "3")
        clients = [relay.connect() for _ in range(3)]
        for client in clients:
            self.addCleanup(client.close)
            self.assertFalse(client.get("k|a"))
        with self.assertRaises(ConnectionResetError):
            connect(self, relay.port).recv(1)
        self.assertEqual(relay.counted('pequod_clients_reset_total{cause="too_many"}'), 1)
        clients[0].close()
        self.assertTrue(wait_for(lambda: relay.counted("pequod_clients") == 2))
        with relay.connect() as client:
            self.assertFalse(client.get("k|a"))


def nonblocking(link):
    link.setblocking(False)
    return link


if __name__ == "__main__":
    unittest.main()
