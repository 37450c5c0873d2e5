"""Tests of `python3 -m pequod metrics`, and of what it counts: PEQUOD=path/of/the/built/program python3 -m unittest test_metrics"""

import contextlib
import io
import json
import os
import re
import subprocess
import sys
import time
import unittest
import urllib.request

from pequod.__main__ import main
from pequod.metrics import DASHBOARD
from pequod.probing import Counts, Look, NoLook, Probe
from pequod.processes import listener_of, usage_of
from serving import FOLDER, HOST, Server, free_port, want_program

SAMPLE = re.compile(r"([a-z_]+(?:\{[^}]*\})?) (.*)")
LINE = re.compile(
    r"[0-9:]{8} position (\d+)(?: \((.*)\))?, first answer \d+\.\d\d ms, get \d+\.\d\d ms, scan \d+\.\d\d ms, \d+ kB"
)


def setUpModule():
    want_program()


def samples(text):
    """The samples of a text for Prometheus, by their names and labels."""
    found = (SAMPLE.fullmatch(line) for line in text.splitlines() if not line.startswith("#"))
    return {match.group(1): float(match.group(2)) for match in found}


@contextlib.contextmanager
def listening(*words):
    """The command with a listener, and its address. It is ended afterwards."""
    command = [sys.executable, "-m", "pequod", "metrics", *words]
    with subprocess.Popen(command, stdout=subprocess.PIPE, cwd=FOLDER) as process:
        try:
            yield process.stdout.readline().decode().rpartition(" ")[2].strip()
        finally:
            process.terminate()


class Looks(unittest.TestCase):
    def setUp(self):
        self.server = Server()
        self.addCleanup(self.server.stop)
        self.probe = Probe(HOST, self.server.port, timeout=20)

    def put(self, count):
        with self.server.connect() as client:
            client.put_many({f"k|{number}": "x" for number in range(count)})

    def test_what_is_counted_over_restarts(self):
        counts = Counts(self.probe)
        seen = []
        for put, is_new in (40, False), (10, False), (5, True), (2, False):
            if is_new:
                self.server.restart()
            self.put(put)
            self.assertIsInstance(counts.look()[0], Look)
            now = samples(counts.text())
            seen.append([now[f"pequod_{name}"] for name in ("up", "position", "writes_total", "restarts_total", "looks_failed_total")])
        self.assertEqual(seen, [[1, 40, 0, 0, 0], [1, 50, 10, 0, 0], [1, 5, 15, 1, 0], [1, 7, 17, 1, 0]])
        self.assertGreater(now["pequod_writes_per_second"], 0)
        for name in "connect", "get", "scan":
            self.assertEqual(now[f'pequod_probe_seconds_count{{probe="{name}"}}'], 4)
            self.assertGreater(now[f'pequod_last_probe_seconds{{probe="{name}"}}'], 0)

    def test_a_server_that_is_away(self):
        counts = Counts(self.probe)
        self.put(3)
        counts.look()
        self.server.end()
        seen, before = counts.look()
        now = samples(counts.text())
        self.assertEqual((type(seen), before, now["pequod_up"], now["pequod_looks_failed_total"]), (NoLook, 3, 0, 1))
        gone = {"pequod_position", "pequod_writes_per_second", "pequod_resident_memory_bytes", 'pequod_last_probe_seconds{probe="get"}'}
        self.assertEqual(gone & set(now), set())
        self.server.start()
        counts.look()
        now = samples(counts.text())
        self.assertEqual((now["pequod_up"], now["pequod_position"], now["pequod_restarts_total"]), (1, 0, 1))
        self.assertEqual(counts.usage.memory, now["pequod_resident_memory_bytes"])

    def test_a_server_all_of_whose_workers_are_taken(self):
        with Server("--workers", "1") as server, server.connect() as client:
            client.get("k|a")
            counts = Counts(Probe(HOST, server.port, timeout=0.2))
            self.assertIsInstance(counts.look()[0], NoLook)
            client.close()
            self.assertIsInstance(Counts(Probe(HOST, server.port, timeout=20)).look()[0], Look)

    def test_the_process_is_found_by_its_port(self):
        self.assertEqual((listener_of(self.server.port), listener_of(free_port())), (self.server.process.pid, None))
        usage = usage_of(self.server.process.pid)
        with open(f"/proc/{self.server.process.pid}/status", encoding="ascii") as status:
            resident = next(int(line.split()[1]) for line in status if line.startswith("VmRSS:"))
        self.assertLess(abs(usage.memory - resident * 1024), 1_048_576)
        self.assertIsNone(usage_of(2**30))
        before = usage_of(os.getpid()).seconds
        begun = time.process_time()
        while time.process_time() - begun < 0.1:
            pass
        self.assertGreater(usage_of(os.getpid()).seconds - before, 0.05)


class Command(unittest.TestCase):
    def setUp(self):
        self.server = Server()
        self.addCleanup(self.server.stop)
        self.address = f"{HOST}:{self.server.port}"

    def metrics(self, *words):
        with contextlib.redirect_stdout(io.StringIO()) as printed, contextlib.redirect_stderr(io.StringIO()) as told:
            status = main(["metrics", *words])
        return status, printed.getvalue(), told.getvalue()

    def test_lines(self):
        with self.server.connect() as client:
            client.put("k|a", "x")
        status, printed, _ = self.metrics(self.address, "--count", "2", "--every", "0.01", "--timeout", "20")
        found = [LINE.fullmatch(line) for line in printed.splitlines()]
        self.assertEqual((status, [match.groups() for match in found]), (0, [("1", None), ("1", "+0")]))
        status, printed, _ = self.metrics(f"{HOST}:{free_port()}", "--count", "1")
        self.assertEqual((status, printed.split(" ", 1)[1]), (1, "no answer: [Errno 111] Connection refused\n"))

    def test_it_shows_what_it_counts_over_http(self):
        with listening(self.address, "--listen", f"{HOST}:0", "--every", "0.01", "--timeout", "20") as address:
            now = {}
            while "pequod_up" not in now:
                with urllib.request.urlopen(f"http://{address}/metrics", timeout=20) as page:
                    now = samples(page.read().decode())
        self.assertEqual((now["pequod_up"], now["pequod_position"]), (1, 0))
        self.assertGreater(now["pequod_resident_memory_bytes"], 1_000_000)

    def test_an_address_that_cannot_be_had(self):
        status, _, told = self.metrics(self.address, "--listen", self.address)
        self.assertEqual((status, told.startswith(f"pequod metrics: {self.address}: ")), (8, True))
        with self.assertRaises(SystemExit) as caught:
            self.metrics(self.address, "--scan", "k|a", "--count", "1")
        self.assertEqual(caught.exception.code, 2)

    def test_the_dashboard_shows_what_is_counted(self):
        status, printed, _ = self.metrics("--dashboard")
        self.assertEqual((status, json.loads(printed)), (0, json.loads(DASHBOARD.read_text())))
        asked = set(re.findall(r"pequod_[a-z_]+", " ".join(
            target["expr"] for panel in json.loads(printed)["panels"] for target in panel["targets"])))
        counts = Counts(Probe(HOST, self.server.port, timeout=20))
        for _ in range(2):
            counts.look()
        shown = {name.partition("{")[0] for name in samples(counts.text())}
        self.assertEqual(asked - shown, set())
        self.assertEqual(shown - asked, {"pequod_probe_seconds_sum", "pequod_probe_seconds_count"})


if __name__ == "__main__":
    unittest.main()
