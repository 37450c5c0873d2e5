"""Relays that the tests start, and a server in Python that answers only when it is told to."""

import contextlib
import os
import socket
import struct
import subprocess
import sys
import tempfile
import threading
import time
import urllib.request

import pequod
from serving import FOLDER, HOST, free_port

PATIENCE = 20.0


def wait_for(what, seconds=PATIENCE):
    """Waits until it is so, and gives what it is."""
    end = time.monotonic() + seconds
    while True:
        found = what()
        if found or time.monotonic() > end:
            return found
        time.sleep(0.01)


class Relay:
    """A relay of its own, at a port that was free, with its counts at another. Where it has ended, `told` is what it said."""

    def __init__(self, server_port, *options, links=2):
        self.port, self.metrics_port = free_port(), free_port()
        self.links = links
        self.said = tempfile.TemporaryFile("w+")
        words = (f"{HOST}:{self.port}", "--server", f"{HOST}:{server_port}", "--links", str(links))
        # In Python 3.9 the loop takes a TLS connection that was aborted for one that nobody closed.
        warned = "ignore" if {"--cert", "--server-cert"} & set(options) else "default"
        self.process = subprocess.Popen(
            [sys.executable, "-W", warned, "-m", "pequod", "relay", *words, "--metrics", str(self.metrics_port), *options],
            env={**os.environ, "PYTHONPATH": str(FOLDER)}, stderr=self.said,
        )
        try:
            wait_for(lambda: self.process.poll() is not None or self.is_up())
            assert self.process.poll() is None, "the relay ended"
        except BaseException:
            self.end()
            raise

    def is_up(self):
        """Whether all links serve."""
        try:
            return self.counted("pequod_links") == self.links
        except OSError:
            return False

    def is_anew(self, lost):
        """Whether so many links were lost, and all serve again."""
        return self.counted("pequod_links_lost_total") == lost and self.is_up()

    def counts(self):
        """Each sample that it shows, by its name with its labels."""
        with urllib.request.urlopen(f"http://{HOST}:{self.metrics_port}/metrics", timeout=PATIENCE) as answer:
            lines = answer.read().decode().splitlines()
        return {name: float(value) for name, _, value in (line.rpartition(" ") for line in lines if not line.startswith("#"))}

    def counted(self, name):
        return self.counts().get(name, 0.0)

    def connect(self, timeout=PATIENCE):
        return pequod.connect(HOST, self.port, timeout)

    def kilobytes(self):
        """Its resident memory."""
        with open(f"/proc/{self.process.pid}/status", encoding="ascii") as status:
            return next(int(line.split()[1]) for line in status if line.startswith("VmRSS:"))

    def end(self):
        """Ends it, and gives its status and all lines that it said."""
        self.process.terminate()
        status = self.process.wait(PATIENCE)
        self.said.seek(0)
        told = self.said.read().splitlines()
        self.said.close()
        return status, told


def clean_end(case, relay):
    """Ends a relay as the end of a test: it has to end in order, and to have said nothing but its own lines."""
    if relay.said.closed:
        return
    status, told = relay.end()
    case.assertEqual((status, [line for line in told if not line.startswith("pequod relay: ")]), (0, []))


def talk(link, data, pieces=None):
    """Sends all of it and ends that side, and gives what comes back, and whether a reset ended it."""
    link.settimeout(PATIENCE)

    def send():
        with contextlib.suppress(OSError):
            for piece in pieces or [data]:
                link.sendall(piece)
                if pieces:
                    time.sleep(0.0005)
            link.shutdown(socket.SHUT_WR)

    sender = threading.Thread(target=send)
    sender.start()
    came, is_reset = b"", False
    try:
        while True:
            piece = link.recv(1 << 16)
            if not piece:
                break
            came += piece
    except ConnectionError:
        is_reset = True
    sender.join()
    link.close()
    return came, is_reset


def connected(port):
    link = socket.create_connection((HOST, port), PATIENCE)
    link.setsockopt(socket.IPPROTO_TCP, socket.TCP_NODELAY, 1)
    return link


def leave(link):
    """Ends a connection by a reset, as a client that is killed over unread replies."""
    link.setsockopt(socket.SOL_SOCKET, socket.SO_LINGER, struct.pack("ii", 1, 0))
    link.close()


class Told:
    """A server that answers the first line of each connection, which is the relay's own, and then only what it is told to."""

    def __init__(self, first=b'["none",0]\n'):
        self.first = first
        self.listener = socket.create_server((HOST, 0))
        self.port = self.listener.getsockname()[1]
        self.links, self.came, self.lock = [], [], threading.Lock()
        self.hold = threading.Event()
        """As long as it is set, no line is read."""
        threading.Thread(target=self.accept, daemon=True).start()

    def accept(self):
        with contextlib.suppress(OSError):
            while True:
                link, _ = self.listener.accept()
                threading.Thread(target=self.serve, args=(link,), daemon=True).start()

    def serve(self, link):
        file = link.makefile("rb")
        with contextlib.suppress(OSError):
            file.readline()
            link.sendall(self.first)
            self.links.append(link)
            while line := self.next_line(file):
                with self.lock:
                    self.came.append(line)

    def next_line(self, file):
        while self.hold.is_set():
            time.sleep(0.01)
        return file.readline()

    def lines(self):
        """The lines that came and were not given yet."""
        with self.lock:
            came, self.came = self.came, []
        return came

    def say(self, replies):
        """Sends bytes over the first link that stands."""
        self.links[0].sendall(replies)

    def drop(self, link):
        """Ends a link."""
        with contextlib.suppress(OSError):
            link.shutdown(socket.SHUT_RDWR)
        link.close()

    def close(self):
        self.listener.close()
        self.hold.clear()
        for link in self.links:
            self.drop(link)
