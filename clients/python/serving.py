"""Servers that the tests start. PEQUOD is the path of the built program."""

import os
import pathlib
import socket
import subprocess
import tempfile
import time
import unittest

import pequod

HOST = "127.0.0.1"
PROGRAM = os.environ.get("PEQUOD", "")
FOLDER = pathlib.Path(__file__).resolve().parent


def want_program():
    if not os.access(PROGRAM, os.X_OK):
        raise SystemExit("These tests start the built program, and PEQUOD is no path of one that may be run.")


def free_port():
    with socket.socket() as one:
        one.bind((HOST, 0))
        return one.getsockname()[1]


class Server:
    """A server of its own, on a port that was free. With `joins` these are the lines of its joins file."""

    def __init__(self, *options, joins=None):
        self.folder = tempfile.TemporaryDirectory()
        if joins is not None:
            file = pathlib.Path(self.folder.name, "joins")
            file.write_text("".join(f"{line}\n" for line in joins), encoding="utf-8")
            options = (*options, "--joins", str(file))
        self.port = free_port()
        self.options = options
        self.start()

    def start(self):
        self.process = subprocess.Popen([PROGRAM, "serve", f"{HOST}:{self.port}", *self.options])
        try:
            self.connect().close()
        except BaseException:
            self.stop()
            raise

    def connect(self, timeout=20.0):
        """A client, as soon as the server accepts one."""
        end = time.monotonic() + 20
        while True:
            try:
                return pequod.connect(HOST, self.port, timeout)
            except ConnectionRefusedError:
                if time.monotonic() > end or self.process.poll() is not None:
                    raise
                time.sleep(0.02)

    def end(self):
        self.process.terminate()
        self.process.wait()

    def restart(self):
        """Ends the server and starts it anew, at the same address."""
        self.end()
        self.start()

    def stop(self):
        self.end()
        self.folder.cleanup()

    def __enter__(self):
        return self

    def __exit__(self, *_):
        self.stop()


class Case(unittest.TestCase):
    """A test with a server and a client."""

    options = ()
    joins = None

    def setUp(self):
        self.server = Server(*self.options, joins=self.joins)
        self.addCleanup(self.server.stop)
        self.client = self.server.connect()
        self.addCleanup(self.client.close)

    def refused(self, name, position, details, call, *words):
        with self.assertRaises(pequod.Refused) as caught:
            call(*words)
        error = caught.exception
        self.assertEqual((error.name, error.position, error.details), (name, position, details))
