"""What tests of the bridge start: a private PostgreSQL, a Pequod and `python3 -m pequod postgres`. They are skipped where there is
no PostgreSQL or no psycopg2, or Python is older than the command wants."""

import contextlib
import os
import pathlib
import subprocess
import sys
import tempfile
import time
import unittest

import private_postgres
from pequod import postgres
from serving import FOLDER, HOST, Server, want_program

try:
    import psycopg2
except ImportError:
    psycopg2 = None

SECONDS = 30
"""How long anything may take on a busy machine."""


def why_not():
    """Why the tests cannot run here, and None where they can."""
    if psycopg2 is None:
        return "psycopg2 is missing"
    if private_postgres.programs() is None:
        return "PostgreSQL is missing"
    return "Python is older than 3.11" if sys.version_info < (3, 11) else None


def want_postgres():
    """Skips where the tests cannot run, and gives a private PostgreSQL, which stops at the end of the module."""
    want_program()
    if why_not():
        raise unittest.SkipTest(why_not())
    return private_postgres.PrivatePostgres()


def mapping(dsn, port, tables, publication="pequod"):
    """The text of a mapping. `tables` has the names of tables with their keys and values."""
    lines = ["[postgres]", f'dsn = "{dsn}"', f'publication = "{publication}"', "[pequod]", f'address = "{HOST}:{port}"']
    for name, (key, value) in tables.items():
        lines += [f"[table.'{name}']", f"key = '{key}'", f"value = '{value}'"]
    return "\n".join(lines) + "\n"


class Bridge:
    """A process of `python3 -m pequod postgres`, with what it prints."""

    def __init__(self, text):
        """`text` is the mapping's."""
        self._keeping = contextlib.ExitStack()
        self._folder = pathlib.Path(self._keeping.enter_context(tempfile.TemporaryDirectory()))
        self.file = self._folder / "mapping.toml"
        self.file.write_text(text, encoding="utf-8")
        self.start()

    def start(self):
        words = [sys.executable, "-m", "pequod", "postgres", str(self.file)]
        told = self._keeping.enter_context(open(self._folder / "told", "ab"))
        self.process = subprocess.Popen(words, stdout=told, stderr=told, env={**os.environ, "PYTHONPATH": str(FOLDER)})

    @property
    def told(self):
        """All that it printed."""
        return (self._folder / "told").read_text(encoding="utf-8").replace(str(self.file), "FILE")

    def wait_until_told(self, words, times=1):
        end = time.monotonic() + SECONDS
        while self.told.count(words) < times:
            if time.monotonic() > end:
                raise AssertionError(f"{words!r} was not told {times} times, but\n{self.told}")
            time.sleep(0.02)

    def kill(self):
        """Ends it as hard as can be."""
        self.process.kill()
        self.process.wait()

    def end(self):
        """Ends it, and gives its status."""
        self.process.terminate()
        return self.process.wait()

    def status(self):
        """Waits until it ends by itself, and gives its status."""
        return self.process.wait(SECONDS)

    def stop(self):
        with self._keeping:
            self.kill()

    def __enter__(self):
        return self

    def __exit__(self, *_):
        self.stop()


class Case(unittest.TestCase):
    """A test with a Pequod, and a bridge from the module's PostgreSQL to it. A subclass has `database`, set by `setUpModule`."""

    database = None
    joins = None

    def setUp(self):
        self.server = Server("--workers", "8", joins=self.joins)
        self.addCleanup(self.server.stop)
        self.client = self.server.connect()
        self.addCleanup(lambda: self.client.close())
        self.connection, self.cursor = self.connect()
        self.clear()

    def connect(self):
        """A connection of its own, each of whose statements is a transaction, and a cursor."""
        connection = psycopg2.connect(self.database.dsn, options="-c timezone=UTC")
        connection.autocommit = True
        self.addCleanup(connection.close)
        return connection, connection.cursor()

    def clear(self):
        """Leaves nothing in the database."""
        self.cursor.execute("drop schema public cascade; create schema public; drop publication if exists pequod")

    def bridge(self, tables, **options):
        self.last = Bridge(mapping(self.database.dsn, self.server.port, tables, **options))
        self.addCleanup(self.last.stop)
        return self.last

    def wait(self):
        """Waits until all that was committed stands in Pequod."""
        try:
            return postgres.wait_for(self.client, self.cursor, SECONDS)
        except TimeoutError as error:
            raise AssertionError(f"{error}\n{self.last.told}") from error

    def pairs(self, table, at=None):
        return dict(self.client.scan(f"{table}|", f"{table}}}", at))

    def rows(self, query):
        """The pairs that a query makes of the tables."""
        self.cursor.execute(query)
        return dict(self.cursor.fetchall())
