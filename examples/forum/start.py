#!/usr/bin/env python3
"""Starts the forum on loopback: a PostgreSQL of its own, Pequod, the bridge between them, and the pages. Ctrl-C ends all of it, and
nothing is kept.

    python3 start.py PROGRAM [--port 8000]

PROGRAM is the built Pequod. It wants PostgreSQL and psycopg2: on Debian, postgresql and python3-psycopg2, and /usr/bin/python3.
"""

import argparse
import contextlib
import os
import pathlib
import re
import signal
import subprocess
import sys
import tempfile
import time

FOLDER = pathlib.Path(__file__).resolve().parent
CLIENT = FOLDER.parent.parent / "clients" / "python"
sys.path.insert(0, str(CLIENT))
import private_postgres  # noqa: E402
import psycopg2  # noqa: E402

HOST = private_postgres.HOST


class Parts:
    """The parts of a forum that runs, each a process."""

    def __init__(self, program, port, told=None):
        """Starts all of them. The pages are at `address`. What the parts tell goes where `told` says, as `subprocess` has it."""
        self._keeping = contextlib.ExitStack()
        self._told = told
        try:
            self._start(program, port)
        except BaseException:
            self.stop()
            raise

    def _start(self, program, port):
        self.database = self._keeping.enter_context(private_postgres.PrivatePostgres())
        with contextlib.closing(psycopg2.connect(self.database.dsn)) as connection, connection, connection.cursor() as cursor:
            cursor.execute((FOLDER / "forum.sql").read_text(encoding="utf-8"))
        self.pequod_port = private_postgres.free_port()
        address = f"{HOST}:{self.pequod_port}"
        self._program = [program, "serve", address, "--joins", str(FOLDER / "forum.joins"), "--workers", "8"]
        self.pequod = self._run(self._program)
        folder = pathlib.Path(self._keeping.enter_context(tempfile.TemporaryDirectory()))
        mapping = (FOLDER / "forum.toml").read_text(encoding="utf-8")
        (folder / "forum.toml").write_text(re.sub('(?m)^address = .*$', f'address = "{address}"', mapping), encoding="utf-8")
        self.bridge = self._run([sys.executable, "-m", "pequod", "postgres", str(folder / "forum.toml")])
        words = ["--port", str(port), "--pequod", address]
        self.pages = self._run([sys.executable, str(FOLDER / "app.py"), *words], stdout=subprocess.PIPE)
        self._keeping.callback(self.pages.stdout.close)
        self.address = self.pages.stdout.readline().decode().strip()

    def _run(self, words, **options):
        options = {"stdout": self._told, "stderr": self._told, **options}
        where = {"PGHOST": HOST, "PGPORT": str(self.database.port), "PGUSER": private_postgres.USER, "PGDATABASE": "postgres"}
        process = subprocess.Popen(words, env={**os.environ, **where, "PYTHONPATH": str(CLIENT)}, **options)
        self._keeping.callback(process.wait)
        self._keeping.callback(process.terminate)
        return process

    def restart_pequod(self):
        """Has Pequod lose all that it holds."""
        self.pequod.terminate()
        self.pequod.wait()
        self.pequod = self._run(self._program)

    def stop(self):
        """Ends all of them."""
        self._keeping.close()

    def __enter__(self):
        return self

    def __exit__(self, *_):
        self.stop()


def main():
    words = argparse.ArgumentParser(description=__doc__.splitlines()[0])
    words.add_argument("program", metavar="PROGRAM")
    words.add_argument("--port", type=int, default=8000)
    given = words.parse_args()
    signal.signal(signal.SIGTERM, signal.default_int_handler)
    with contextlib.suppress(KeyboardInterrupt), Parts(given.program, given.port) as forum:
        print(forum.address, flush=True)
        while True:
            time.sleep(3600)


if __name__ == "__main__":
    main()
