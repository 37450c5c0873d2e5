"""A PostgreSQL server of its own, in a folder that goes with it. It listens on loopback alone, and lets everybody in.

PostgreSQL's programs are sought in the folder that PG_BIN names, in PATH, and where Debian has them. They refuse to run as root:
then the user `postgres` runs them.
"""

import contextlib
import os
import pathlib
import shutil
import socket
import subprocess
import tempfile

HOST = "127.0.0.1"
USER = "app"
UNPRIVILEGED = "postgres"
SETTINGS = """
wal_level = logical
max_wal_senders = 8
max_replication_slots = 8
listen_addresses = '127.0.0.1'
unix_socket_directories = ''
max_slot_wal_keep_size = 1GB
fsync = off
"""


def programs():
    """The folder of PostgreSQL's programs, and None where there is none."""
    found = shutil.which("initdb")
    folders = [os.environ.get("PG_BIN"), found and os.path.dirname(found)]
    folders += sorted(map(str, pathlib.Path("/usr/lib/postgresql").glob("*/bin")), reverse=True)
    return next((folder for folder in folders if folder and os.access(f"{folder}/initdb", os.X_OK)), None)


def free_port():
    with socket.socket() as one:
        one.bind((HOST, 0))
        return one.getsockname()[1]


class PrivatePostgres:
    """A server that runs from the time when it is made until `stop`."""

    def __init__(self, settings=""):
        """`settings` are further lines of its configuration."""
        self._programs = programs()
        self._keeping = contextlib.ExitStack()
        folder = self._keeping.enter_context(tempfile.TemporaryDirectory())
        self.folder = pathlib.Path(folder, "data")
        self.port = free_port()
        self._as = []
        if os.geteuid() == 0:
            os.chmod(folder, 0o755)
            self.folder.mkdir()
            shutil.chown(self.folder, UNPRIVILEGED, UNPRIVILEGED)
            self._as = ["setpriv", f"--reuid={UNPRIVILEGED}", f"--regid={UNPRIVILEGED}", "--clear-groups"]
        words = ("-U", USER, "--auth=trust", "--no-sync", "-E", "UTF8", "--locale=C.UTF-8")
        self._run("initdb", "-D", str(self.folder), *words)
        with open(self.folder / "postgresql.conf", "a", encoding="utf-8") as file:
            file.write(f"{SETTINGS}port = {self.port}\n{settings}\n")
        self.start()

    @property
    def dsn(self):
        """Where it is, as libpq reads it."""
        return f"host={HOST} port={self.port} user={USER} dbname=postgres"

    def start(self):
        self._run("pg_ctl", "-D", str(self.folder), "-l", str(self.folder / "log"), "-w", "start")

    def end(self, mode="fast"):
        self._run("pg_ctl", "-D", str(self.folder), "-m", mode, "-w", "stop")

    def stop(self):
        """Ends it, and removes all that it has."""
        with self._keeping:
            self.end("immediate")

    def __enter__(self):
        return self

    def __exit__(self, *_):
        self.stop()

    def _run(self, program, *words):
        line = [*self._as, f"{self._programs}/{program}", *words]
        done = subprocess.run(line, cwd="/", stdout=subprocess.DEVNULL, stderr=subprocess.PIPE, check=False)
        if done.returncode:
            raise OSError(f"{program}: {done.stderr.decode(errors='replace')}")
