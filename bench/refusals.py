#!/usr/bin/env python3
"""Refuses each allocation of a run in turn, one in each run, and each thread of a server, and says whether each run is right.

Usage: bench/refusals.py PROGRAM

PROGRAM is the built program. What is run: each file of requests and each script under examples/, a server that two clients use at
once, and one where they drop a join meanwhile and declare it again. Needs a C compiler, `cc`, for the few lines that refuse. Some
ten thousand runs: about 4 minutes on 4 processors that had other work too, 40 seconds of them for the server with drops.

A run of requests is right where it ends with the status of memory and has written nothing, or where some lines are answered
`memory` and the other replies are those that the program gives to the other lines alone. A run of a script is right where it ends
with the status of memory and has written nothing, or prints what it prints with ample memory. A server is right where it ends
with the status of memory before it takes a connection, or where one request at most is answered `memory` or finds its connection
closed, and each other reply, also to all that is asked after that, is what evaluating the joins afresh gives after the
acknowledged writes. One whose thread was refused is right only where it ends so.
"""
import json
import os
import socket
import subprocess
import sys
import tempfile
import time
from functools import partial
from pathlib import Path
from typing import Callable

from interleaved import Afresh

ROOT = Path(__file__).resolve().parent.parent
MEMORY = ["error", "memory"]
STATUS_OF_MEMORY = 6
ALLOCATION = "REFUSE"
THREAD = "REFUSE_THREAD"


class Refuser:
    """Runs the program with one allocation refused, or one thread."""

    def __init__(self, program: str, folder: str) -> None:
        self.program = program
        self.library = f"{folder}/refuse.so"
        self.mark = Path(folder) / "refused"
        source = str(ROOT / "bench/refuse.c")
        subprocess.run(["cc", "-O1", "-shared", "-fPIC", "-o", self.library, source, "-ldl"], check=True)

    def environment(self, number: int, what: str = ALLOCATION) -> dict[str, str]:
        """The environment of a run in which the allocation, or the thread, with this number is refused."""
        self.mark.unlink(missing_ok=True)
        return {**os.environ, "LD_PRELOAD": self.library, what: str(number), "REFUSED": str(self.mark)}

    def was_refused(self) -> bool:
        """Whether the last run came to what was to be refused."""
        return self.mark.exists()

    def run(self, words: list[str], given: bytes, number: int = 0) -> tuple[int, bytes]:
        """The status and what is written. With the number 0 none is refused, and the mark stays."""
        how = self.environment(number) if number else None
        ended = subprocess.run(
            [self.program, *words], input=given, env=how, capture_output=True, timeout=60, check=False
        )
        return ended.returncode, ended.stdout


def replies_of(written: bytes) -> list:
    """The replies, a line each."""
    return [json.loads(line) for line in written.splitlines()]


def is_right_run(refuser: Refuser, file: Path, number: int) -> bool:
    """Whether the replies that are not `memory` are those to the other lines alone."""
    given = file.read_bytes()
    status, written = refuser.run(["run"], given, number)
    if status == STATUS_OF_MEMORY:
        return not written
    replies = replies_of(written)
    answered = [line for line, reply in zip(given.splitlines(), replies) if reply != MEMORY]
    ample, alone = refuser.run(["run"], b"".join(line + b"\n" for line in answered))
    return status == ample and [reply for reply in replies if reply != MEMORY] == replies_of(alone)


def is_right_script(refuser: Refuser, file: Path, number: int) -> bool:
    """Whether nothing is printed, with the status of memory, or what is printed with ample memory."""
    ended = refuser.run(["replay", str(file)], b"", number)
    return ended in ((STATUS_OF_MEMORY, b""), refuser.run(["replay", str(file)], b""))


class Lost(Exception):
    """The server closed the connection without an answer."""


class Client:
    """A connection to the server."""

    def __init__(self, port: int) -> None:
        self.link = socket.create_connection(("127.0.0.1", port), timeout=20)
        self.lines = self.link.makefile("rb")

    def ask(self, request: list) -> list:
        """The reply to the request."""
        self.link.sendall(json.dumps(request).encode() + b"\n")
        line = self.lines.readline()
        if not line:
            raise Lost
        return json.loads(line)

    def close(self) -> None:
        self.lines.close()
        self.link.close()


TIMELINE = "t|<user>|<time>|<poster> = check s|<user>|<poster> copy p|<poster>|<time>"
LENGTHS = "n|<user> = count t|<user>|<time>|<poster>"

# Two clients in turn: which of them asks, and what.
TURNS = [
    (0, ["join", TIMELINE]),
    (0, ["put", "s|ann|bob", "1"]),
    (0, ["put", "p|bob|100", "Hi"]),
    (1, ["put", "q|1", "x"]),
    (0, ["scan", "t|ann|", "t|ann}"]),
    (1, ["scan", "q|", "q}"]),
    (1, ["scan", "t|ann|", "t|ann}"]),
    (0, ["put", "p|bob|120", "Yo"]),
    (1, ["scan", "t|ann|", "t|ann}"]),
]

# Two clients in turn, where a join is dropped and declared again, and another that reads its output stands all the time. What was
# put under a key of the output before is hidden while the join stands. A drop names its join, in place of the position.
DROPS = [
    (0, ["put", "t|ann|050|me", "Mine"]),
    (0, ["join", TIMELINE]),
    (1, ["join", LENGTHS]),
    (0, ["put", "s|ann|bob", "1"]),
    (1, ["put", "p|bob|100", "Hi"]),
    (0, ["scan", "t|ann|", "t|ann}"]),
    (1, ["scan", "n|", "n}"]),
    (1, ["put", "t|ann|060|me", "No"]),
    (0, ["put", "p|bob|120", "Yo"]),
    (1, ["scan", "t|ann|", "t|ann}"]),
    (0, ["scan", "n|", "n}"]),
    (1, ["drop", TIMELINE]),
    (0, ["scan", "t|ann|", "t|ann}"]),
    (1, ["scan", "n|", "n}"]),
    (0, ["drop", TIMELINE]),
    (1, ["put", "t|ann|060|me", "Too"]),
    (0, ["put", "p|bob|140", "Hm"]),
    (0, ["scan", "n|", "n}"]),
    (0, ["join", TIMELINE]),
    (1, ["scan", "t|ann|", "t|ann}"]),
    (0, ["scan", "n|", "n}"]),
    (1, ["put", "p|bob|160", "So"]),
    (0, ["scan", "t|ann|", "t|ann}"]),
]


def wanted_of(afresh: Afresh, request: list) -> list:
    """The reply to the request after the writes that entered."""
    if request[0] == "scan":
        return ["pairs", afresh.position, [list(pair) for pair in afresh.read(request)]]
    refusal = afresh.verdict(request)
    if refusal is None:
        return ["ok", afresh.position + 1]
    name, details = refusal
    return ["error", name, afresh.position, *details]


class Conversation:
    """Clients of one server, what entered by them, and how many requests found no answer but `memory` or a closed connection."""

    def __init__(self, port: int) -> None:
        self.port = port
        self.clients = [Client(port), Client(port)]
        self.afresh = Afresh([])
        self.declared: dict[str, int] = {}
        self.failures = 0

    def ask(self, who: int, request: list) -> list:
        """The reply to the request of a client, which asks once more over a new connection where its own was closed."""
        try:
            return self.clients[who].ask(request)
        except (Lost, ConnectionError):
            self.failures += 1
            self.clients[who] = Client(self.port)
            return self.clients[who].ask(request)

    def is_right(self, who: int, request: list) -> bool:
        """Whether the client is answered rightly, or `memory`. A drop is of the last declaration of its join that entered."""
        if request[0] == "drop":
            request = ["drop", self.declared.get(request[1], 0)]
        reply = self.ask(who, request)
        if reply == MEMORY:
            self.failures += 1
            return True
        if reply != wanted_of(self.afresh, request):
            return False
        if reply[0] == "ok":
            self.afresh.enter(request)
            if request[0] == "join":
                self.declared[request[1]] = reply[1]
        return True

    def close(self) -> None:
        for client in self.clients:
            client.close()


def is_right_server(port: int, turns: list) -> bool:
    """Whether each turn is answered rightly, but that one at most is answered `memory` or finds its connection closed."""
    conversation = Conversation(port)
    if not all(conversation.is_right(who, request) for who, request in turns):
        return False
    conversation.close()
    return conversation.failures <= 1


def connected(server: subprocess.Popen, port: int) -> bool:
    """Whether the server takes a connection before it ends."""
    while server.poll() is None:
        try:
            Client(port).close()
            return True
        except ConnectionRefusedError:
            time.sleep(0.002)
    return False


def serve_once(refuser: Refuser, what: str, turns: list, number: int) -> bool:
    """Whether the server that has one allocation or thread refused is right in these turns."""
    with socket.create_server(("127.0.0.1", 0)) as taken:
        port = taken.getsockname()[1]
    words = ["serve", f"127.0.0.1:{port}", "--workers", "3", "--cells", "4"]
    environment = refuser.environment(number, what)
    with subprocess.Popen([refuser.program, *words], env=environment, stdout=subprocess.PIPE, stderr=subprocess.DEVNULL) as server:
        try:
            if connected(server, port):
                return what == ALLOCATION and is_right_server(port, turns)
            return server.returncode == STATUS_OF_MEMORY and not server.stdout.read()
        except (Lost, ConnectionError, TimeoutError, ValueError):
            return False
        finally:
            server.kill()


def tried(refuser: Refuser, is_right: Callable[[int], bool]) -> tuple[int, list[int]]:
    """How many were refused in turn, until one was not come to, and in which of these runs something was wrong."""
    wrong: list[int] = []
    number = 0
    while True:
        number += 1
        right = is_right(number)
        if not refuser.was_refused():
            return number - 1, wrong
        if not right:
            wrong.append(number)


def main() -> int:
    """Tries all, and prints a line for each."""
    if len(sys.argv) != 2:
        print(__doc__, file=sys.stderr)
        return 2
    failed = False
    with tempfile.TemporaryDirectory() as folder:
        refuser = Refuser(str(Path(sys.argv[1]).resolve()), folder)
        plans = [(file.name, partial(is_right_run, refuser, file)) for file in sorted(ROOT.glob("examples/*.requests"))]
        plans += [(file.name, partial(is_right_script, refuser, file)) for file in sorted(ROOT.glob("examples/*.script"))]
        plans += [
            ("serve", partial(serve_once, refuser, ALLOCATION, TURNS)),
            ("serve with drops", partial(serve_once, refuser, ALLOCATION, DROPS)),
            ("threads of serve", partial(serve_once, refuser, THREAD, TURNS)),
        ]
        for name, is_right in plans:
            count, wrong = tried(refuser, is_right)
            print(f"{name}: {count} refused in turn, wrong: {wrong or 'none'}", flush=True)
            failed = failed or bool(wrong) or not count
    return int(failed)


if __name__ == "__main__":
    sys.exit(main())
