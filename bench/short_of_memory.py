#!/usr/bin/env python3
"""Runs the built program as a server that is short of memory, by a limit on its address space, and prints what it saw.

Usage: bench/short_of_memory.py PROGRAM [threads] [kept] [writes] [replies]
It does the parts that are named, or all.

Threads: servers of more and more workers under one limit. Each has to serve a connection for each worker, or to end with the
status of memory and never to take one.

Kept ranges: a server reads ranges that it keeps until one is answered `memory`. Then new connections get, put and read a range,
and ask again where that is answered `memory`. Some may be broken off while it lets go of what it keeps, but none of the last ones.

Writes: 16 connections put new keys until one is not answered `ok`. It prints how many were, and how many in a second.

Replies: 16 connections that each scan some 9.6 MB, twice one after another, then at once. It prints the resident memory before,
after each, and once they are closed, and the processor time of a scan.

Kept ranges, writes and replies are tried with settings of the C library's allocator and without.

It ends with status 1 where a server does otherwise than it has to. It wants Linux, and about 1 GB of memory.
"""
import itertools
import os
import pathlib
import resource
import socket
import subprocess
import sys
import time
from concurrent.futures import ThreadPoolExecutor

sys.path.insert(0, str(pathlib.Path(__file__).resolve().parent.parent / "clients" / "python"))
import pequod  # noqa: E402

PARTS = ("threads", "kept", "writes", "replies")
JOIN = "t|<user>|<time>|<poster> = check s|<user>|<poster> copy p|<poster>|<time>"
PATIENCE = 60
STATUS_OF_MEMORY = 6

THREADS_LIMIT = 400_000
KEPT_LIMIT = 400_000
POSTS = 1_000
USERS = 8_000
NEW_LINKS = 40
LAST_LINKS = 10
MOST_TRIES = 70

LINKS = 16
WRITE_LIMITS = (500_000, 220_000)
WRITE_RUNS = 3
PUTS_IN_ONE_GO = 100
PAIRS = 96_000
SETTINGS = (
    {},
    {"MALLOC_ARENA_MAX": "2"},
    {"MALLOC_ARENA_MAX": "1"},
    {"MALLOC_MMAP_THRESHOLD_": "1048576", "MALLOC_TRIM_THRESHOLD_": "1048576"},
    {"MALLOC_ARENA_MAX": "2", "MALLOC_MMAP_THRESHOLD_": "1048576", "MALLOC_TRIM_THRESHOLD_": "1048576"},
)


class Server:
    """The program as a server, on a port that was free, under a limit in kB, if one is given."""

    def __init__(self, path, *options, limit=None, settings=None):
        with socket.socket() as free:
            free.bind(("127.0.0.1", 0))
            self.port = free.getsockname()[1]
        words = [path, "serve", f"127.0.0.1:{self.port}", *options]
        environment = {**os.environ, **(settings or {})}

        def keep_to_limit():
            if limit:
                resource.setrlimit(resource.RLIMIT_AS, (limit * 1_024, limit * 1_024))

        self.process = subprocess.Popen(words, env=environment, stderr=subprocess.DEVNULL, preexec_fn=keep_to_limit)

    def is_up(self):
        """Whether it takes a connection before it ends."""
        end = time.monotonic() + PATIENCE
        while self.process.poll() is None and time.monotonic() < end:
            try:
                socket.create_connection(("127.0.0.1", self.port), PATIENCE).close()
                return True
            except ConnectionRefusedError:
                time.sleep(0.02)
        return False

    def connect(self):
        return pequod.connect("127.0.0.1", self.port, PATIENCE)

    def kilobytes(self):
        """The resident memory now. What an earlier connection had may be let go only just now."""
        time.sleep(0.5)
        with open(f"/proc/{self.process.pid}/status", encoding="ascii") as status:
            return next(int(line.split()[1]) for line in status if line.startswith("VmRSS:"))

    def processor_seconds(self):
        """The processor time so far, of the program and of the system for it."""
        with open(f"/proc/{self.process.pid}/stat", encoding="ascii") as stat:
            fields = stat.read().rpartition(")")[2].split()
        return (int(fields[11]) + int(fields[12])) / os.sysconf("SC_CLK_TCK")

    def __enter__(self):
        return self

    def __exit__(self, *_):
        self.process.kill()
        self.process.wait()


def put_all(client, pairs):
    """Puts the pairs, some thousand in one go."""
    pairs = list(pairs)
    for first in range(0, len(pairs), 5_000):
        with client.pipeline() as pipeline:
            for key, value in pairs[first : first + 5_000]:
                pipeline.put(key, value)


def try_threads(path):
    print(f"threads, under a limit of {THREADS_LIMIT} kB:")
    for workers in (4, 16, 32, 48, 64):
        with Server(path, "--workers", str(workers), limit=THREADS_LIMIT) as server:
            if not server.is_up():
                status = server.process.wait(PATIENCE)
                if status != STATUS_OF_MEMORY:
                    sys.exit(f"a server with {workers} workers took no connection and ended with status {status}")
                print(f"  {workers} workers: status {status}, and no connection was taken")
                continue
            clients = [server.connect() for _ in range(workers)]
            answered = sum(is_answered(client, lambda it: it.get("k|a")) for client in clients)
            if answered < workers:
                sys.exit(f"a server with {workers} workers took connections and answered {answered} of as many")
            print(f"  {workers} workers: as many connections were answered at once")
            for client in clients:
                client.close()


def is_answered(client, ask):
    """Whether a request is answered, and not by `memory` or by an end of the connection."""
    try:
        ask(client)
        return True
    except (pequod.OutOfMemory, pequod.LinkLost):
        return False


def read_range(client, user):
    return len(client.scan_prefix(f"t|{user:04}|"))


def fill(client):
    """Reads one range after another until one is answered `memory`, and gives how many were read before."""
    for user in range(USERS):
        if not is_answered(client, lambda it: read_range(it, user)):
            return user
    sys.exit(f"{USERS} ranges fit the limit, so nothing was tried")


def ask_again(ask, client):
    """Asks until the answer is another than `memory`, and gives how often it was that. Each time the server lets go of more."""
    for number in range(MOST_TRIES):
        if number:
            time.sleep(0.01)
        try:
            return number, ask(client)
        except pequod.OutOfMemory:
            pass
    sys.exit(f"a request was answered memory {MOST_TRIES} times")


def serve_new(server, number):
    """What becomes of a new connection that gets, puts and reads a range."""
    try:
        with server.connect() as client:
            asked = (lambda it: it.get("p|0|0"), lambda it: it.put(f"q|{number}", "x"), lambda it: read_range(it, number))
            tries = [ask_again(ask, client) for ask in asked]
            if tries[-1][1] != POSTS:
                sys.exit(f"connection {number} read a range wrongly")
            return "answered after memory" if any(refused for refused, _ in tries) else "answered"
    except (pequod.LinkLost, ConnectionError):
        return "broken off"


def try_kept(path, settings):
    """Whether the last of the new connections were answered."""
    options = ("--workers", "8", "--cells", "65536", "--rows", "1000000000")
    with Server(path, *options, limit=KEPT_LIMIT, settings=settings) as server:
        if not server.is_up():
            sys.exit("the server for kept ranges did not start")
        client = server.connect()
        client.join(JOIN)
        put_all(client, ((f"p|0|{number:06}", "x" * 20) for number in range(POSTS)))
        put_all(client, ((f"s|{user:04}|0", "1") for user in range(USERS)))
        read = fill(client)
        client.close()
        ends = [serve_new(server, number) for number in range(NEW_LINKS)]
        counts = ", ".join(f"{ends.count(end)} {end}" for end in ("answered", "answered after memory", "broken off"))
        print(f"kept ranges, under a limit of {KEPT_LIMIT} kB, {named(settings)}:")
        print(f"  {read} ranges of {POSTS} rows until one was answered memory; of {NEW_LINKS} new connections {counts}", flush=True)
        is_right = "broken off" not in ends[-LAST_LINKS:]
        if not is_right:
            print(f"  wrong: of the last {LAST_LINKS} some were broken off, and the server lives")
        return is_right


def replies_to(reader):
    """The replies to the puts that were sent to a link last. Those that did not come before it was broken off are missing."""
    try:
        return [reply for reply in (reader.readline() for _ in range(PUTS_IN_ONE_GO)) if reply]
    except ConnectionError:
        return []


def send_puts(link, keys):
    """Puts new keys, some in one go."""
    puts = (f'["put","k|{next(keys):08}","value"]\n' for _ in range(PUTS_IN_ONE_GO))
    try:
        link.sendall("".join(puts).encode())
    except ConnectionError:
        pass


def count_writes(server):
    """How many puts are acknowledged, over all connections at once, until one is not, whether that was for an end of its link, and
    in how many seconds."""
    links = [socket.create_connection(("127.0.0.1", server.port), PATIENCE) for _ in range(LINKS)]
    readers = [link.makefile("rb") for link in links]
    keys, count, begun = itertools.count(), 0, time.perf_counter()
    wanted = LINKS * PUTS_IN_ONE_GO
    good = wanted
    while good == wanted:
        for link in links:
            send_puts(link, keys)
        replies = [reply for reader in readers for reply in replies_to(reader)]
        good = sum(reply.startswith(b'["ok",') for reply in replies)
        count += good
    for it in readers + links:
        it.close()
    return count, len(replies) < wanted, time.perf_counter() - begun


def measure_writes(path, settings):
    for limit in WRITE_LIMITS:
        told = []
        for _ in range(WRITE_RUNS):
            with Server(path, "--workers", str(LINKS), limit=limit, settings=settings) as server:
                if not server.is_up():
                    sys.exit("the server for writes did not start")
                count, is_lost, seconds = count_writes(server)
                how = ", and a link was broken off" if is_lost else ""
                told.append(f"{count:,} ({count / seconds:,.0f} a second{how})")
        print(f"writes, under a limit of {limit} kB, {named(settings)}: {', '.join(told)}", flush=True)


def scan_all(link):
    """Reads the reply to a scan of all posts, and lets it go."""
    link.sendall(b'["scan","p|","p}"]\n')
    piece = b""
    while not piece.endswith(b"\n"):
        piece = link.recv(1 << 20)
        if not piece:
            sys.exit("a connection that scanned was broken off")


def measure_replies(path, settings):
    with Server(path, "--workers", str(LINKS), settings=settings) as server:
        if not server.is_up():
            sys.exit("the server for replies did not start")
        with server.connect() as client:
            put_all(client, ((f"p|{number:08}", "x" * 80) for number in range(PAIRS)))
        before = server.kilobytes()
        links = [socket.create_connection(("127.0.0.1", server.port), PATIENCE) for _ in range(LINKS)]
        begun = server.processor_seconds()
        for link in links * 2:
            scan_all(link)
        each = (server.processor_seconds() - begun) / (2 * LINKS)
        afterwards = server.kilobytes() - before
        with ThreadPoolExecutor(LINKS) as at_once:
            list(at_once.map(scan_all, links))
        most = server.kilobytes() - before
        for link in links:
            link.close()
        closed = server.kilobytes() - before
        print(f"replies, {named(settings)}: {before} kB before; {LINKS} connections scanned {PAIRS} pairs each")
        print(f"  {afterwards} kB more when they had done so one after another, {most} kB more when they had done so at once,")
        print(f"  {closed} kB more when they were closed; {each * 1000:.0f} ms of processor time for a scan", flush=True)


def named(settings):
    return " ".join(f"{name}={value}" for name, value in settings.items()) or "no settings"


def main():
    parts = sys.argv[2:] or PARTS
    if len(sys.argv) < 2 or not set(parts) <= set(PARTS):
        sys.exit(__doc__)
    path, is_right = sys.argv[1], True
    if "threads" in parts:
        try_threads(path)
    for settings in SETTINGS if "kept" in parts else ():
        is_right = try_kept(path, settings) and is_right
    for settings in SETTINGS if "writes" in parts else ():
        measure_writes(path, settings)
    for settings in SETTINGS if "replies" in parts else ():
        measure_replies(path, settings)
    return 0 if is_right else 1


if __name__ == "__main__":
    sys.exit(main())
