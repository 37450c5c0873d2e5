#!/usr/bin/env python3
"""Prints what memory the built program takes as a server, by its resident memory: at the start, for each cell that there may be,
for each that keeps a range without rows, for an idle connection, for each kind of write as long as it is among the last ones, for
a pair that stands, after many puts at a few keys, for each row that is kept, for each pair of which an aggregate is kept, and for
each range of stored pairs that a kept range was made of. It writes with the client of clients/python.

Usage: bench/memory.py PROGRAM
It wants Linux, whose /proc tells the memory of a process, and about 1 GB of memory.
"""
import pathlib
import socket
import subprocess
import sys
import time

sys.path.insert(0, str(pathlib.Path(__file__).resolve().parent.parent / "clients" / "python"))
import pequod  # noqa: E402

JOIN = "t|<user>|<time>|<poster> = check s|<user>|<poster> copy p|<poster>|<time>"
COUNT = "karma|<author> = count v|<author>|<voter>"
COPY = "e|<user>|<item> = copy f|<user>|<item>"
WRITES = 200_000
MANY_WRITES = 1_000_000
LAST = 60_000
BATCH = 5_000
EMPTY = 20_000
READERS = 200
POSTS = 5_000
AUTHORS = 200
VOTERS = 100
POSTERS = 100


class Server:
    """The program as a server, on a port that was free."""

    def __init__(self, path, *options):
        with socket.socket() as free:
            free.bind(("127.0.0.1", 0))
            self.port = free.getsockname()[1]
        self.process = subprocess.Popen([path, "serve", f"127.0.0.1:{self.port}", *options])
        self.connect().close()

    def connect(self):
        """A client, as soon as the server accepts one."""
        while True:
            try:
                return pequod.connect("127.0.0.1", self.port, 600)
            except ConnectionRefusedError:
                if self.process.poll() is not None:
                    sys.exit(f"the program ended with status {self.process.returncode}")
                time.sleep(0.02)

    def kilobytes(self, name="VmRSS"):
        """The memory now. What an earlier connection had may be let go only just now."""
        time.sleep(0.5)
        with open(f"/proc/{self.process.pid}/status", encoding="ascii") as status:
            return next(int(line.split()[1]) for line in status if line.startswith(f"{name}:"))

    def __enter__(self):
        return self

    def __exit__(self, *_):
        self.process.terminate()
        self.process.wait()


def do_all(client, make, count):
    """Does so many writes, and gives how many that were."""
    for first in range(0, count, BATCH):
        with client.pipeline() as pipeline:
            for number in range(first, min(first + BATCH, count)):
                make(pipeline, number)
    return count


def measure_start(path):
    print("at the start, resident and address space:")
    kilobytes = {}
    for options in ((), ("--workers", "64"), ("--cells", "65536")):
        with Server(path, *options) as server:
            kilobytes[options] = server.kilobytes()
            print(f"  {kilobytes[options]} kB and {server.kilobytes('VmSize')} kB with {' '.join(options) or 'no options'}")
    each = (kilobytes["--cells", "65536"] - kilobytes[()]) * 1024 / (65_536 - 1_024)
    print(f"each cell that there may be: {each:.0f} bytes")


def measure_cells(path):
    with Server(path, "--cells", "65536", "--rows", "1000000000") as server, server.connect() as client:
        client.join(COPY)
        client.scan_prefix("e|a|")
        before = server.kilobytes()
        for number in range(EMPTY):
            client.scan_prefix(f"e|{number:05}|")
        each = (server.kilobytes() - before) * 1024 / EMPTY
        print(f"a kept range without rows, made of one range of stored pairs: {each:.0f} bytes, over {EMPTY} ranges")


def measure_connections(path):
    with Server(path, "--workers", "64") as server:
        before = server.kilobytes()
        clients = [server.connect() for _ in range(64)]
        for client in clients:
            client.get("k|a")
        print(f"an idle connection: {(server.kilobytes() - before) / 64:.1f} kB")
        for number, client in enumerate(clients):
            client.put(f"k|{number}", "x" * 65_536)
        print(f"with 64 connections that each put 65,536 bytes, address space: {server.kilobytes('VmSize')} kB")
        for client in clients:
            client.close()


def measure_last_writes(path):
    kinds = (
        ("a put of a new key of 8 bytes and a value of 5", lambda to, number: to.put(f"k|{number + BATCH:06}", "value")),
        ("a put of 5 bytes at a key that stands", lambda to, number: to.put(f"k|{number % 1_000:06}", "other")),
        ("a put of 200 bytes at a key that stands", lambda to, number: to.put(f"k|{number % 1_000:06}", "x" * 200)),
        ("a remove", lambda to, number: to.remove(f"k|{number % 1_000:06}")),
    )
    for name, make in kinds:
        with Server(path) as server, server.connect() as client:
            do_all(client, lambda to, number: to.put(f"k|{number:06}", "value"), BATCH)
            before = server.kilobytes()
            count = do_all(client, make, LAST)
            each = (server.kilobytes() - before) * 1024 / count
            print(f"{name}, as long as it is among the last writes: {each:.0f} bytes")


def measure_pairs(path):
    with Server(path) as server, server.connect() as client:
        do_all(client, lambda to, number: to.put(f"k|{number:06}", "value"), WRITES)
        before = server.kilobytes()
        count = do_all(client, lambda to, number: to.put(f"k|{number + WRITES:06}", "value"), WRITES)
        each = (server.kilobytes() - before) * 1024 / count
        print(f"a pair that stands, with a key of 8 bytes and a value of 5, past the last writes: {each:.0f} bytes")


def measure_overwrites(path):
    with Server(path) as server, server.connect() as client:
        for done in range(WRITES, MANY_WRITES + 1, WRITES):
            clock = time.perf_counter()
            do_all(client, lambda to, number: to.put(f"k|{number % 1_000:06}", "other"), WRITES)
            rate = WRITES / (time.perf_counter() - clock)
            print(f"after {done} puts at 1,000 keys: {server.kilobytes()} kB; {rate:.0f} a second in pipelines of {BATCH}")


def measure_rows(path):
    with Server(path, "--cells", "65536", "--rows", "1000000000") as server, server.connect() as client:
        client.join(JOIN)
        do_all(client, lambda to, number: to.put(f"s|{number // 10:04}|{number % 10:04}", "1"), READERS * 10)
        do_all(client, lambda to, number: to.put(f"p|{number % 10:04}|{number:08}", "x" * 50), POSTS)
        before = server.kilobytes()
        rows = sum(len(client.scan_prefix(f"t|{reader:04}|")) for reader in range(READERS))
        each = (server.kilobytes() - before) * 1024 / rows
        print(f"a kept row of a key of 20 bytes and a copied value of 50: {each:.0f} bytes, over {rows} rows")


def measure_sources(path):
    with Server(path, "--cells", "65536", "--rows", "1000000000") as server, server.connect() as client:
        client.join(COUNT)
        votes = do_all(client, lambda to, number: to.put(f"v|{number % AUTHORS:04}|{number // AUTHORS:04}", "1"), AUTHORS * VOTERS)
        before = server.kilobytes()
        for author in range(AUTHORS):
            client.get(f"karma|{author:04}")
        each = (server.kilobytes() - before) * 1024 / votes
        print(f"a pair of which a count is kept, with a key of 11 bytes: {each:.0f} bytes, over {votes} pairs in {AUTHORS} counts")


def measure_ranges(path):
    with Server(path, "--cells", "65536", "--rows", "1000000000") as server, server.connect() as client:
        client.join(JOIN)

        def follow(to, number):
            to.put(f"s|{number % READERS:04}|{number // READERS:04}", "1")

        ranges = do_all(client, follow, READERS * POSTERS)
        before = server.kilobytes()
        for reader in range(READERS):
            client.scan_prefix(f"t|{reader:04}|")
        each = (server.kilobytes() - before) * 1024 / ranges
        what = "a range that a kept range was made of, that of a followed poster with no posts"
        print(f"{what}: {each:.0f} bytes, over {ranges} ranges")


MEASURES = (
    measure_start,
    measure_cells,
    measure_connections,
    measure_last_writes,
    measure_pairs,
    measure_overwrites,
    measure_rows,
    measure_sources,
    measure_ranges,
)


def main():
    if len(sys.argv) != 2:
        sys.exit(__doc__)
    for measure in MEASURES:
        measure(sys.argv[1])


if __name__ == "__main__":
    main()
