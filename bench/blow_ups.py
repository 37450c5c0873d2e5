#!/usr/bin/env python3
"""Measures small, valid input that once took much more time or memory than its size tells: reads after one more put, where a
kept range comes from many ranges of its sources; many changed pairs of a check at once; kept ranges that are brought forward
for one row; joins that read one range again and again; a read whose join has more ranges to read than may be kept.

Prints for each case the milliseconds of the processor that its first read takes, those of what follows, where something does,
and the peak memory, each the least of the rounds. Steps are counted in tests alone.

Usage: bench/blow_ups.py PROGRAM [--rounds N] [CASE..]
It wants Linux, whose /proc tells the processor time and the peak memory of a process.
"""
import argparse
import glob
import os
import socket
import subprocess
import sys
import threading
import time

ROOM = ["--cells", "65536", "--rows", "1000000000"]


def put(key, value="x"):
    return f'["put","{key}","{value}"]\n'


def get(key):
    return f'["get","{key}"]\n'


def scan(table):
    return f'["scan","{table}|","{table}}}"]\n'


def join(text):
    return f'["join","{text}"]\n'


class Process:
    """A running program, by what the system tells of it."""

    def __init__(self, words, **options):
        self.process = subprocess.Popen(words, **options)

    def nanoseconds(self):
        """The processor time of all threads so far."""
        total = 0
        for path in glob.glob(f"/proc/{self.process.pid}/task/*/schedstat"):
            with open(path, encoding="ascii") as stat:
                total += int(stat.read().split()[0])
        return total

    def peak(self):
        """The most memory that was resident so far, in kB."""
        with open(f"/proc/{self.process.pid}/status", encoding="ascii") as status:
            return next(int(line.split()[1]) for line in status if line.startswith("VmHWM"))


class Run(Process):
    """The program under `run`."""

    def __init__(self, path, options):
        super().__init__([path, "run", *options], stdin=subprocess.PIPE, stdout=subprocess.PIPE)

    def ask(self, lines):
        """Hands in all lines, and gives the last reply."""
        text = "".join(lines).encode()
        writer = threading.Thread(target=self._write, args=(text,))
        writer.start()
        reply = b""
        for _ in lines:
            reply = self.process.stdout.readline()
        writer.join()
        return reply.decode()

    def _write(self, text):
        self.process.stdin.write(text)
        self.process.stdin.flush()

    def cost(self, lines):
        """The nanoseconds that the lines take, and the last reply."""
        before = self.nanoseconds()
        reply = self.ask(lines)
        return self.nanoseconds() - before, reply

    def end(self):
        self.process.stdin.close()
        self.process.wait()


class Serve(Process):
    """The program under `serve`, with one connection."""

    def __init__(self, path, options):
        with socket.socket() as free:
            free.bind(("127.0.0.1", 0))
            port = free.getsockname()[1]
        super().__init__([path, "serve", f"127.0.0.1:{port}", "--workers", "1", *options])
        while True:
            try:
                self.link = socket.create_connection(("127.0.0.1", port))
                break
            except ConnectionRefusedError:
                time.sleep(0.01)
        self.replies = self.link.makefile("rb")

    def ask(self, lines):
        """Hands in all lines, and gives the last reply."""
        writer = threading.Thread(target=self.link.sendall, args=("".join(lines).encode(),))
        writer.start()
        reply = b""
        for _ in lines:
            reply = self.replies.readline()
        writer.join()
        return reply.decode()

    def cost(self, lines):
        """The nanoseconds that the lines take, and what the updater does afterwards, until nothing is done any more."""
        before = self.nanoseconds()
        reply = self.ask(lines)
        spent = self.nanoseconds()
        while True:
            time.sleep(0.1)
            now = self.nanoseconds()
            if now == spent:
                return now - before, reply
            spent = now

    def end(self):
        self.process.kill()
        self.process.wait()


def product(keys, table="a"):
    """Pairs of three tables of checks, a read of what stands for all of them, and one pair more in one of them."""
    stored = [join("z|<k> = check a|<x> check b|<y> check c|<z> copy v|<k>")]
    stored += [put(f"{name}|{number:03}") for name in "abc" for number in range(keys)] + [put("v|1")]
    return stored, [get("z|1")], [put(f"{table}|{keys:03}"), get("z|1")]


def wide(keys):
    """Pairs of three tables of checks, and a read that comes from more ranges than may be kept."""
    stored, first, _ = product(keys)
    return stored, first, []


def friends(followed):
    """Users of which each follows all others, a scan of one's friends of friends, and one whom this one follows besides."""
    users = [f"u{number:02}" for number in range(followed + 1)]
    stored = [join("f|<a>|<c> = check e|<a>|<b> check e|<b>|<c> copy n|<c>")]
    stored += [put(f"n|{user}") for user in users]
    stored += [put(f"e|{user}|{other}") for user in users for other in users if user != other]
    return stored, [scan("f|u00")], [put("e|u00|v"), scan("f|u00")]


def timelines(readers, followed):
    """Readers of whom each follows the same posters, their timelines, and one post more."""
    stored = [join("t|<user>|<time>|<poster> = check s|<user>|<poster> copy p|<poster>|<time>")]
    stored += [put(f"s|u{user:02}|p{poster:04}") for user in range(readers) for poster in range(followed)]
    return stored, [scan(f"t|u{user:02}") for user in range(readers)], [put("p|p0007|000001")]


def followers(count):
    """One table of timelines that is read whole, with so many followers, and as many more before the next read."""
    stored = [join("t|<user>|<time>|<poster> = check s|<user>|<poster> copy p|<poster>|<time>"), put("p|bob|000001")]
    stored += [put(f"s|u{user:05}|bob") for user in range(count)]
    more = [put(f"s|v{user:05}|bob") for user in range(count)]
    return stored, [scan("t")], [*more, scan("t")]


def leavers(count):
    """One table of timelines that is read whole, with so many followers, of whom all leave before one key is read."""
    stored = [join("t|<user>|<time>|<poster> = check s|<user>|<poster> copy p|<poster>|<time>"), put("p|bob|000001")]
    stored += [put(f"s|u{user:05}|bob") for user in range(count)]
    less = [f'["remove","s|u{user:05}|bob"]\n' for user in range(count)]
    return stored, [scan("t")], [*less, get("t|u00000|000001|bob")]


def covered(count, posts):
    """One table of timelines that is read whole, with so many followers, then as many more and some posts before one key is
    read."""
    stored, first, more = followers(count)
    more = [*more[:-1], *(put(f"p|bob|{number:06}") for number in range(2, 2 + posts))]
    return stored, first, [*more, get("t|u00001|000001|bob")]


def tower(ranks):
    """Joins that each read one key of the join before eight times and keep nothing."""
    stored = [put("t0|k")]
    for rank in range(1, ranks + 1):
        sources = " ".join(f"check t{rank - 1}|<k>" for _ in range(7))
        stored.append(join(f"t{rank}|<k> = pull {sources} copy t{rank - 1}|<k>"))
    return stored, [get(f"t{ranks}|k")], []


def fresh(count):
    """So many fresh keys, and a get of an absent one."""
    return [put(f"k|{number:06}") for number in range(count)], [get("k|absent")], []


# What is measured: how the program runs, what it is given, how many values the last reply has, and what that is.
CASES = {
    "product": (Run, ROOM, product(30), 1, "a product of three tables of 30 keys, and one key more"),
    "last-table": (Run, ROOM, product(30, "c"), 1, "the same, and one key more in the last of the three tables"),
    "large-product": (Run, [], product(60), 1, "a product of three tables of 60 keys with the default limits, and one key more"),
    "wide": (Run, [], wide(300), 1, "a product of three tables of 300 keys with the default limits"),
    "friends": (Run, ROOM, friends(70), 71, "friends of friends of 70, and one friend more"),
    "timelines": (Serve, ROOM, timelines(50, 2550), 0, "50 timelines of 2,550 posters, and one post that reaches all"),
    "followers": (Run, ROOM, followers(5000), 10_000, "5,000 rows under one poster, and 5,000 followers more"),
    "leavers": (Run, ROOM, leavers(5000), 0, "5,000 rows under one poster, and no follower more"),
    "covered": (Run, ROOM, covered(1000, 10), 1, "1,000 rows under one poster, 1,000 followers more and 10 posts, and one key"),
    "tower": (Run, ROOM, tower(6), 1, "six ranks, each of which reads the one below eight times"),
    "fresh": (Run, ROOM, fresh(200_000), 0, "200,000 fresh keys, and a get of an absent one"),
}


def measured(path, kind, options, steps, wanted):
    """The nanoseconds of the first read and of what follows, and the peak memory."""
    stored, first, more = steps
    program = kind(path, options)
    program.ask(stored)
    one, reply = program.cost(first)
    two, reply = program.cost(more) if more else (0, reply)
    memory = program.peak()
    program.end()
    if reply.count('"x"') != wanted:
        sys.exit(f"a wrong reply: {reply[:200]}")
    return one, two, memory


def main():
    reader = argparse.ArgumentParser(description=__doc__.split("\n\n", maxsplit=1)[0])
    reader.add_argument("program")
    reader.add_argument("--rounds", type=int, default=3)
    reader.add_argument("cases", nargs="*", metavar="case")
    given = reader.parse_intermixed_args()
    for name in given.cases or CASES:
        *case, text = CASES[name]
        rounds = [measured(given.program, *case) for _ in range(given.rounds)]
        first, second, memory = (min(one[place] for one in rounds) for place in range(3))
        then = f", then {second / 1e6:.1f} ms" if second else ""
        print(f"{name}: {text}: {first / 1e6:.1f} ms{then}, {memory} kB at the most", flush=True)


main()
