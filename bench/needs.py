#!/usr/bin/env python3
"""Measures what a read costs after one put, where a kept range comes from many ranges of its sources, each of which is found
again: in a product of three tables of 30 keys, and among friends of friends of which each follows 70. Prints the milliseconds
of the processor that the first read takes and those that the read after the put takes, the least of three rounds, and whether
the second is within three times the first. It ends with 1 where one is not.

Usage: bench/needs.py PROGRAM
It wants Linux, whose /proc tells the processor time of a process.
"""
import glob
import subprocess
import sys
import threading

ROUNDS = 3
LIMIT = 3.0
TABLE_KEYS = 30
FOLLOWED = 70


class Program:
    """The program under `run`, with room for all that it may keep."""

    def __init__(self, path):
        words = [path, "run", "--rows", "1000000000"]
        self.process = subprocess.Popen(words, stdin=subprocess.PIPE, stdout=subprocess.PIPE)

    def ask(self, lines):
        """Hands in all lines, and gives the last reply."""
        text = "".join(lines).encode()
        writer = threading.Thread(target=self._write, args=(text,))
        writer.start()
        reply = b""
        for _ in lines:
            reply = self.process.stdout.readline()
        writer.join()
        return reply.decode()

    def _write(self, text):
        self.process.stdin.write(text)
        self.process.stdin.flush()

    def nanoseconds(self):
        """The processor time of all threads so far."""
        total = 0
        for path in glob.glob(f"/proc/{self.process.pid}/task/*/schedstat"):
            with open(path, encoding="ascii") as stat:
                total += int(stat.read().split()[0])
        return total

    def read(self, line):
        """The nanoseconds that a read takes, and its reply."""
        before = self.nanoseconds()
        reply = self.ask([line])
        return self.nanoseconds() - before, reply

    def end(self):
        self.process.stdin.close()
        self.process.wait()


def put(key):
    return f'["put","{key}","x"]\n'


def product():
    """Pairs of three tables of checks, a read of what stands for all of them, and one pair more."""
    lines = ['["join","z|<k> = check a|<x> check b|<y> check c|<z> copy v|<k>"]\n']
    lines += [put(f"{table}|{number:02}") for table in "abc" for number in range(TABLE_KEYS)]
    lines.append(put("v|1"))
    return lines, '["get","z|1"]\n', put(f"a|{TABLE_KEYS:02}"), 1


def friends():
    """Users of which each follows all others, a scan of one's friends of friends, and one whom this one follows besides."""
    users = [f"u{number:02}" for number in range(FOLLOWED + 1)]
    lines = ['["join","f|<a>|<c> = check e|<a>|<b> check e|<b>|<c> copy n|<c>"]\n']
    lines += [put(f"n|{user}") for user in users]
    lines += [put(f"e|{user}|{other}") for user in users for other in users if user != other]
    return lines, '["scan","f|u00|","f|u00}"]\n', put("e|u00|v"), len(users)


def counted(reply):
    """How many values a reply has."""
    return reply.count('"x"')


def measured(path, lines, read, more, wanted):
    """The nanoseconds of the read before the last put and of that after it."""
    program = Program(path)
    program.ask(lines)
    first, before = program.read(read)
    program.ask([more])
    second, after = program.read(read)
    program.end()
    if counted(before) != wanted or counted(after) != wanted:
        sys.exit(f"a wrong reply: {before[:200]} and then {after[:200]}")
    return first, second


def main():
    if len(sys.argv) != 2:
        sys.exit(__doc__)
    within = True
    for name, case in (("a product of three tables", product()), ("friends of friends", friends())):
        rounds = [measured(sys.argv[1], *case) for _ in range(ROUNDS)]
        first = min(one for one, _ in rounds)
        second = min(other for _, other in rounds)
        fits = second <= LIMIT * first
        within = within and fits
        print(
            f"{name}: {first / 1e6:.1f} ms at first, {second / 1e6:.1f} ms after a put, {second / first:.2f} times as long: "
            f"{'within' if fits else 'NOT within'} {LIMIT:g} times",
            flush=True,
        )
    sys.exit(0 if within else 1)


main()
