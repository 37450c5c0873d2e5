#!/usr/bin/env python3
"""Measures what a read of a kept range of 100 rows costs, by the processor time of the built program, among 1,000 and among
1,000,000 stored pairs: where nothing was written since the last read, where a pair was put that the range reads, and where a
pair of the same table was put that it does not read. The time of the puts is taken off. Prints microseconds a read, the least
of three rounds, and the ratios.

Usage: bench/looks.py PROGRAM
It wants Linux, whose /proc tells the processor time of a process.
"""
import os
import subprocess
import sys
import threading

JOIN = "t|<user>|<time>|<poster> = check s|<user>|<poster> copy p|<poster>|<time>"
LOOK = '["scan","t|reader|","t|reader}"]\n'
ROWS = 100
ROUNDS = 3
READS = 10_000
TICKS = os.sysconf("SC_CLK_TCK")


class Program:
    """The program under `run`, with room for all that it may keep."""

    def __init__(self, path):
        words = [path, "run", "--cells", "65536", "--rows", "1000000000"]
        self.process = subprocess.Popen(words, stdin=subprocess.PIPE, stdout=subprocess.PIPE)

    def ask(self, lines):
        """Hands in all lines, and gives the last reply."""
        text = "".join(lines).encode()
        writer = threading.Thread(target=self._write, args=(text,))
        writer.start()
        reply = b""
        for _ in lines:
            reply = self.process.stdout.readline()
        writer.join()
        return reply.decode()

    def _write(self, text):
        self.process.stdin.write(text)
        self.process.stdin.flush()

    def seconds(self):
        """The processor time so far."""
        with open(f"/proc/{self.process.pid}/stat", encoding="ascii") as stat:
            fields = stat.read().rpartition(")")[2].split()
        return (int(fields[11]) + int(fields[12])) / TICKS

    def cost(self, lines):
        """The seconds that the lines take."""
        before = self.seconds()
        self.ask(lines)
        return self.seconds() - before


def put(key, value):
    return f'["put","{key}","{value}"]\n'


def stored(count):
    """So many pairs of other users and posters."""
    for number in range(count):
        one, other = number // 2 % 5_000, number // 10_000
        yield put(f"s|{one:04}|{other:04}", "1") if number % 2 else put(f"p|{one:04}|{number:08}", "a post")


def timeline():
    """A reader who follows 10 posters, each of whom has 10 posts."""
    yield from (put(f"s|reader|poster{poster}", "1") for poster in range(10))
    yield from (post(number, "first") for number in range(ROWS))


def post(number, value):
    return put(f"p|poster{number % 10}|{number % ROWS:08}", value)


def other_post(number, value):
    return put(f"p|0000|{number % ROWS:08}", value)


def measure(path, count):
    """Microseconds a read: with nothing written, a put that is read, a put that is not."""
    program = Program(path)
    program.ask([f'["join","{JOIN}"]\n', *stored(count), *timeline()])
    if program.ask([LOOK]).count('"t|') != ROWS:
        sys.exit("a read was not answered with the rows of its timeline")
    looks = [LOOK] * READS
    still = min(program.cost(looks) for _ in range(ROUNDS))
    times = [still]
    for made in (post, other_post):
        puts = [made(number, f"post {number}") for number in range(READS)]
        both = [line for pair in zip(puts, looks) for line in pair]
        program.ask([LOOK])
        times.append(min(program.cost(both) - program.cost(puts) for _ in range(ROUNDS)))
    program.process.stdin.close()
    program.process.wait()
    return [time / READS * 1e6 for time in times]


def main():
    if len(sys.argv) != 2:
        sys.exit(__doc__)
    few, many = (measure(sys.argv[1], count) for count in (1_000, 1_000_000))
    for count, (still, read, unread) in ((1_000, few), (1_000_000, many)):
        after = f"{read:.1f} after a put that it reads, {unread:.1f} after one that it does not"
        print(f"{count} pairs: {still:.1f} us a read, {after}")
    print(f"among 1,000,000 pairs a read costs {many[0] / few[0]:.2f} times one among 1,000 (at most 1.5 is wanted)")
    read, unread = (many[place] / many[0] for place in (1, 2))
    print(f"after a put that it reads {read:.2f} times, and after another {unread:.2f} times (at most 2 are wanted)")


if __name__ == "__main__":
    main()
