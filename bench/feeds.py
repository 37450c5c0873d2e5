#!/usr/bin/env python3
"""Measures what a request for changes costs beside a get and a scan, by the processor time of the built program: over a kept
timeline of 10,000 rows in which one row changed since, and over one of which nothing is kept, since its join is evaluated at each
read. The time of the puts between is taken off. Prints microseconds a request, the least of three rounds, and the ratios.

Usage: bench/feeds.py PROGRAM
It wants Linux, whose /proc tells the processor time of a process.
"""
import json
import sys

from looks import Program, put

KEPT = "t|<user>|<time>|<poster> = check s|<user>|<poster> copy p|<poster>|<time>"
UNKEPT = KEPT.replace("t|", "u|", 1).replace("=", "= pull", 1)
POSTERS = POSTS = 100
ROUNDS = 3
REQUESTS, SCANS = 2_000, 20


def timeline():
    """A reader who follows posters, each of whom has posts."""
    yield json.dumps(["join", KEPT]) + "\n"
    yield json.dumps(["join", UNKEPT]) + "\n"
    yield from (put(f"s|reader|poster{poster:02}", "1") for poster in range(POSTERS))
    yield from (post(number, "first") for number in range(POSTERS * POSTS))


def post(number, value):
    return put(f"p|poster{number % POSTERS:02}|{number // POSTERS % POSTS:08}", value)


def get(number):
    return f'["get","t|reader|{number // POSTERS % POSTS:08}|poster{number % POSTERS:02}"]\n'


def scan(table):
    return f'["scan","{table}|reader|","{table}|reader}}"]\n'


def changes(table, position):
    return f'["changes","{table}|reader|","{table}|reader}}",{position}]\n'


def position_of(reply):
    return json.loads(reply)[1]


class Rounds:
    """Rounds of puts, each followed by a request or by none."""

    def __init__(self, program):
        self.program = program
        self.position = position_of(program.ask(list(timeline())))
        program.ask([scan("t")])

    def cost(self, count, request=None):
        """Microseconds for each put and what `request` gives for its number and the position before it."""
        lines = []
        for number in range(count):
            lines.append(post(number * 7, f"at {self.position}"))
            if request is not None:
                lines.extend(request(number * 7, self.position))
            self.position += 1
        return self.program.cost(lines) / count * 1e6

    def expect_one(self, table):
        """Ends the script where one put is not told as one change."""
        asked = [post(0, f"at {self.position}"), changes(table, self.position)]
        self.position += 1
        told = json.loads(self.program.ask(asked))
        if told[1:3] != [self.position - 1, self.position] or [value for _, value in told[3]] != [f"at {self.position - 1}"]:
            sys.exit(f"one change was told as {told}")

    def least(self, count, request):
        """The least of some rounds, without the puts."""
        return min(self.cost(count, request) - self.cost(count) for _ in range(ROUNDS))


def main():
    if len(sys.argv) != 2:
        sys.exit(__doc__)
    rounds = Rounds(Program(sys.argv[1]))
    rounds.expect_one("t")
    rounds.expect_one("u")
    costs = {
        "a get in the kept timeline": rounds.least(REQUESTS, lambda number, position: [get(number)]),
        "changes of the kept timeline": rounds.least(REQUESTS, lambda number, position: [changes("t", position)]),
        "a scan of the one that is not kept": rounds.least(SCANS, lambda number, position: [scan("u")]),
        "changes of the one that is not kept": rounds.least(SCANS, lambda number, position: [changes("u", position)]),
    }
    for name, cost in costs.items():
        print(f"{cost:12,.1f}  {name}")
    get_cost, feed, scan_cost, whole = costs.values()
    print(f"{feed / get_cost:12.2f}  changes to a get, where the timeline is kept; it is to be under 3")
    print(f"{whole / scan_cost:12.2f}  changes to a scan, where it is not; it is to be about 2")


if __name__ == "__main__":
    main()
