#!/usr/bin/env python3
"""Prints, ten times while a connection overwrites 1,000 keys at a steady rate, how many overwrites there were and the resident
memory of the built program as a server; and how long a put of another connection took meanwhile, of which there are a hundred each
second. Nothing that the last writes do not need is to stay, so the memory is to be flat after the first tenth.

Usage: bench/overwrites.py PROGRAM [--seconds 600] [--rate 10000]
It wants Linux, whose /proc tells the memory of a process. It writes with the client of clients/python.
"""
import argparse
import sys
import threading
import time

from memory import Server

KEYS = 1_000
PAUSE = 0.01


def overwrite(server, rate, seconds):
    """Puts at a few keys in turns, as many each second, with those of one pause in one go."""
    start, done = time.monotonic(), 0
    with server.connect() as client:
        while (passed := time.monotonic() - start) < seconds:
            due = int(passed * rate)
            with client.pipeline() as pipeline:
                for number in range(done, due):
                    pipeline.put(f"k|{number % KEYS}", f"value {number}")
            done = due
            time.sleep(PAUSE)


def put_now_and_then(server, seconds, took):
    """Adds the seconds of each put."""
    start = time.monotonic()
    with server.connect() as client:
        while time.monotonic() - start < seconds:
            before = time.perf_counter()
            client.put("other|1", "x")
            took.append(time.perf_counter() - before)
            time.sleep(PAUSE)


def watch(server, seconds):
    """Prints ten lines, one in each tenth of the time."""
    start = time.monotonic()
    with server.connect() as client:
        for tenth in range(1, 11):
            time.sleep(max(0, start + tenth * seconds / 10 - 1 - time.monotonic()))
            client.get("k|0")
            print(f"{time.monotonic() - start:6,.0f} s {client.position:11,} writes {server.kilobytes():9,} kB", flush=True)


def main():
    words = argparse.ArgumentParser(description=__doc__.splitlines()[0])
    words.add_argument("program")
    words.add_argument("--seconds", type=int, default=600)
    words.add_argument("--rate", type=int, default=10_000)
    given = words.parse_args()
    took = []
    with Server(given.program) as server:
        threads = [
            threading.Thread(target=overwrite, args=(server, given.rate, given.seconds)),
            threading.Thread(target=put_now_and_then, args=(server, given.seconds, took)),
        ]
        for thread in threads:
            thread.start()
        watch(server, given.seconds)
        for thread in threads:
            thread.join()
    took.sort()
    for share in (0.5, 0.99, 0.999):
        print(f"{share:.1%} of the puts took at most {took[int(len(took) * share)] * 1e3:.2f} ms")


if __name__ == "__main__":
    main()
