#!/usr/bin/env python3
"""How a want of --rows shows from outside: milliseconds of a scan of a kept timeline, for a value of --rows that holds all timelines
and for one that holds half of them. 400 timelines of 200 rows each are read at random; what is printed is, for each value, what the
fastest tenth, the median and the slowest tenth of these scans took at most or at least, and the same of the scan of a look, as
`python3 -m pequod metrics --scan` asks it after every 400 of them.

Usage: bench/rows.py PROGRAM [--rounds N]
"""
import argparse
import pathlib
import random
import subprocess
import sys
import time

CLIENT = pathlib.Path(__file__).resolve().parent.parent / "clients" / "python"
sys.path.insert(0, str(CLIENT))
from pequod.probing import Probe  # noqa: E402
import pequod  # noqa: E402
from serving import HOST, free_port  # noqa: E402

USERS, POSTERS, POSTS, FOLLOWED = 400, 50, 20, 10
JOIN = "t|<user>|<time:6>|<poster> = check s|<user>|<poster> copy p|<poster>|<time:6>"


def filled(client, draw):
    """Declares the join and puts all posts and subscriptions."""
    client.join(JOIN)
    client.put_many((f"p|b{poster}|{number * 7 + poster:06}", "x" * 20) for poster in range(POSTERS) for number in range(POSTS))
    client.put_many((f"s|u{user}|b{poster}", "1") for user in range(USERS) for poster in draw.sample(range(POSTERS), FOLLOWED))


def tenths(seconds):
    found = sorted(seconds)
    return " ".join(f"{found[len(found) * part // 10] * 1000:8.2f}" for part in (1, 5, 9))


def measured(program, rows, rounds):
    """The seconds of each scan, and of the scan of each look."""
    port = free_port()
    process = subprocess.Popen([program, "serve", f"{HOST}:{port}", "--cells", "4096", "--rows", str(rows)])
    try:
        time.sleep(1)
        draw, reads, looks = random.Random(1), [], []
        probe = Probe(HOST, port, "p|b1|000001", "t|u1|", 60)
        with pequod.connect(HOST, port, 60) as client:
            filled(client, draw)
            for _ in range(rounds):
                for user in draw.sample(range(USERS), USERS):
                    begun = time.perf_counter()
                    client.scan_prefix(f"t|u{user}|")
                    reads.append(time.perf_counter() - begun)
                looks.append(probe.look().seconds[2])
        return reads, looks
    finally:
        process.terminate()
        process.wait()


def main():
    words = argparse.ArgumentParser(description=__doc__, formatter_class=argparse.RawDescriptionHelpFormatter)
    words.add_argument("program")
    words.add_argument("--rounds", type=int, default=25)
    options = words.parse_args()
    for rows in 100_000, 40_000, 100_000, 40_000:
        reads, looks = measured(options.program, rows, options.rounds)
        print(f"--rows {rows:6}: scans {tenths(reads)} ms, looks {tenths(looks)} ms", flush=True)


if __name__ == "__main__":
    main()
