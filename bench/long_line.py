#!/usr/bin/env python3
"""Feeds the built program a line of 524,288 bytes and one of 1,048,576, one byte in each read, five times each, and prints the
seconds of the processor that each run took, and from the least of the five how the cost grows.

The bytes come through a socket that keeps the bounds of packets, of which a read gives one, and each packet is one byte.

Usage: bench/long_line.py PROGRAM
"""
import os
import socket
import subprocess
import sys

GET = b'["get","k|a"]'
REPLY = b'["none",0]\n'


def cost(program, length):
    """The seconds of the processor that the program takes for a get with spaces behind it, of so many bytes in all."""
    ours, theirs = socket.socketpair(socket.AF_UNIX, socket.SOCK_SEQPACKET)
    run = subprocess.Popen([program, "run"], stdin=theirs, stdout=subprocess.PIPE)
    theirs.close()
    for byte in GET.ljust(length) + b"\n":
        ours.send(bytes([byte]))
    ours.close()
    reply = run.stdout.read()
    _, status, usage = os.wait4(run.pid, 0)
    if status != 0 or reply != REPLY:
        sys.exit(f"{length} bytes: a wrong reply, {reply}")
    return usage.ru_utime + usage.ru_stime


def main():
    if len(sys.argv) != 2:
        sys.exit("usage: bench/long_line.py PROGRAM")
    least = []
    for length in (524_288, 1_048_576):
        seconds = [cost(sys.argv[1], length) for _ in range(5)]
        print(f"{length} bytes:", ", ".join(f"{second:.3f}" for second in seconds), "s of the processor")
        least.append(min(seconds))
    growth = least[1] / least[0]
    print(f"the longer line costs {growth:.2f} times the shorter (at most 2.5 is wanted)")
    sys.exit(growth > 2.5)


if __name__ == "__main__":
    main()
