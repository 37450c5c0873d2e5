#!/usr/bin/env python3
"""Starts the built program as a server on a free port of this machine, for one connection, gives that the requests of standard
input, and writes the replies to standard output.

Usage: bench/through_link.py PROGRAM [OPTION..] < REQUESTS. It ends with the server's status.
"""
import socket
import subprocess
import sys
import time

# How often another port is tried where the server could not open one, and how long it is waited for.
PORTS = 20
SECONDS = 10


def free_port() -> int:
    """Returns a port that is free now."""
    with socket.socket() as probe:
        probe.bind(("127.0.0.1", 0))
        return probe.getsockname()[1]


def connect(server: subprocess.Popen, port: int) -> "socket.socket | None":
    """Returns a connection to the server, or None where it ended before."""
    end = time.monotonic() + SECONDS
    while server.poll() is None and time.monotonic() < end:
        try:
            return socket.create_connection(("127.0.0.1", port), timeout=SECONDS)
        except OSError:
            time.sleep(0.02)
    return None


def main() -> int:
    program, *options = sys.argv[1:]
    requests = sys.stdin.buffer.read()
    for _ in range(PORTS):
        port = free_port()
        words = [program, "serve", f"127.0.0.1:{port}", "--links", "1", *options]
        server = subprocess.Popen(words, stdin=subprocess.DEVNULL)
        link = connect(server, port)
        if link is None:
            if server.poll() == 8:
                continue
            server.kill()
            return server.wait()
        with link, link.makefile("rb") as replies:
            link.sendall(requests)
            link.shutdown(socket.SHUT_WR)
            sys.stdout.buffer.write(replies.read())
        return server.wait(timeout=SECONDS)
    return 8


if __name__ == "__main__":
    sys.exit(main())
