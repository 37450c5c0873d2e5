#!/usr/bin/env python3
"""Starts the built program as a server that may have 20 files open, opens 40 connections to it at once, and sends a put on each in
turn. It ends with status 1 where one is not answered as it should be, or where the server does not live on to serve one more and
then to end as it was told. It prints what the server took of the processor in a second in which it could accept nobody.

Usage: bench/doors.py PROGRAM
"""
import os
import resource
import socket
import subprocess
import sys
import time

FILES = 20
LINKS = 40
PATIENCE = 20


def limit_files():
    resource.setrlimit(resource.RLIMIT_NOFILE, (FILES, FILES))


def connect(address):
    """A connection to the server, which may not be up yet."""
    end = time.monotonic() + PATIENCE
    while True:
        try:
            return socket.create_connection(address, PATIENCE)
        except ConnectionRefusedError:
            if time.monotonic() > end:
                sys.exit("no server")
            time.sleep(0.02)


def wait_until_full(pid):
    """Waits until the server has as many files open as it may."""
    end = time.monotonic() + PATIENCE
    while len(os.listdir(f"/proc/{pid}/fd")) < FILES:
        if time.monotonic() > end:
            sys.exit(f"the server never had {FILES} files open, so nothing was tried")
        time.sleep(0.02)


def processor_seconds(pid):
    with open(f"/proc/{pid}/stat", encoding="ascii") as stat:
        fields = stat.read().rpartition(")")[2].split()
    return (int(fields[11]) + int(fields[12])) / os.sysconf("SC_CLK_TCK")


def serve(link, number):
    """Puts a pair on this connection, as the request of this number, and ends the connection."""
    with link:
        try:
            link.sendall(b'["put","k|%d","v"]\n["quit"]\n' % number)
            reply = b"".join(iter(lambda: link.recv(4_096), b""))
        except OSError as error:
            reply = str(error).encode()
    if not reply.startswith(b'["ok",%d]\n' % number):
        sys.exit(f"connection {number} of {LINKS} was answered {reply.decode()!r}")


def try_doors(server, address):
    links = [connect(address) for _ in range(LINKS)]
    wait_until_full(server.pid)
    before = processor_seconds(server.pid)
    time.sleep(1)
    waited = processor_seconds(server.pid) - before
    for number, link in enumerate(links, 1):
        serve(link, number)
    if server.poll() is not None:
        sys.exit(f"the server ended with status {server.returncode}")
    serve(connect(address), LINKS + 1)
    if server.wait(PATIENCE) != 0:
        sys.exit(f"the server ended with status {server.returncode} after its last connection")
    print(f"{LINKS} connections over {FILES} files were served; a second of waiting took {waited:.2f} s of the processor")


def main():
    if len(sys.argv) != 2:
        sys.exit("usage: bench/doors.py PROGRAM")
    with socket.socket() as free:
        free.bind(("127.0.0.1", 0))
        address = free.getsockname()
    words = [sys.argv[1], "serve", f"{address[0]}:{address[1]}", "--links", str(LINKS + 1)]
    server = subprocess.Popen(words, stdin=subprocess.DEVNULL, preexec_fn=limit_files)
    try:
        try_doors(server, address)
    finally:
        server.kill()
        server.wait()


if __name__ == "__main__":
    main()
