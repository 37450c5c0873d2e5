#!/usr/bin/env python3
"""Prints what a relay costs and bounds, each figure with the load of the machine when it was taken (as `uptime` gives it).

Usage: bench/relay.py PROGRAM [PART..] [--seconds S] [--rounds N]
PROGRAM is the built program. The parts, all unless given:
  clients  200 clients that send one line at a time, and 16: lines a second, and the time of an exchange; the relay's processor time
  latency  4 clients that send one line at a time, straight to the server and over a relay, in turns
  memory   the relay's resident memory with no client, with 200 and with 900 that have asked
  slow     what others have of a client that reads nothing, of one that scans a megabyte again and again, and of one that puts
           60 kB again and again without reading
  tls      200 clients over TLS 1.3 with certificates, and the relay's memory
A fifth of the lines are puts, the others gets, of values of 30 bytes. All is over loopback, with three links, and with the clients
in this one process, which takes processor time too.
"""
import argparse
import contextlib
import os
import pathlib
import random
import resource
import select
import socket
import ssl
import statistics
import sys
import tempfile
import time

FOLDER = pathlib.Path(__file__).resolve().parent.parent / "clients" / "python"
sys.path.insert(0, str(FOLDER))
LINKS = 3
WORKERS = 12
FILES = 4_096
GETS = 6
BIG_PAIRS, BIG_VALUE = 10_000, "v" * 80
SCAN = b'["scan","big|","big}"]\n'


def load():
    return f"load {os.getloadavg()[0]:.1f}"


def at(times, share):
    """The time below which that share of all lies, in milliseconds."""
    return sorted(times)[min(int(len(times) * share), len(times) - 1)] * 1e3


def block(chance, lines):
    """So many lines, of which a fifth are puts."""
    made = []
    for _ in range(lines):
        key = chance.randrange(1_000)
        is_put = chance.random() < 0.2
        made.append(b'["put","g|%d","some value of thirty bytes, so"]\n' % key if is_put else b'["get","g|%d"]\n' % key)
    return b"".join(made)


def connect(port, context=None):
    link = socket.create_connection(("127.0.0.1", port), 60)
    link.setsockopt(socket.IPPROTO_TCP, socket.TCP_NODELAY, 1)
    return link if context is None else context.wrap_socket(link, server_hostname="localhost")


def received(link):
    """What is there to read, at least a byte, and over TLS all that was decrypted."""
    data = link.recv(1 << 16)
    if not data:
        sys.exit("a connection ended")
    while isinstance(link, ssl.SSLSocket) and link.pending():
        data += link.recv(1 << 16)
    return data


def drive(port, clients, lines, seconds, context=None):
    """Clients that each send so many lines at once, wait for all replies, and do so again: how many replies came a second, and the
    times of the exchanges."""
    chance = random.Random(1)
    blocks = [block(chance, lines) for _ in range(50)]
    links = {}
    poll = select.epoll()
    for _ in range(clients):
        link = connect(port, context)
        links[link.fileno()] = link
        poll.register(link.fileno(), select.EPOLLIN)
    begun, left, times, begin = {}, {}, [], time.perf_counter()
    for number, link in links.items():
        begun[number], left[number] = time.perf_counter(), lines
        link.sendall(chance.choice(blocks))
    while time.perf_counter() < begin + seconds:
        for number, _ in poll.poll(1):
            left[number] -= received(links[number]).count(b"\n")
            if left[number] == 0:
                now = time.perf_counter()
                times.append(now - begun[number])
                begun[number], left[number] = now, lines
                links[number].sendall(chance.choice(blocks))
    taken = time.perf_counter() - begin
    poll.close()
    for link in links.values():
        link.close()
    return len(times) * lines / taken, times


def processor_seconds(pid):
    fields = pathlib.Path(f"/proc/{pid}/stat").read_text(encoding="ascii").rpartition(")")[2].split()
    return (int(fields[11]) + int(fields[12])) / os.sysconf("SC_CLK_TCK")


def many(relay, seconds, context=None):
    for lines in 1, 16:
        before = processor_seconds(relay.process.pid)
        rate, times = drive(relay.port, 200, lines, seconds, context)
        each = (processor_seconds(relay.process.pid) - before) / (rate * seconds) * 1e6
        print(
            f"  200 clients, {lines} at a time: {rate:,.0f} lines/s, an exchange p50 {at(times, 0.5):.1f} ms, p99 {at(times, 0.99):.1f}"
            f" ms; relay {each:.1f} us of processor a line; {load()}", flush=True,
        )


def part_clients(server, options):
    with ended(started(server)) as relay:
        many(relay, options.seconds)


def part_latency(server, options):
    with ended(started(server)) as relay:
        taken = {"straight to the server": [], "over the relay": []}
        for _ in range(options.rounds):
            for (name, found), port in zip(taken.items(), (server.port, relay.port)):
                found.append(at(drive(port, 4, 1, options.seconds / 4)[1], 0.5))
        for name, found in taken.items():
            print(f"  4 clients, a line at a time, {name}: p50 {statistics.median(found):.3f} ms; {load()}")
        added = statistics.median(over - straight for straight, over in zip(*taken.values()))
        print(f"  so a relay adds {added:.3f} ms at the median", flush=True)


def part_memory(server, options):
    with ended(started(server)) as relay:
        print(f"  no client: {relay.kilobytes() / 1e3:.1f} MB")
        for count in 200, 900:
            links = [connect(relay.port) for _ in range(count)]
            for link in links:
                link.sendall(b'["get","g|1"]\n')
            for link in links:
                received(link)
            print(f"  {count} clients that have asked: {relay.kilobytes() / 1e3:.1f} MB", flush=True)
            for link in links:
                link.close()


def gets_of_others(port, seconds):
    """The times of gets by six clients in turn."""
    links, times = [connect(port) for _ in range(GETS)], []
    end = time.perf_counter() + seconds
    while time.perf_counter() < end:
        for link in links:
            begun = time.perf_counter()
            link.sendall(b'["get","g|1"]\n')
            received(link)
            times.append(time.perf_counter() - begun)
    for link in links:
        link.close()
    return times


def send_and_read_nothing(port, line):
    link = connect(port)
    link.settimeout(None)
    while True:
        link.sendall(line * max(1, (1 << 16) // len(line)))


def ask_again_and_again(port, line):
    link = connect(port)
    while True:
        link.sendall(line)
        while not received(link).endswith(b"\n"):
            pass


@contextlib.contextmanager
def beside(client, port, line):
    """A client in a process of its own."""
    process = os.fork()
    if process == 0:
        with contextlib.suppress(BaseException):
            client(port, line)
        os._exit(0)
    try:
        time.sleep(0.2)
        yield
    finally:
        os.kill(process, 9)
        os.waitpid(process, 0)


OTHERS = (
    ("one that scans a megabyte and reads nothing", send_and_read_nothing, SCAN),
    ("one that puts 60 kB and reads nothing", send_and_read_nothing, b'["put","bp|a","' + b"v" * 60_000 + b'"]\n'),
    ("one that scans a megabyte again and again", ask_again_and_again, SCAN),
)


def part_slow(server, options):
    import pequod
    with pequod.connect("127.0.0.1", server.port, 60) as client, client.pipeline() as pipeline:
        for number in range(BIG_PAIRS):
            pipeline.put(f"big|{number:05}", BIG_VALUE)
    with ended(started(server)) as relay:
        for name, client, line in OTHERS:
            print(f"  gets of others beside {name}:")
            for way, port in ("straight to the server", server.port), ("over the relay", relay.port):
                alone, with_it = [], []
                for _ in range(options.rounds):
                    alone.append(gets_of_others(port, options.seconds / 4))
                    with beside(client, port, line):
                        with_it.append(gets_of_others(port, options.seconds / 4))
                        memory = relay.kilobytes() / 1e3
                p50, p99 = ([statistics.median(at(times, share) for times in rows) for rows in (alone, with_it)] for share in (0.5, 0.99))
                print(
                    f"    {way}: alone p50 {p50[0]:.2f} ms and p99 {p99[0]:.2f}, beside it {p50[1]:.2f} and {p99[1]:.2f};"
                    f" relay {memory:.0f} MB; {load()}", flush=True,
                )
        print(f"  links lost by all of that: {relay.counted('pequod_links_lost_total'):.0f}")


def part_tls(server, options):
    from test_relay_tls import make_certificates
    with tempfile.TemporaryDirectory() as folder:
        make_certificates(folder)
        files = [word for name in ("cert", "key", "ca") for word in (f"--{name}", f"{folder}/{NAMES[name]}")]
        context = ssl.create_default_context(cafile=f"{folder}/ca.pem")
        context.load_cert_chain(f"{folder}/client.pem", f"{folder}/client.key")
        with ended(started(server, *files)) as relay:
            many(relay, options.seconds, context)
            links = [connect(relay.port, context) for _ in range(200)]
            print(f"  200 clients over TLS: {relay.kilobytes() / 1e3:.1f} MB")
            for link in links:
                link.close()


NAMES = {"cert": "relay.pem", "key": "relay.key", "ca": "ca.pem"}
PARTS = {"clients": part_clients, "latency": part_latency, "memory": part_memory, "slow": part_slow, "tls": part_tls}


def started(server, *options):
    from relaying import Relay
    return Relay(server.port, *options, links=LINKS)


@contextlib.contextmanager
def ended(relay):
    try:
        yield relay
    finally:
        relay.end()


def main():
    words = argparse.ArgumentParser(description=__doc__, formatter_class=argparse.RawDescriptionHelpFormatter)
    words.add_argument("program")
    words.add_argument("parts", nargs="*", metavar="PART")
    words.add_argument("--seconds", type=float, default=4)
    words.add_argument("--rounds", type=int, default=5)
    options = words.parse_args()
    if not set(options.parts) <= set(PARTS):
        words.error(f"the parts are {', '.join(PARTS)}")
    os.environ["PEQUOD"] = options.program
    resource.setrlimit(resource.RLIMIT_NOFILE, (FILES, max(FILES, resource.getrlimit(resource.RLIMIT_NOFILE)[1])))
    from serving import Server, want_program
    want_program()
    for name in options.parts or PARTS:
        print(name, flush=True)
        with Server("--workers", str(WORKERS)) as server:
            PARTS[name](server, options)


if __name__ == "__main__":
    main()
