#!/usr/bin/env python3
"""Measures `python3 -m pequod postgres` over loopback, with a PostgreSQL and a Pequod of its own: rows a second of a copy and of
the stream, a beginning over 100,000 rows of which few differ, and how long after its commit a row is read, quiet and beside 1,000
transactions of one row each second. Prints a line for each, with the load of the machine.

Usage: bench/postgres.py PROGRAM
It wants PostgreSQL and psycopg2, and Python 3.11 or later: on Debian, postgresql, python3-psycopg2 and /usr/bin/python3.
"""
import os
import pathlib
import re
import signal
import sys
import threading
import time

FOLDER = pathlib.Path(__file__).resolve().parent.parent
os.environ["PEQUOD"] = sys.argv[1] if len(sys.argv) == 2 else ""
sys.path.insert(0, str(FOLDER / "clients" / "python"))
import bridging  # noqa: E402
import psycopg2  # noqa: E402
from pequod import postgres  # noqa: E402
from private_postgres import PrivatePostgres  # noqa: E402
from serving import Server, want_program  # noqa: E402

ROWS, PROBES, RATE, SECONDS = 100_000, 500, 1_000, 300
TABLES = """
create table post(id bigserial primary key, author text not null, created timestamptz not null, body text,
    unique (author, created));
alter table post replica identity full;
create table item(id int primary key, quantity numeric, note text);
create publication pequod for table post, item;
insert into post(author, created, body) select 'u' || (i % 1000), timestamptz '2026-01-01' + i * interval '1.000001 s',
    'Post number ' || i || ' with some text of it to make fifty-odd bytes' from generate_series(1, {rows}) i;
"""
MAPPED = {"public.post": ("p|{author}|{created:us16}", "{body}"), "public.item": ("item|{id:num10}", "{quantity}")}
COPIED = re.compile(r"copied (\d+) rows in ([\d.]+) s, by (\d+) writes")
STREAMS = (("one transaction", 50_000, 50_000), ("transactions of 10", 10, 30_000), ("transactions of 1", 1, 15_000))


def say(what, figures):
    print(f"{what:64} {figures:86} load {os.getloadavg()[0]:.1f}", flush=True)


def spread(seconds):
    """The median and the 99th percentile, in milliseconds."""
    seconds = sorted(seconds)
    middle, high, most = (seconds[min(int(len(seconds) * part), len(seconds) - 1)] * 1e3 for part in (0.5, 0.99, 1))
    return f"p50 {middle:.1f} ms, p99 {high:.1f} ms, most {most:.1f} ms"


def processor_time(process):
    fields = pathlib.Path(f"/proc/{process.pid}/stat").read_text(encoding="ascii").rpartition(")")[2].split()
    return (int(fields[11]) + int(fields[12])) / os.sysconf("SC_CLK_TCK")


class Measured:
    """A database, a server and a bridge between them."""

    def __init__(self, database, server):
        self.database, self.server, self.beginnings = database, server, 0
        self.client = server.connect(SECONDS)
        self.cursor = self.connect()
        self.cursor.execute(TABLES.format(rows=ROWS))
        self.bridge = bridging.Bridge(bridging.mapping(database.dsn, server.port, MAPPED))

    def connect(self):
        connection = psycopg2.connect(self.database.dsn)
        connection.autocommit = True
        return connection.cursor()

    def wait(self):
        postgres.wait_for(self.client, self.cursor, SECONDS)

    def copied(self):
        """How many rows the copy of this beginning had, its seconds, and its writes, as the bridge tells when it is done."""
        self.beginnings += 1
        while len(told := COPIED.findall(self.bridge.told)) < self.beginnings:
            time.sleep(0.01)
        rows, seconds, writes = told[-1]
        return int(rows), float(seconds), int(writes)

    def used(self):
        """The processor time that the bridge and Pequod have used, in seconds."""
        return processor_time(self.bridge.process), processor_time(self.server.process)

    def used_a_row(self, before, rows):
        """Says how much processor time both used since then, for each of so many rows."""
        bridge, server = ((now - then) / rows * 1e6 for now, then in zip(self.used(), before))
        return f"processor time a row: bridge {bridge:.0f} us, Pequod {server:.0f} us"

    def measure_copy(self):
        self.wait()
        rows, seconds, _ = self.copied()
        say(f"a copy of {rows:,} rows", f"{rows / seconds:,.0f} rows a second, {self.used_a_row((0, 0), rows)}")

    def measure_restart(self):
        self.bridge.kill()
        self.cursor.execute(f"update post set body = body || '!' where id <= {ROWS // 100}")
        self.cursor.execute(f"delete from post where id > {ROWS - 100}")
        began = time.monotonic()
        self.bridge.start()
        self.wait()
        seconds, (rows, of_copy, writes) = time.monotonic() - began, self.copied()
        own = f"processor time of the bridge: {self.used()[0]:.2f} s"
        say(f"a beginning over {rows:,} rows, {writes:,} writes", f"{seconds:.2f} s, of which the copy {of_copy:.2f} s, {own}")

    def measure_stream(self, what, rows, write):
        """Has the bridge stand still while all is written, and measures how long it takes then."""
        self.bridge.process.send_signal(signal.SIGSTOP)
        write()
        before, began = self.used(), time.monotonic()
        self.bridge.process.send_signal(signal.SIGCONT)
        self.wait()
        seconds = time.monotonic() - began
        say(f"the stream, {what}", f"{rows / seconds:,.0f} rows a second, {self.used_a_row(before, rows)}")

    def insert(self, each, rows):
        self.cursor.execute("select coalesce(max(id), 0) + 1 from item")
        first = self.cursor.fetchone()[0]
        self.cursor.execute("set synchronous_commit = off")
        for start in range(first, first + rows, each):
            rows = f"select i, i, 'note ' || i from generate_series({start}, {start + each - 1}) i"
            self.cursor.execute(f"insert into item {rows}")
        self.cursor.execute("set synchronous_commit = on; create table if not exists other(); drop table other")

    def update(self):
        self.cursor.execute("update post set body = body || '.' where id <= 30000")

    def measure_lag(self, rate):
        """Commits a row again and again, and measures until it is read, and until `wait_for` has returned."""
        is_over, seen, waited = threading.Event(), [], []
        count = 2 if rate else 0
        writers = [threading.Thread(target=self.write_steadily, args=(is_over, rate / 2, number)) for number in range(count)]
        for writer in writers:
            writer.start()
        time.sleep(1)
        for number in range(PROBES):
            identity = 2 * 10**9 - rate * 1000 - number
            self.cursor.execute("insert into item values (%s, 7)", (identity,))
            began = time.monotonic()
            while not self.client.get(f"item|{identity:010}"):
                time.sleep(0.0005)
            seen.append(time.monotonic() - began)
            self.cursor.execute("update item set quantity = 8 where id = %s", (identity,))
            began = time.monotonic()
            self.wait()
            waited.append(time.monotonic() - began)
        is_over.set()
        for writer in writers:
            writer.join()
        beside = f"beside {rate:,} rows a second" if rate else "quiet"
        say(f"from a commit until its row is read, {beside}", spread(seen))
        say(f"from a commit until wait_for returns, {beside}", spread(waited))

    def write_steadily(self, is_over, rate, number):
        cursor, began, count = self.connect(), time.monotonic(), 0
        while not is_over.is_set():
            for _ in range(5):
                cursor.execute("insert into item values (%s, 1)", (10**9 + number * 10**8 + count + int(began * 10) % 10**7,))
                count += 1
            time.sleep(max(0, began + count / rate - time.monotonic()))


def main():
    want_program()
    joins = str(FOLDER / "examples" / "timeline" / "timeline.joins")
    # A bridge that stands still for long is not to be let go.
    with PrivatePostgres("wal_sender_timeout = 0") as database, Server("--workers", "8", "--joins", joins) as server:
        measured = Measured(database, server)
        with measured.bridge:
            measured.measure_copy()
            measured.measure_restart()
            for what, each, rows in STREAMS:
                measured.measure_stream(what, rows, lambda: measured.insert(each, rows))
            measured.measure_stream("updates that tell the whole old row", 30_000, measured.update)
            for rate in 0, RATE:
                measured.measure_lag(rate)


if __name__ == "__main__":
    main()
