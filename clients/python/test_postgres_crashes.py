"""What stands in Pequod after bridges, PostgreSQL and Pequod were ended under writes: PEQUOD=path/of/the/built/program python3 -m
unittest test_postgres_crashes"""

import contextlib
import random
import threading
import time
import unittest

import bridging
import pequod
from bridging import SECONDS
from pequod import postgres
from pequod.postgres.marks import read_mark

DOCS = """create table doc(id int primary key, body text, note text);
    insert into doc select i, 'first', '' from generate_series(1, 2000) i; create publication pequod for table doc"""
DOC = {"public.doc": ("doc|{id:num6}", "{body}")}
OF_DOCS = "select 'doc|' || lpad(id::text, 6, '0'), body from doc where body is not null"


def setUpModule():
    Case.database = bridging.want_postgres()
    unittest.addModuleCleanup(Case.database.stop)


class Case(bridging.Case):
    @contextlib.contextmanager
    def writers(self, write, count=2):
        """Threads that write in the background, each with a cursor and numbers drawn for it. It gives how often each wrote."""
        is_over, written = threading.Event(), [0] * count

        def work(number):
            cursor, draw = self.connect()[1], random.Random(number)
            cursor.execute("set synchronous_commit = off")
            while not is_over.is_set():
                write(cursor, draw)
                written[number] += 1

        threads = [threading.Thread(target=work, args=(number,)) for number in range(count)]
        for thread in threads:
            thread.start()
        try:
            yield written
        finally:
            is_over.set()
            for thread in threads:
                thread.join()

    def expect_equal(self, table, query):
        self.wait()
        wanted = self.rows(query)
        self.assertTrue(wanted)
        self.assertEqual(self.pairs(table), wanted)

    def count_slots(self):
        self.cursor.execute("select count(*) from pg_replication_slots")
        return self.cursor.fetchone()[0]

    def restart_pequod(self):
        self.client.close()
        self.server.restart()
        self.client = self.server.connect()


def write_doc(cursor, draw):
    """One of the changes that a document may see."""
    number = draw.randrange(3000)
    kind = draw.random()
    if kind < 0.3:
        cursor.execute("delete from doc where id = %s", (number,))
    elif kind < 0.4:
        free = "not exists (select from doc where id = %s)"
        cursor.execute(f"update doc set id = %s where id = %s and {free}", (number, number + 1, number))
    elif kind < 0.5:
        cursor.execute("update doc set body = null where id between %s and %s", (number, number + 5))
    else:
        body = f"body {draw.random()}"
        cursor.execute("insert into doc values (%s, %s, '') on conflict (id) do update set body = excluded.body", (number, body))


class Ends(Case):
    def setUp(self):
        super().setUp()
        self.cursor.execute(DOCS)

    def test_six_beginnings_under_two_writers(self):
        with self.writers(locked(write_doc)) as written:
            bridge = self.bridge(DOC)
            for _ in range(5):
                self.wait()
                time.sleep(0.3)
                bridge.kill()
                bridge.start()
            self.wait()
        self.assertEqual(bridge.told.count("copied"), 6)
        self.assertGreater(min(written), 100)
        self.expect_equal("doc", OF_DOCS)

    def test_a_bridge_that_is_killed_twice_and_a_restarted_pequod(self):
        with self.writers(locked(write_doc)):
            bridge = self.bridge(DOC)
            self.wait()
            bridge.kill()
            time.sleep(0.3)
            bridge.start()
            self.wait()
            self.restart_pequod()
            self.wait()
            bridge.kill()
            bridge.start()
            self.wait()
        self.expect_equal("doc", OF_DOCS)
        self.assertEqual(bridge.end(), 0)
        self.assertEqual(self.count_slots(), 0)

    def test_postgresql_is_restarted(self):
        for mode in "fast", "immediate":
            with self.subTest(mode):
                bridge = self.bridge(DOC)
                self.wait()
                self.database.end(mode)
                self.client.remove("doc|000001")
                self.client.put("doc|009999", "of nobody")
                bridge.wait_until_told("begins anew")
                self.database.start()
                self.connection, self.cursor = self.connect()
                self.cursor.execute("update doc set body = %s where id < 5", (mode,))
                self.expect_equal("doc", OF_DOCS)
                bridge.end()

    def test_a_second_bridge_waits_and_takes_over(self):
        first = self.bridge(DOC)
        self.wait()
        second = self.bridge(DOC)
        second.wait_until_told("begins anew: another bridge is at work on this database")
        self.assertEqual(self.count_slots(), 1)
        first.kill()
        second.wait_until_told("copied")
        self.cursor.execute("update doc set body = 'second' where id < 5")
        self.expect_equal("doc", OF_DOCS)
        self.assertEqual(second.told.count("another bridge"), 1)

    def test_readers_go_on_at_the_old_marker(self):
        bridge = self.bridge(DOC)
        at = self.wait()
        stood = self.pairs("doc", at)
        bridge.kill()
        self.cursor.execute("update doc set body = 'other'; delete from doc where id > 1000")
        self.assertEqual(self.pairs("doc", postgres.read_at(self.client)), stood)
        bridge.start()
        while self.pairs("doc", postgres.read_at(self.client)) == stood:
            pass
        self.assertEqual(self.pairs("doc", postgres.read_at(self.client)), self.rows(OF_DOCS))

    def test_a_beginning_that_has_nothing_to_write(self):
        bridge = self.bridge(DOC)
        before = self.wait()
        bridge.kill()
        bridge.start()
        bridge.wait_until_told(", by 0 writes, ")
        for _ in range(3):
            self.cursor.execute("create table other(); drop table other")
            at = self.wait()
            self.assertGreater(at, before)
            self.assertEqual(self.pairs("doc", at), self.rows(OF_DOCS))

    def test_lines_of_an_earlier_bridge_that_come_late(self):
        self.bridge(DOC).wait_until_told("copied")
        self.client.put("doc|000001", "of an earlier bridge")
        self.client.put("doc|009999", "of an earlier bridge")
        self.last.wait_until_told("copied", 2)
        self.assertIn("begins anew: another than this bridge has written 'doc|000001'", self.last.told)
        self.expect_equal("doc", OF_DOCS)

    def test_a_database_that_was_set_back(self):
        self.client.put("pg|at", "FFFFFFFF/0 1")
        self.bridge(DOC).wait_until_told("copied")
        self.assertLess(read_mark(self.client).lsn, 2**60)
        self.expect_equal("doc", OF_DOCS)

    def test_others_write_much(self):
        self.bridge(DOC)
        self.wait()
        for _ in range(2):
            with self.client.pipeline() as pipeline:
                for number in range(70_000):
                    pipeline.put(f"k|{number % 10}", "x")
            time.sleep(1)
            self.assertEqual(len(self.pairs("doc", postgres.read_at(self.client))), 2000)


def locked(write):
    """Lets one writer work at a time, so that none waits for another's row in vain."""
    lock = threading.Lock()

    def write_alone(cursor, draw):
        with lock:
            write(cursor, draw)

    return write_alone


class Whole(Case):
    """Whole transactions, as readers see them."""

    def setUp(self):
        super().setUp()
        self.cursor.execute("""create table account(id int primary key, amount int); create publication pequod for table account;
            insert into account select i, 100 from generate_series(1, 10) i""")
        self.bridge({"public.account": ("acc|{id:num9}", "{amount}")})
        self.wait()

    def total(self, at):
        return sum(map(int, self.pairs("acc", at).values()))

    def test_the_sum_of_accounts(self):
        def transfer(cursor, draw):
            moves = "update account set amount = amount - 1 where id = %s; update account set amount = amount + 1 where id = %s"
            cursor.execute(moves, sorted(draw.sample(range(1, 11), 2)))

        seen, end = [], time.monotonic() + 5
        with self.writers(transfer):
            while time.monotonic() < end:
                with contextlib.suppress(pequod.Gone):
                    seen.append(self.total(postgres.read_at(self.client)))
        self.assertEqual(set(seen), {1000})
        self.assertGreater(len(seen), 100)

    def test_a_transaction_of_more_rows_than_are_kept(self):
        seen, answers = set(), []

        def read():
            with self.server.connect(60) as reader:
                while not answers:
                    with contextlib.suppress(pequod.Gone):
                        seen.add(len(reader.scan("acc|", "acc}", at=postgres.read_at(reader))))

        thread = threading.Thread(target=read)
        thread.start()
        self.cursor.execute("insert into account select i, 0 from generate_series(11, 80000) i")
        answers.append(self.wait())
        thread.join()
        self.assertLessEqual(seen, {10, 80_000})
        self.assertEqual(len(self.pairs("acc", answers[0])), 80_000)

    def test_each_writer_sees_what_it_wrote(self):
        failures = []

        def write(cursor, draw):
            key = f"acc|{draw.randrange(11, 10**9):09}"
            cursor.execute("insert into account values (%s, 7) on conflict do nothing", (key.partition("|")[2],))
            with self.server.connect() as client:
                at = postgres.wait_for(client, cursor, SECONDS)
                if client.get(key).value != "7" or len(client.scan(key, key + "\0", at)) != 1:
                    failures.append(key)

        with self.writers(write, 4) as written:
            time.sleep(4)
        self.assertEqual(failures, [])
        self.assertGreater(min(written), 3)


if __name__ == "__main__":
    unittest.main()
