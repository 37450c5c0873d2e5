"""Tests of `python3 -m pequod postgres`: PEQUOD=path/of/the/built/program python3 -m unittest test_postgres"""

import unittest

import bridging
import pequod
from pequod import postgres


def setUpModule():
    Ways.database = bridging.want_postgres()
    unittest.addModuleCleanup(Ways.database.stop)


POSTS = "create table post(author text, created timestamptz, body text, primary key (author, created))"
MAPPED = {"public.post": ("p|{author}|{created:us16}", "{body}")}


class Ways(bridging.Case):
    """The way of a row from PostgreSQL to Pequod."""

    joins = ["t|<user>|<time:16>|<poster> = check s|<user>|<poster> copy p|<poster>|<time:16>"]

    def setUp(self):
        super().setUp()
        self.cursor.execute(f"{POSTS}; create publication pequod for table post")

    def test_a_copy_a_change_and_what_follows_from_it(self):
        self.cursor.execute("insert into post values ('bob', '2026-01-02 03:04:05.5+01', 'Hi')")
        self.client.put("p|old|0000000000000000", "of an earlier life")
        self.client.put("s|ann|bob", "1")
        with self.assertRaises(postgres.NotCopied):
            postgres.read_at(self.client)
        bridge = self.bridge(MAPPED)
        at = self.wait()
        self.assertEqual(self.pairs("p", at), {"p|bob|1767319445500000": "Hi"})
        self.assertEqual(postgres.read_at(self.client), at)
        self.cursor.execute("insert into post values ('bob', '2026-01-02 03:04:06+01', 'Ho')")
        at = self.wait()
        self.assertEqual(self.pairs("t", at), {"t|ann|1767319445500000|bob": "Hi", "t|ann|1767319446000000|bob": "Ho"})
        self.assertEqual(bridge.end(), 0)

    def test_a_writer_without_a_bridge_waits_in_vain(self):
        with self.assertRaisesRegex(TimeoutError, "nothing stands in Pequod after 0.05 seconds, and [0-9A-F]+/[0-9A-F]+ was"):
            postgres.wait_for(self.client, self.cursor, 0.05)

    def test_what_else_is_written_is_no_hindrance(self):
        self.bridge(MAPPED)
        self.wait()
        self.cursor.execute("create table other(x int)")
        for number in range(20):
            self.cursor.execute("insert into other values (%s)", (number,))
            self.wait()

    def test_the_log_ends_where_a_page_does(self):
        self.bridge(MAPPED)
        self.wait()
        for _ in range(3):
            self.assertTrue(self.end_a_page())
            postgres.wait_for(self.client, self.cursor, 5)

    def end_a_page(self):
        """Has the last record of the log end where a page ends, which 1 of 1,000 does by itself."""
        for length in range(8, 8192, 8):
            self.cursor.execute("select pg_current_wal_insert_lsn()::text")
            lsn = int(self.cursor.fetchone()[0].partition("/")[2], 16)
            left = 8192 - lsn % 8192
            if lsn % 8192 == 24:
                return True
            size = left - length if left > length + 64 else 8
            self.cursor.execute("select pg_logical_emit_message(false, 'x', repeat('x', %s))", (max(size, 1),))
        return False


if __name__ == "__main__":
    unittest.main()
