"""What each change of rows in PostgreSQL makes of pairs: PEQUOD=path/of/the/built/program python3 -m unittest test_postgres_rows

Each case is a table with a mapping, and steps: statements, which are one transaction, and the pairs that have to stand then. All
cases are followed by one bridge. In the end a restarted Pequod has to hold the same by a copy."""

import json
import re
import time
import unittest
from typing import NamedTuple

import bridging

LONG = 20_000
"""So many characters are stored apart from their row, and told only where they change."""


class Rows(NamedTuple):
    """A case: what makes the table `T`, the mapping, the steps, and how many rows are to be counted by the stream, by cause."""

    name: str
    made: str
    key: str
    value: str
    steps: list
    skipped: dict = {}


def big(letter):
    return letter * LONG


PLAIN = "create table T(id int primary key, a text, b text)"
APART = PLAIN + "; alter table T alter a set storage external"
WHOLE = APART + "; alter table T replica identity full"
PARTS = """create table T(id int primary key, a text) partition by range (id);
    create table T_1 partition of T for values from (0) to (100); create table T_2 partition of T for values from (100) to (200)"""
TYPES = """create table T(id int primary key, n numeric, f float8, b bool, t timestamptz, s timestamp, d date, j jsonb, l int[],
    y bytea, i interval, u uuid); alter table T replica identity full"""
A_ROW = """1, 0.10000000000000000000055, 1e300, true, '2026-01-02 03:04:05.678+01', '2026-01-02 03:04:05', '2026-01-02',
    '{"a": 1.0}', '{1,2}', '\\x00ff', '1 day 02:03', '00000000-0000-0000-0000-0000000000ff'"""
OF_TYPES = ('0.10000000000000000000055 1e+300 t 2026-01-02 02:04:05.678+00 2026-01-02 03:04:05 2026-01-02 {"a": 1.0} {1,2} \\x00ff '
            "P1DT2H3M 00000000-0000-0000-0000-0000000000ff")

CASES = [
    Rows("insert, update, delete", PLAIN, "T|{id}", "{a}", [
        ("insert into T values (1, 'x'), (2, 'y')", {"1": "x", "2": "y"}),
        ("update T set a = 'z' where id = 1", {"1": "z", "2": "y"}),
        ("update T set b = 'unmapped' where id = 1", {"1": "z", "2": "y"}),
        ("delete from T where id = 2", {"1": "z"}),
        ("insert into T values (1, 'w') on conflict (id) do update set a = excluded.a", {"1": "w"}),
        ("insert into T values (1, 'v') on conflict do nothing", {"1": "w"}),
    ]),
    Rows("the key changes", PLAIN, "T|{id}", "{a}", [
        ("insert into T values (1, 'x'), (2, 'y')", {"1": "x", "2": "y"}),
        ("update T set id = 3 where id = 1", {"2": "y", "3": "x"}),
        ("update T set id = -1 where id = 2; update T set id = 2 where id = 3; update T set id = 3 where id = -1",
         {"2": "x", "3": "y"}),
        ("update T set id = id + 10, a = a || '!'", {"12": "x!", "13": "y!"}),
        ("delete from T where id = 12; insert into T values (12, 'new')", {"12": "new", "13": "y!"}),
    ]),
    Rows("the key changes, and the whole old row is told", PLAIN + "; alter table T replica identity full", "T|{id}", "{a}", [
        ("insert into T values (1, 'x'), (2, null)", {"1": "x"}),
        ("update T set id = 3 where id = 1", {"3": "x"}),
        ("update T set a = 'y' where id = 2", {"2": "y", "3": "x"}),
        ("delete from T where id = 3", {"2": "y"}),
    ], {"null": 1}),
    Rows("an index is the identity", """create table T(id int primary key, m text not null, a text);
        create unique index T_m on T(m); alter table T replica identity using index T_m""", "T|{m}", "{a}", [
        ("insert into T values (1, 'x', 'one'), (2, 'y', 'two')", {"x": "one", "y": "two"}),
        ("update T set m = 'z' where id = 1", {"y": "two", "z": "one"}),
        ("delete from T where id = 2", {"z": "one"}),
    ]),
    Rows("a key of more columns than its index", "create table T(id int primary key, a text not null, b text); "
         "alter table T replica identity full", "T|{a}|{id}", "{b}", [
        ("insert into T values (1, 'x', 'one')", {"x|1": "one"}),
        ("update T set a = 'y'", {"y|1": "one"}),
        ("delete from T", {}),
    ]),
    Rows("TRUNCATE", PLAIN, "T|{id}", "{a}", [
        ("insert into T select i, 'x' from generate_series(1, 5000) i; delete from T where id > 2", {"1": "x", "2": "x"}),
        ("truncate T", {}),
        ("insert into T values (1, 'a'); truncate T; insert into T values (2, 'b')", {"2": "b"}),
        ("insert into T select i, 'x' from generate_series(3, 5000) i", {"2": "b", **{str(i): "x" for i in range(3, 5001)}}),
        ("truncate T restart identity cascade", {}),
    ]),
    Rows("undone", PLAIN, "T|{id}", "{a}", [
        ("begin; insert into T values (1, 'no'); rollback", {}),
        ("begin; insert into T values (2, 'yes'); savepoint s; insert into T values (3, 'no'); rollback to s; "
         "insert into T values (4, 'yes'); commit", {"2": "yes", "4": "yes"}),
        ("begin; savepoint s; update T set a = 'kept'; release s; commit", {"2": "kept", "4": "kept"}),
    ]),
    *[Rows(f"stored apart, {told}", made, "T|{id}", "{a}", [
        (f"insert into T values (1, repeat('x', {LONG}), 'b')", {"1": big("x")}),
        ("update T set b = 'c'", {"1": big("x")}),
        ("update T set id = 2", {"2": big("x")}),
        ("update T set id = 3, b = 'd'; update T set id = 4", {"4": big("x")}),
        (f"update T set a = repeat('y', {LONG})", {"4": big("y")}),
        (f"update T set a = repeat('z', {LONG}); update T set id = 5", {"5": big("z")}),
        ("update T set a = 'short' where id = 5", {"5": "short"}),
        ("delete from T", {}),
    ]) for told, made in (("the key is told", APART), ("the whole row is told", WHOLE))],
    Rows("stored apart and too long", APART, "T|{id}", "{a}", [
        ("insert into T values (1, repeat('x', 70000))", {}),
        ("update T set b = 'c'", {}),
        ("update T set id = 2", {}),
        ("update T set a = 'short'", {"2": "short"}),
    ], {"value": 2}),
    Rows("stored apart in the key", "create table T(m text primary key, a text); alter table T alter m set storage external; "
         "alter table T alter a set storage external", "T|{m}", "{a}", [
        (f"insert into T values (repeat('k', 500), repeat('x', {LONG}))", {"k" * 500: big("x")}),
        (f"update T set a = repeat('y', {LONG})", {"k" * 500: big("y")}),
        ("update T set m = 'k'", {"k": big("y")}),
    ]),
    Rows("stored apart, and the old row had no pair", "create table T(m text primary key, a text); alter table T alter a set storage "
         "external", "T|{m}", "{a}", [
        (f"insert into T values ('x|y', repeat('x', {LONG}))", {}),
        ("update T set m = 'z'", {"z": big("x")}),
    ]),
    Rows("a value of two columns", WHOLE, "T|{id}", "{a}, {{{b}}}", [
        (f"insert into T values (1, repeat('x', {LONG}), 'b')", {"1": big("x") + ", {b}"}),
        ("update T set b = 'c'", {"1": big("x") + ", {c}"}),
        ("update T set id = 2, b = 'd'", {"2": big("x") + ", {d}"}),
    ]),
    Rows("no value", PLAIN, "T|{id}", "1", [
        ("insert into T values (1), (2)", {"1": "1", "2": "1"}),
        ("delete from T where id = 1", {"2": "1"}),
    ]),
    Rows("rows that make no pair, by the value", PLAIN, "T|{id}", "{a}", [
        ("insert into T values (1, null), (2, repeat('x', 65536)), (3, repeat('x', 65537)), (4, '')", {"2": "x" * 65_536, "4": ""}),
        ("update T set a = 'there' where id = 1; update T set a = null where id = 4", {"1": "there", "2": "x" * 65_536}),
        ("update T set a = a || '\u00e9' where id = 2", {"1": "there"}),
        ("update T set id = 9, a = null where id = 1", {}),
        ("delete from T", {}),
    ], {"null": 3, "value": 2}),
    Rows("rows that make no pair, by the key", "create table T(m text, n text, a text, primary key (m, n))", "T|{m}|{n}", "{a}", [
        ("insert into T values ('a', 'b', '1'), ('a|', 'b', '2'), ('', 'b', '3'), ('a', repeat('x', 600), '4')", {"a|b": "1"}),
        ("update T set m = 'c|d' where a = '1'", {}),
        ("update T set m = 'c' where a = '1'", {"c|b": "1"}),
        ("update T set n = '' where a = '1'", {}),
        ("delete from T where a = '1'", {}),
        ("update T set m = 'e', n = repeat('\u00e9', 254) where a = '2'", {}),
        ("update T set n = repeat('\u00e9', 254) || 'x' where a = '2'", {}),
        ("update T set n = repeat('\u00e9', 250) where a = '2'", {"e|" + "\u00e9" * 250: "2"}),
    ], {"bar": 2, "empty": 2, "key": 3}),
    Rows("percent-encoded", "create table T(m text primary key, a text)", "T|{m:pct}", "{a:pct}", [
        ("insert into T values ('a|b', '|'), ('a%7Cb', '%'), ('', 'x')", {"a%7Cb": "%7C", "a%257Cb": "%25"}),
        ("delete from T where m = 'a|b'", {"a%257Cb": "%25"}),
    ], {"empty": 1}),
    Rows("numbers", "create table T(id bigint primary key, n numeric)", "T|{id:num6}|{id:desc6}", "{n:num3}", [
        ("insert into T values (0, 7), (42, 0), (999999, 999), (1000000, 1), (-1, 1), (1, 1000), (2, 1.5), (3, 'NaN'), (4, -1)",
         {"000000|999999": "007", "000042|999957": "000", "999999|000000": "999"}),
        ("update T set id = 43 where id = 42; update T set id = 1000001 where id = 0",
         {"000043|999956": "000", "999999|000000": "999"}),
    ], {"width": 5, "number": 2}),
    Rows("times", "create table T(t timestamptz primary key, s timestamp, d date)", "T|{t:us16}|{t:desc16}", "{s:us16} {d:us16}", [
        ("insert into T values ('2026-01-02 03:04:05.5+01', '2026-01-02 03:04:05.000001', '2026-01-02')",
         {"1767319445500000|8232680554499999": "1767323045000001 1767312000000000"}),
        ("insert into T values ('infinity', now(), now()), ('1969-12-31', now(), now()), ('2286-11-20 17:46:40+00', now(), now()), "
         "('20000-01-01', now(), now()), ('0044-03-15 BC', now(), now())",
         {"1767319445500000|8232680554499999": "1767323045000001 1767312000000000"}),
        ("update T set t = '1970-01-01+00', s = '1970-01-01 00:00:01' where t = '2026-01-02 03:04:05.5+01'; "
         "delete from T where d > '2026-01-03'",
         {"0000000000000000|9999999999999999": "0000000001000000 1767312000000000"}),
    ], {"time": 3, "width": 2}),
    Rows("a segment of two columns", "create table T(d int, n int, a text, primary key (d, n))", "T|x{d:num2}-{n}", "{a}", [
        ("insert into T values (1, 11, 'a'), (11, 1, 'b')", {"x01-11": "a", "x11-1": "b"}),
    ]),
    Rows("texts that COPY escapes", PLAIN, "T|{id}", "{a}", [
        (r"insert into T values (1, E'tab\tline\nreturn\rback\\slash\x08\x0c\x0b'), (2, E'\\N'), (3, E'\u65e5\u672c \U0001f40b')",
         {"1": "tab\tline\nreturn\rback\\slash\x08\x0c\x0b", "2": "\\N", "3": "\u65e5\u672c \U0001f40b"}),
    ]),
    Rows("types", TYPES, "T|{id}", "{n} {f} {b} {t} {s} {d} {j} {l} {y} {i} {u}", [
        (f"insert into T values ({A_ROW}); insert into T(id, n) values (2, null)", {"1": OF_TYPES}),
        ("update T set n = 'NaN', f = '-Infinity', b = false, j = 'null', l = '{}', y = '', i = '0' where id = 1", {
            "1": "NaN -Infinity f 2026-01-02 02:04:05.678+00 2026-01-02 03:04:05 2026-01-02 null {} \\x PT0S "
                 "00000000-0000-0000-0000-0000000000ff"}),
    ], {"null": 1}),
    Rows("partitions, by the whole", PARTS, "T|{id}", "{a}", [
        ("insert into T values (1, 'x'), (101, 'y')", {"1": "x", "101": "y"}),
        ("update T set id = 102 where id = 1", {"101": "y", "102": "x"}),
        ("delete from T where id = 101", {"102": "x"}),
        ("update T set a = 'z'", {"102": "z"}),
        ("truncate T", {}),
    ]),
    Rows("a column is added, and another taken away", PLAIN, "T|{id}", "{a}", [
        ("insert into T values (1, 'x', 'b')", {"1": "x"}),
        ("alter table T add column c int default 7; insert into T values (2, 'y', 'b', 8)", {"1": "x", "2": "y"}),
        ("alter table T drop column b; insert into T values (3, 'z', 9)", {"1": "x", "2": "y", "3": "z"}),
    ]),
    Rows("a column of another type", "create table T(id int primary key, a int)", "T|{id}", "{a}", [
        ("insert into T values (1, 5)", {"1": "5"}),
        ("alter table T alter column a type text using 'was ' || a; insert into T values (2, 'x')", {"1": "was 5", "2": "x"}),
    ]),
    Rows("a column is taken away and comes again", PLAIN, "T|{id}", "{b}", [
        ("insert into T values (1, 'x', 'y')", {"1": "y"}),
        ("alter table T drop column b; alter table T add column b text default 'new'; insert into T values (2, 'x', 'z')",
         {"1": "new", "2": "z"}),
    ]),
]


def setUpModule():
    Case.database = bridging.want_postgres()
    unittest.addModuleCleanup(Case.database.stop)


class Case(bridging.Case):
    """Some cases, by one bridge."""

    def begin(self, cases):
        """Makes the tables, and gives their names, each with its case."""
        named_cases = [(f"t{number:02}", case) for number, case in enumerate(cases)]
        for name, case in named_cases:
            self.cursor.execute(named(case.made, name))
        tables = ", ".join(name for name, _ in named_cases)
        self.cursor.execute(f"create publication pequod for table {tables} with (publish_via_partition_root = true)")
        self.bridge({f"public.{name}": (named(case.key, name), case.value) for name, case in named_cases})
        self.wait()
        return named_cases

    def do(self, name, statements):
        self.cursor.execute(named(statements, name))
        self.wait()

    def expect(self, name, wanted):
        """The pairs of a table are these, by their keys without its name."""
        self.assertEqual({key.partition("|")[2]: value for key, value in self.pairs(name).items()}, wanted)


class Changes(Case):
    def test_each_change_is_followed_and_a_copy_has_the_same(self):
        cases = self.begin(CASES)
        for name, case in cases:
            for step, (statements, wanted) in enumerate(case.steps):
                with self.subTest(case=case.name, step=step):
                    self.do(name, statements)
                    self.expect(name, wanted)
        self.client.close()
        self.server.restart()
        self.client = self.server.connect()
        self.wait()
        for name, case in cases:
            with self.subTest(case=case.name, by="a copy"):
                self.expect(name, case.steps[-1][1])

    def test_rows_that_make_no_pair_are_counted_by_cause(self):
        cases = self.begin([case for case in CASES if case.skipped])
        for name, case in cases:
            for statements, _ in case.steps:
                self.do(name, statements)
        wanted = {f"public.{name}": case.skipped for name, case in cases}
        end = time.monotonic() + 5
        while json.loads(self.client.get("pg|skipped").value) != wanted and time.monotonic() < end:
            time.sleep(0.1)
        self.assertEqual(json.loads(self.client.get("pg|skipped").value), wanted)
        self.last.wait_until_told("public.t00: 1 rows make no pair: a column is NULL: 1")


def named(text, name):
    """The text with the name of a table for `T`."""
    return re.sub(r"\bT(?=_|\b)", name, text)


if __name__ == "__main__":
    unittest.main()
