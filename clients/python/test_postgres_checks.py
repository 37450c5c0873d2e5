"""What a mapping is refused for by the catalogue and by the joins that stand: PEQUOD=path/of/the/built/program python3 -m unittest
test_postgres_checks"""

import unittest

import bridging
from serving import Server

T = "create table t(id int primary key, a text, b text); "
FULL = "alter table t replica identity full; "
PUBLISHED = "create publication pequod for table t"
BY_ROOT = PUBLISHED + " with (publish_via_partition_root = true)"
NO_INDEX = "two rows may have one key: {} hold no unique index that is valid, not partial and not deferrable"

# What is done in the database, the key, the value, and what is told of which line: 6 is the table's, 7 its key's and 8 its value's.
REFUSED = [
    ("a good one", T + PUBLISHED, "t|{id}", "{a}", []),
    ("no table", "create publication pequod", "t|{id}", "{a}", ["6: there is no table public.t"]),
    ("a view", T + "alter table t rename to u; create view t as select * from u; create publication pequod", "t|{id}", "{a}",
     ["6: public.t is no table with all its rows: views, and tables that others inherit from, cannot be mapped"]),
    ("a table that others inherit from", T + "create table u() inherits (t); " + PUBLISHED, "t|{id}", "{a}",
     ["6: public.t is no table with all its rows: views, and tables that others inherit from, cannot be mapped"]),
    ("no column", T + PUBLISHED, "t|{id}|{c}", "{d}", ["7: public.t has no column c", "8: public.t has no column d"]),
    ("no publication", T, "t|{id}", "{a}",
     ["3: there is no publication pequod: create publication pequod for table public.t",
      "6: it is not published: alter publication pequod add table public.t"]),
    ("not published", T + "create publication pequod", "t|{id}", "{a}",
     ["6: it is not published: alter publication pequod add table public.t"]),
    ("deletes left out", T + PUBLISHED + " with (publish = 'insert, update, truncate')", "t|{id}", "{a}",
     ["3: the publication leaves out changes: alter publication pequod set (publish = 'insert, update, delete, truncate')"]),
    ("a filter of rows", T + PUBLISHED + " where (id > 3)", "t|{id}", "{a}",
     ["6: it is published with a filter of rows, which a copy of the table would not heed"]),
    ("a list of columns", T + "create publication pequod for table t (id, b)", "t|{id}", "{a}",
     ["6: it is published without its column a"]),
    ("a list with all that is mapped", T + "create publication pequod for table t (id, a)", "t|{id}", "{a}", []),
    ("for all tables", T + "create publication pequod for all tables", "t|{id}", "{a}", []),
    ("a schema's tables", T + "create publication pequod for tables in schema public", "t|{id}", "{a}", []),
    ("a generated value", T + "alter table t add g text generated always as (a || '!') stored; " + PUBLISHED, "t|{id}", "{g}",
     ["8: g is a generated column, which the stream of changes leaves out"]),
    ("a number's format", T + PUBLISHED, "t|{id}", "{a:num3}", ["8: a is of type text, and num3 takes a whole number"]),
    ("a time's format", T + PUBLISHED, "t|{id:us16}", "{a:desc3}",
     ["7: id is of type integer, and us16 takes a time", "8: a is of type text, and desc3 takes a time or a whole number"]),
    ("a domain's format", "create domain small as int check (value < 9); create table t(id small primary key, a text); "
     + PUBLISHED, "t|{id:num1}", "{a}", []),
    ("values of several columns", T + PUBLISHED, "t|{id}", "{a} {b}",
     ["8: a is not told where a change leaves it as it is, so a value of several columns cannot be made: "
      "alter table public.t replica identity full"]),
    ("values of short columns", T + "alter table t add n int; " + PUBLISHED, "t|{id}", "{n} {id}", []),
    ("no unique index", "create table t(id int, a text); " + FULL + PUBLISHED, "t|{id}", "{a}",
     ["7: " + NO_INDEX.format("id")]),
    ("less than the index", "create table t(a text, b text, primary key (a, b)); " + PUBLISHED, "t|{a}", "{b}",
     ["7: " + NO_INDEX.format("a")]),
    ("a partial index", "create table t(a text, b text); create unique index on t(a) where b = ''; " + FULL + PUBLISHED,
     "t|{a}", "{b}", ["7: " + NO_INDEX.format("a")]),
    ("an index over an expression", "create table t(a text); create unique index on t(lower(a)); " + FULL + PUBLISHED, "t|{a}", "1",
     ["7: " + NO_INDEX.format("a")]),
    ("a deferrable index", "create table t(a int unique deferrable); " + FULL + PUBLISHED, "t|{a}", "1",
     ["7: " + NO_INDEX.format("a")]),
    ("columns that an index includes", "create table t(a int, b int); create unique index on t(a) include (b); " + FULL + PUBLISHED,
     "t|{b}", "1", ["7: " + NO_INDEX.format("b")]),
    ("an index that includes more", "create table t(a int primary key, b int); create unique index on t(b) include (a); "
     + FULL + PUBLISHED, "t|{b}", "1", []),
    ("no primary key", "create table t(a int not null unique); " + PUBLISHED, "t|{a}", "1",
     ["7: a change does not tell the old a: alter table public.t replica identity full"]),
    ("another key than the primary one", T + "create unique index on t(a); " + PUBLISHED, "t|{a}", "{b}",
     ["7: a change does not tell the old a: alter table public.t replica identity full"]),
    ("nothing is the identity", T + "alter table t replica identity nothing; " + PUBLISHED, "t|{id}", "{a}",
     ["7: a change does not tell the old id: alter table public.t replica identity full"]),
    ("another index is the identity", T + "alter table t alter a set not null; create unique index t_a on t(a); "
     "alter table t replica identity using index t_a; " + PUBLISHED, "t|{id}", "{b}",
     ["7: a change does not tell the old id: alter table public.t replica identity full"]),
    ("partitions one by one", "create table t(id int primary key) partition by range (id); " + PUBLISHED, "t|{id}", "1",
     ["6: it is not published: alter publication pequod add table public.t; "
      "alter publication pequod set (publish_via_partition_root = true)"]),
    ("a partition that tells less", "create table t(id int primary key) partition by range (id); " + FULL
     + "create table t_1 partition of t for values from (0) to (9); " + BY_ROOT, "t|{id}", "1",
     ["7: a partition has another replica identity than the table, so the old key of a row may not be told"]),
    ("a partition that tells more", "create table t(id int primary key) partition by range (id); "
     "create table t_1 partition of t for values from (0) to (9); alter table t_1 replica identity full; " + BY_ROOT,
     "t|{id}", "1", []),
]

# The joins that stand, and what is told of which line.
JOINS = [
    ("another table", ["u|<a> = copy t|<a>"], []),
    ("the same keys", ["t|<a> = copy u|<a>"], ["7: the join at position 1 writes into Pequod's table 't' too"]),
    ("keys that no row makes", ["v|<a> = copy w|<a>", "t|x|<a:3>|y = pull copy u|<a:3>"],
     ["7: the join at position 2 writes into Pequod's table 't' too"]),
    ("two", ["t|<a> = copy u|<a>", "t|<a>|<b> = copy v|<a>|<b>"],
     [f"7: the join at position {position} writes into Pequod's table 't' too" for position in (1, 2)]),
    ("the longest", ["t|" + "|".join(f"<s{n}>" for n in range(15)) + " = copy u|" + "|".join(f"<s{n}>" for n in range(15))],
     ["7: the join at position 1 writes into Pequod's table 't' too"]),
    ("the bridge's table", ["pg|<a> = copy u|<a>"], ["5: the join at position 1 writes into the table 'pg'"]),
]


def setUpModule():
    Checks.database = bridging.want_postgres()
    unittest.addModuleCleanup(Checks.database.stop)


class Checks(bridging.Case):
    def test_each_refusal_of_the_catalogue_has_its_line(self):
        from pequod.postgres.catalogue import read_catalogue
        from pequod.postgres.checks import refusals_of
        from pequod.postgres.database import Database
        from pequod.postgres.mapping import read_mapping

        for name, statements, key, value, wanted in REFUSED:
            with self.subTest(name):
                self.cursor.execute("drop publication if exists pequod; drop schema public cascade; create schema public")
                self.cursor.execute(statements)
                mapping = read_mapping(bridging.mapping(self.database.dsn, 7000, {"public.t": (key, value)}))
                with Database(mapping.dsn) as database:
                    refusals = refusals_of(mapping, read_catalogue(database.ask, mapping))
                self.assertEqual([f"{refusal.line}: {refusal.sentence}" for refusal in refusals], wanted)

    def test_the_command_tells_all_of_them_and_ends(self):
        self.cursor.execute("create table t(a int, g int generated always as (a + 1) stored)")
        bridge = self.bridge({"public.t": ("t|{a}", "{g}"), "public.u": ("u|{a}", "{b}")})
        self.assertEqual(bridge.status(), 7)
        self.assertEqual(bridge.told.splitlines(), [
            "FILE:3: there is no publication pequod: create publication pequod for table public.t, public.u",
            "FILE:6: it is not published: alter publication pequod add table public.t",
            "FILE:7: a change does not tell the old a: alter table public.t replica identity full",
            "FILE:7: " + NO_INDEX.format("a"),
            "FILE:8: g is a generated column, which the stream of changes leaves out",
            "FILE:9: there is no table public.u",
        ])

    def test_the_privilege_that_is_wanted(self):
        self.cursor.execute(T + PUBLISHED)
        self.cursor.execute("create role poor login; grant usage on schema public to poor")
        dsn = self.database.dsn.replace("app", "poor")
        bridge = bridging.Bridge(bridging.mapping(dsn, self.server.port, {"public.t": ("t|{id}", "{a}")}))
        self.addCleanup(bridge.stop)
        bridge.wait_until_told("begins anew: ")
        self.cursor.execute("alter role poor replication")
        self.assertEqual(bridge.status(), 7)
        self.assertEqual(bridge.told.splitlines()[-1], "FILE:2: permission denied for table t")

    def test_joins_that_write_into_a_mapped_table(self):
        self.cursor.execute(T + PUBLISHED)
        for name, joins, wanted in JOINS:
            with self.subTest(name), Server(joins=joins) as server, server.connect() as client:
                with bridging.Bridge(bridging.mapping(self.database.dsn, server.port, {"public.t": ("t|{id}", "{a}")})) as bridge:
                    if wanted:
                        self.assertEqual((bridge.status(), bridge.told.splitlines()), (7, [f"FILE:{line}" for line in wanted]))
                        self.assertEqual(client.get("k|a").position, len(joins))
                    else:
                        bridge.wait_until_told("copied 0 rows")

    def test_a_join_that_is_declared_later(self):
        self.cursor.execute(T + PUBLISHED)
        bridge = self.bridge({"public.t": ("t|{id}", "{a}")})
        self.wait()
        join = self.client.join("t|<a> = copy u|<a>").position
        self.cursor.execute("insert into t values (1, 'x')")
        self.assertEqual(bridge.status(), 7)
        told = f"put of 't|1': refused: computed at position {join}, {join}"
        self.assertEqual(bridge.told.splitlines()[-1], f"FILE:7: Pequod refuses the key 't|1': request 0 of the pipeline, {told}")


if __name__ == "__main__":
    unittest.main()
