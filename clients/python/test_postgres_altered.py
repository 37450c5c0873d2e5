"""What becomes of a bridge whose tables are altered while it is at work: PEQUOD=path/of/the/built/program python3 -m unittest
test_postgres_altered"""

import time
import unittest
from typing import NamedTuple

import bridging
from bridging import SECONDS

T = "create table t(id int primary key, a text, b text); insert into t values (1, 'x', 'y')"
PARTS = """create table t(id int primary key, a text) partition by range (id);
    create table t_1 partition of t for values from (0) to (10); create table t_2 partition of t for values from (10) to (20);
    create table t_3(like t including all); insert into t_3 values (21, 'z'); insert into t values (1, 'x'), (11, 'y')"""


class Ended(NamedTuple):
    """A bridge that cannot go on: what makes the table, what is done, and what is told in the end."""

    made: str
    done: str
    told: str


class Begun(NamedTuple):
    """A bridge that begins anew: what makes the table, what is done, and what stands then."""

    made: str
    done: str
    stands: dict


ENDED = [
    Ended(T, "alter table t rename column a to c; insert into t values (2, 'z')", "8: public.t has no column a"),
    Ended(T, "alter table t drop column a; insert into t values (2, 'z')", "8: public.t has no column a"),
    Ended(T, "alter table t drop column a; alter table t add a text generated always as (b || '!') stored; "
          "insert into t values (2, 'z')",
          "8: a is a generated column, which the stream of changes leaves out"),
    Ended(T, "alter table t replica identity nothing; insert into t values (2, 'z')",
          "7: a change does not tell the old id: alter table public.t replica identity full"),
    Ended(T, "alter publication pequod set (publish = 'insert')",
          "3: the publication leaves out changes: alter publication pequod set (publish = 'insert, update, delete, truncate')"),
    Ended(T, "alter publication pequod drop table t", "6: it is not published: alter publication pequod add table public.t"),
    Ended(T, "drop table t", "6: there is no table public.t"),
    Ended(T, "alter table t rename to u", "6: there is no table public.t"),
    Ended(PARTS, "alter table t replica identity full; create table t_4 partition of t for values from (30) to (40)",
          "7: a partition has another replica identity than the table, so the old key of a row may not be told"),
]

BEGUN = [
    Begun(T, "alter table t alter column a type text using upper(a)", {"t|1": "X"}),
    Begun(T, "alter table t rename column a to c; alter table t rename column b to a", {"t|1": "y"}),
    Begun(T, "alter table t rename column a to c; insert into t values (2, 'in between'); alter table t rename column c to a",
          {"t|1": "x", "t|2": "in between"}),
    Begun(T, "begin; drop table t; create table t(id int primary key, a text); alter publication pequod add table t; "
          "insert into t values (3, 'new'); commit", {"t|3": "new"}),
    Begun(PARTS, "truncate t_1", {"t|11": "y"}),
    Begun(PARTS, "alter table t detach partition t_2", {"t|1": "x"}),
    Begun(PARTS, "alter table t attach partition t_3 for values from (20) to (30)", {"t|1": "x", "t|11": "y", "t|21": "z"}),
    Begun(PARTS, "drop table t_1", {"t|11": "y"}),
]


def setUpModule():
    Altered.database = bridging.want_postgres()
    unittest.addModuleCleanup(Altered.database.stop)


class Altered(bridging.Case):
    def begin(self, made):
        self.clear()
        self.cursor.execute(made)
        self.cursor.execute("create publication pequod for table t with (publish_via_partition_root = true)")
        bridge = self.bridge({"public.t": ("t|{id}", "{a}")})
        self.wait()
        return bridge

    def test_what_ends_it(self):
        for case in ENDED:
            with self.subTest(case.done):
                bridge = self.begin(case.made)
                self.cursor.execute(case.done)
                self.assertEqual(bridge.status(), 7)
                self.assertIn(f"FILE:{case.told}", bridge.told.splitlines()[1:])

    def test_what_has_it_begin_anew(self):
        for case in BEGUN:
            with self.subTest(case.done):
                bridge = self.begin(case.made)
                self.cursor.execute(case.done)
                end = time.monotonic() + SECONDS
                while self.pairs("t") != case.stands and time.monotonic() < end:
                    time.sleep(0.05)
                self.assertEqual(self.pairs("t"), case.stands)
                self.assertIn("begins anew: ", bridge.told)
                bridge.end()


if __name__ == "__main__":
    unittest.main()
