"""Tests of the parts of the bridge that need no PostgreSQL: PEQUOD=path/of/the/built/program python3 -m unittest
test_postgres_mapping"""

import contextlib
import io
import pathlib
import sys
import tempfile
import unittest
import unittest.mock

from pequod.__main__ import main
from pequod.errors import OutOfMemory
from pequod.postgres.formats import NoPair, read_format
from pequod.postgres.mapping import MappingRefused, read_mapping
from pequod.postgres.marks import Mark, lsn_text, read_lsn
from pequod.postgres.pgoutput import Begin, Commit, Decoder, Deleted, Inserted, Relation, Truncated, Updated
from pequod.postgres.toml_lines import Lines
from pequod.postgres.templates import KeyTemplate, Untold, ValueTemplate
from pequod.postgres.waiting import committed_lsn
from pequod.postgres.writing import Writer
from serving import Case, want_program

GOOD = """\
# A mapping
[postgres]
dsn = "dbname=forum"

[pequod]
address = "[::1]:7000"

[table."public.post"]
key = "p|{author}|{created:us16}"
value = "{body}"
"""
TABLE = GOOD[GOOD.index("[table"):]

WRONG_FORMAT = "there is no format 'us': those are numN, usN and descN, with a width N from 1 to 64, and pct"

# What the file has in place of what of the good one, and what is told of which line.
REFUSED = [
    ("an unended text", 'dsn = "dbname=forum"', 'dsn = "dbname', [(3, "Illegal character '\\n'")]),
    ("no TOML at the end", 'value = "{body}"\n', "value = ", [(10, "Invalid value (at end of document)")]),
    ("another section", "[postgres]", "[postgre]", [(2, "there is no section 'postgre': those are postgres, pequod and table")]),
    ("another name", "dsn", "dns", [(3, "postgres has no 'dns': it has dsn and publication")]),
    ("a section that is none", '[pequod]\naddress = "[::1]:7000"', "", [(1, "address is missing")]),
    ("a number", '"dbname=forum"', "7", [(3, "dsn has to be a text")]),
    ("a text as section", GOOD[:GOOD.index("[pequod]")], "postgres = 1\n", [(1, "postgres has to be a section")]),
    ("no address", 'address = "[::1]:7000"\n', "", [(5, "address is missing")]),
    ("no port", "[::1]:7000", "localhost", [(6, "'localhost' is no HOST:PORT")]),
    ("a port beyond all", "[::1]:7000", "localhost:70000", [(6, "'localhost:70000' is no HOST:PORT")]),
    ("no table", TABLE, "", [(1, 'there is no table to map: write [table."public.NAME"]')]),
    ("no schema", "public.post", "post", [(8, "'post' has to be a schema and a table, as [table.\"public.post\"]")]),
    ("no quotes", '"public.post"', "public.post", [(8, "'public' has to be a schema and a table, as [table.\"public.post\"]"),
                                                   (8, "a table has a key and a value, and no 'post'"),
                                                   (8, "key is missing"), (8, "value is missing")]),
    ("no key", 'key = "p|{author}|{created:us16}"\n', "", [(8, "key is missing")]),
    ("a further name", "value =", "values =", [(8, "value is missing"), (10, "a table has a key and a value, and no 'values'")]),
    ("the bridge's table", "p|{author}", "pg|{author}", [(9, "the table 'pg' is the bridge's own, for its marker")]),
    ("a table as a column", "p|{author}", "{author}",
     [(9, "a key begins with the name of Pequod's table, and '{author}' is none: it has 1 to 64 bytes, no column, no brace, "
          "no < or >, no space and no control character")]),
    ("no bar", "p|{author}|{created:us16}", "p", [(9, "the key 'p' has no | after its table")]),
    ("no column", "p|{author}|{created:us16}", "p|x", [(9, "the key 'p|x' has no column, so all rows would have one key")]),
    ("an empty segment", "p|{author}", "p||{author}", [(9, "a segment of the key is empty")]),
    ("two columns in a segment", "{author}|{created:us16}", "{author}-{title}",
     [(9, "author and title stand in one segment without a fixed width, so two rows might have one key: put a | between them")]),
    ("no format", "us16", "us", [(9, WRONG_FORMAT)]),
    ("no width", "us16", "us0", [(9, WRONG_FORMAT.replace("'us'", "'us0'"))]),
    ("a brace", "{body}", "{body", [(10, "{ in '{body' belongs to no column: write {{ for a brace")]),
    ("a closing brace", "{body}", "\u00e9}", [(10, "} in '\u00e9}' belongs to no column: write }} for a brace")]),
    ("one table for two", TABLE, TABLE + TABLE.replace("post", "note"),
     [(12, "public.post has Pequod's table 'p' already: a table of rows is a whole table there")]),
    ("two at once", "address", "addres", [(5, "address is missing"), (6, "pequod has no 'addres': it has address")]),
]

# A format, the text of a column, and what becomes of it.
MADE = [
    ("num4", "0", "0000"), ("num4", "9999", "9999"), ("num4", "10000", "width"), ("num4", "-1", "width"), ("num4", "1.0", "number"),
    ("num4", "NaN", "number"), ("num4", "-Infinity", "number"), ("num1", "7", "7"), ("num64", "1", "0" * 63 + "1"),
    ("desc4", "0", "9999"), ("desc4", "9999", "0000"), ("desc4", "-1", "width"), ("desc4", "NaN", "number"),
    ("us16", "1970-01-01 00:00:00+00", "0" * 16), ("us16", "2026-01-02 02:04:05.5+00", "1767319445500000"),
    ("us16", "2026-01-02 02:04:05.000001", "1767319445000001"), ("us16", "2026-01-02", "1767312000000000"),
    ("us16", "1969-12-31 23:59:59.999999+00", "width"), ("us16", "2286-11-20 17:46:39.999999+00", "9" * 16),
    ("us16", "2286-11-20 17:46:40+00", "width"), ("us16", "infinity", "time"), ("us16", "-infinity", "time"),
    ("us16", "0044-03-15 00:00:00+00 BC", "time"), ("us16", "12026-01-02 00:00:00+00", "time"),
    ("desc16", "1970-01-01", "9" * 16), ("desc16", "infinity", "time"), ("desc16", "2286-11-20 17:46:39.999999+00", "0" * 16),
    ("pct", "a|b%7C", "a%7Cb%257C"), ("pct", "plain", "plain"),
]

# A text, and what a row of these columns makes of it as a key, and as a value.
ROW = {
    "a": "x", "n": "7", "none": None, "empty": "", "bar": "y|z", "long": "\u00e9" * 300, "huge": "x" * 65_537, "most": "x" * 65_536,
}
PAIRS = [
    ("k|{a}", "k|x", "k|x"), ("k|{a}|lit|{n:num3}", "k|x|lit|007", "k|x|lit|007"), ("k|{{{a}}}", "k|{x}", "k|{x}"),
    ("k|{none}", "null", "null"), ("k|{empty}", "empty", "k|"), ("k|{empty}-", "k|-", "k|-"), ("k|{bar}", "bar", "k|y|z"),
    ("k|{bar:pct}", "k|y%7Cz", "k|y%7Cz"), ("k|{long}", "key", "k|" + "\u00e9" * 300), ("k|{huge}", "key", "value"),
    ("k|{n:num3}{a}", "k|007x", "k|007x"), ("k|{untold}", "untold", "untold"), ("k|{a}|{none}|{untold}", "null", "null"),
]


def setUpModule():
    want_program()
    if sys.version_info < (3, 11):
        raise unittest.SkipTest("Python is older than 3.11")


class Mappings(unittest.TestCase):
    def test_a_good_one(self):
        mapping = read_mapping(GOOD)
        self.assertEqual((mapping.dsn, mapping.publication, mapping.host, mapping.port), ("dbname=forum", "pequod", "::1", 7000))
        self.assertEqual([(table.name, table.columns, table.bounds) for table in mapping.tables],
                         [("public.post", ("author", "created", "body"), ("p|", "p}"))])
        self.assertEqual(mapping.table_of_key("p|x|y").name, "public.post")
        self.assertIsNone(mapping.table_of_key("q|x"))

    def test_each_refusal_has_its_line(self):
        for name, old, new, wanted in REFUSED:
            with self.subTest(name):
                self.assertIn(old, GOOD)
                with self.assertRaises(MappingRefused) as caught:
                    read_mapping(GOOD.replace(old, new, 1))
                self.assertEqual([tuple(refusal) for refusal in caught.exception.refusals], wanted)

    def test_lines_of_other_spellings(self):
        import tomllib
        lines = Lines('a.b = 1\n["x y".\'z\'] # c\n"q=" = 2\nt = """\n[no]\n"""\n[u]\nv = { w = 3 }\n', tomllib.loads)
        self.assertEqual([lines.of(path) for path in [("a", "b"), ("x y", "z"), ("x y", "z", "q="), ("u", "v", "w"), ("other",)]],
                         [1, 2, 3, 8, 1])

    def test_a_file_that_is_refused(self):
        with tempfile.TemporaryDirectory() as folder:
            file = pathlib.Path(folder, "m.toml")
            file.write_text(GOOD.replace("us16", "us"), encoding="utf-8")
            self.assertEqual(self.told(file), (7, f"{file}:9: {WRONG_FORMAT}\n"))
            file.write_bytes(b"\xff")
            self.assertEqual(self.told(file)[0], 9)
            self.assertEqual(self.told("/nowhere/m.toml")[0], 9)

    def test_what_is_missing(self):
        with tempfile.TemporaryDirectory() as folder:
            file = pathlib.Path(folder, "m.toml")
            file.write_text(GOOD, encoding="utf-8")
            without = dict.fromkeys(("psycopg2", "pequod.postgres.database", "pequod.postgres.keeping"))
            with unittest.mock.patch.dict(sys.modules, without):
                status, told = self.told(file)
            self.assertEqual((status, told.partition(":")[0], "it wants psycopg2" in told), (9, "pequod postgres", True))
            with unittest.mock.patch("pequod.postgres.command.OLDEST_PYTHON", (99,)):
                wanted = "pequod postgres: it wants Python 3.11 or later, whose tomllib reads the mapping\n"
                self.assertEqual(self.told(file), (9, wanted))

    def told(self, file):
        """The status of the command, and what it tells on standard error."""
        with contextlib.redirect_stderr(io.StringIO()) as told:
            return main(["postgres", str(file)]), told.getvalue()


class Templates(unittest.TestCase):
    def test_formats(self):
        for word, text, wanted in MADE:
            with self.subTest(format=word, text=text):
                self.assertEqual(self.made(read_format(word).make, text), wanted)

    def test_keys_and_values(self):
        for text, key, value in PAIRS:
            with self.subTest(text):
                self.assertEqual(self.made(KeyTemplate(text).make, ROW), key)
                self.assertEqual(self.made(ValueTemplate(text).make, ROW), value)
        self.assertEqual(self.made(ValueTemplate("{most}").make, ROW), ROW["most"])
        self.assertEqual(self.made(ValueTemplate("").make, ROW), "")

    def made(self, make, given):
        """What is made, or why nothing is."""
        try:
            return make(given)
        except NoPair as error:
            return error.cause.value
        except Untold:
            return "untold"


class Lsns(unittest.TestCase):
    def test_texts(self):
        for text, lsn in ("0/0", 0), ("16/B374D848", (0x16 << 32) + 0xB374D848), ("FFFFFFFF/FFFFFFFF", 2**64 - 1):
            self.assertEqual((read_lsn(text), lsn_text(lsn)), (lsn, text))
        for text in "", "0", "0/", "0/123456789", "0/x", "0/0 ", "-1/0":
            with self.assertRaises(ValueError):
                read_lsn(text)
        self.assertEqual(str(Mark(0x1_0000_0010, 7)), "1/10 7")

    def test_the_start_of_a_page(self):
        """Where the log ends, with pages of 8,192 bytes and segments of 16 megabytes: behind a page's header no record ends."""
        for lsn, wanted in (0x2000, 0x2000), (0x2018, 0x2000), (0x2020, 0x2020), (0x2028, 0x2028), (0x1000028, 0x1000000):
            cursor = unittest.mock.Mock(**{"fetchone.return_value": (f"0/{lsn:X}", 8192, 2**24)})
            self.assertEqual(committed_lsn(cursor), wanted)
            cursor = unittest.mock.Mock(**{"fetchone.return_value": {"a": f"0/{lsn:X}", "b": 8192, "c": 2**24}})
            self.assertEqual(committed_lsn(cursor), wanted)


def number(value, size):
    return value.to_bytes(size, "big")


def relation(oid, name, *columns):
    """A message as PostgreSQL's manual has it: columns with a + before their names are in the identity."""
    kind = number(25, 4) + number(2**32 - 1, 4)
    told = [number(column[0] == "+", 1) + column.lstrip("+").encode() + b"\0" + kind for column in columns]
    return b"R" + number(oid, 4) + b"public\0" + name.encode() + b"\0d" + number(len(columns), 2) + b"".join(told)


def row(*texts):
    """A row: texts, None for NULL, and ... for a column that is not told."""
    kinds = {None: b"n", ...: b"u"}
    told = [kinds[text] if text in kinds else b"t" + number(len(text.encode()), 4) + text.encode() for text in texts]
    return number(len(texts), 2) + b"".join(told)


class Messages(unittest.TestCase):
    def test_each_message(self):
        decoder = Decoder({7: frozenset(["id", "a"])}.get)
        for message, wanted in [
            (b"B" + number(5, 8) + number(6, 8) + number(7, 4), Begin()),
            (relation(7, "t", "+id", "skipped", "a"), Relation(7, "public.t", ("id", "skipped", "a"), frozenset(["id"]))),
            (relation(8, "other", "x"), Relation(8, "public.other", ("x",), frozenset())),
            (b"I" + number(7, 4) + b"N" + row("1", "no", "\u00e9"), Inserted(7, {"id": "1", "a": "\u00e9"})),
            (b"I" + number(7, 4) + b"N" + row("1", None, None), Inserted(7, {"id": "1", "a": None})),
            (b"I" + number(8, 4) + b"N" + row("1"), None),
            (b"U" + number(7, 4) + b"N" + row("1", ..., ...), Updated(7, None, {"id": "1"})),
            (b"U" + number(7, 4) + b"K" + row("1", None, None) + b"N" + row("2", "x", ...), Updated(7, {"id": "1"}, {"id": "2"})),
            (b"U" + number(7, 4) + b"O" + row("1", None, None) + b"N" + row("1", "x", ""),
             Updated(7, {"id": "1", "a": None}, {"id": "1", "a": ""})),
            (b"D" + number(7, 4) + b"K" + row("1", None, None), Deleted(7, {"id": "1"})),
            (b"D" + number(7, 4) + b"O" + row("1", "x", "y"), Deleted(7, {"id": "1", "a": "y"})),
            (b"T" + number(2, 4) + number(1, 1) + number(7, 4) + number(8, 4), Truncated((7, 8))),
            (b"Y" + number(7, 4) + b"public\0some\0", None), (b"O" + number(7, 8) + b"else\0", None),
            (b"C\0" + number(5, 8) + number(9, 8) + number(7, 8), Commit(9)),
        ]:
            self.assertEqual(decoder.decode(message), wanted)


class Writes(Case):
    """What the writer puts, over a link that says of some requests that there is no memory."""

    def setUp(self):
        super().setUp()
        self.said = []
        self.writer = Writer(self.client, self.said.append)

    def put(self, *keys):
        for key in keys:
            self.writer.put(f"k|{key}", "x")

    def marker(self):
        return self.client.get("pg|at").value

    def test_the_marker_has_the_position_of_the_last_whole_transaction(self):
        self.put("a", "b")
        self.writer.send()
        self.assertIsNone(self.marker())
        self.put("c")
        self.writer.end_transaction(0x10)
        self.writer.send()
        self.assertEqual(self.marker(), "0/10 3")
        self.put("d")
        self.writer.end_transaction(0x20)
        self.put("e", "f")
        self.writer.send()
        self.assertEqual(self.marker(), "0/20 5")
        self.writer.end_transaction(0x30)
        self.put("g")
        self.writer.send()
        self.assertEqual((self.marker(), self.client.get("k|g").position), ("0/30 7", 10))

    def test_a_value_is_asked_for_after_what_is_pending(self):
        self.put("a")
        self.assertEqual((self.writer.value_of("k|a"), self.writer.value_of("k|b")), ("x", None))
        self.put("c")
        self.assertEqual(self.writer.keys_between("k|", "k}"), ["k|a", "k|c"])

    def test_what_finds_no_memory_is_written_again_in_order(self):
        refusals = iter([3, 1, 0])
        real = self.writer._exchange

        def exchange(writes):
            """Has all done but the one with the next number, as a server without memory for it does."""
            left = next(refusals, None)
            answers = real([write for number, write in enumerate(writes) if number != left])
            if left is not None:
                refused = unittest.mock.Mock(**{"error.return_value": OutOfMemory()})
                answers.insert(left, refused)
            return answers

        self.writer._exchange = exchange
        for key, value in ("a", "1"), ("b", "1"), ("a", "2"), ("b", "2"), ("b", "3"), ("a", "3"), ("c", "1"):
            self.writer.put(f"k|{key}", value)
        self.writer.end_transaction(0x10)
        self.writer.put("k|a", "4")
        self.writer.send()
        self.assertEqual(self.said, ["Pequod finds no memory for a write, and is asked again"])
        self.assertEqual(dict(self.client.scan("k|", "k}")), {"k|a": "4", "k|b": "3", "k|c": "1"})
        self.assertIsNone(self.marker())
        self.writer.end_transaction(0x20)
        self.writer.send()
        self.assertEqual(self.marker(), f"0/20 {self.client.get('pg|at').position - 1}")


if __name__ == "__main__":
    unittest.main()
