"""Tests of the client against a server that they start.

    PEQUOD=path/of/the/built/program python3 -m unittest test_pequod

The last class has no server of Pequod: what it tests are replies that no server gives when asked to.
"""

import contextlib
import pickle
import socket
import threading
import unittest

import pequod
from serving import HOST, Case, Server, free_port, want_program

TIMELINE = "t|<user>|<time>|<poster> = check s|<user>|<poster> copy p|<poster>|<time>"


def setUpModule():
    want_program()


class Methods(Case):
    def test_each_method(self):
        client = self.client
        self.assertEqual(client.position, 0)
        self.assertEqual(client.join("b|<x> = copy a|<x>"), pequod.Done(1))
        self.assertEqual(client.put("a|1", "Hi"), pequod.Done(2))
        self.assertEqual(client.get("b|1"), pequod.Found(2, "Hi"))
        self.assertEqual(client.get("b|2"), pequod.Absent(2))
        self.assertEqual(client.scan("b|", "b}"), pequod.Pairs(2, (("b|1", "Hi"),)))
        self.assertEqual(client.remove("a|1"), pequod.Done(3))
        self.assertEqual(client.remove("a|1"), pequod.Done(4))
        self.assertEqual(client.scan("b|", "b}"), pequod.Pairs(4, ()))
        self.assertEqual(client.drop(1), pequod.Done(5))
        self.assertEqual(client.position, 5)

    def test_an_answer_reads_well(self):
        self.client.put("k|ann|2", "two")
        self.client.put("k|ann|1", "one")
        self.client.put("k|bob|1", "other")
        found, absent = self.client.get("k|ann|1"), self.client.get("k|ann|3")
        self.assertTrue(found)
        self.assertFalse(absent)
        self.assertEqual((found.value, absent.value), ("one", None))
        pairs = self.client.scan_prefix("k|ann|")
        self.assertEqual(list(pairs), [("k|ann|1", "one"), ("k|ann|2", "two")])
        self.assertEqual((len(pairs), dict(pairs)["k|ann|2"]), (2, "two"))
        with self.assertRaises(ValueError):
            self.client.scan_prefix("k|ann")

    def test_any_text(self):
        text = "she said \"no\" \\ and\nleft\r\n\t\0 caf\u00e9 \u65e5\u672c \U0001f40b |<x>}"
        self.client.put("k|" + text, text)
        self.assertEqual(self.client.get("k|" + text), pequod.Found(1, text))
        self.assertEqual(list(self.client.scan("k|", "k}")), [("k|" + text, text)])
        with self.assertRaises(UnicodeEncodeError):
            self.client.put("k|a", "\ud800")
        self.assertEqual(self.client.put("k|long", "\u00e9" * 32_768).position, 2)
        self.assertEqual(self.client.get("k|long").value, "\u00e9" * 32_768)

    def test_many_and_long_pairs_in_one_reply(self):
        with self.client.pipeline() as pipeline:
            for number in range(40):
                pipeline.put(f"k|{number:02}", f"{number:02}" * 30_000)
        pairs = self.client.scan("k|", "k}")
        self.assertEqual([key for key, _ in pairs], [f"k|{number:02}" for number in range(40)])
        self.assertTrue(all(value == key[2:] * 30_000 for key, value in pairs))

    def test_a_closed_client(self):
        self.client.close()
        self.client.close()
        self.assertFalse(self.client.is_open)
        with self.assertRaises(pequod.LinkLost) as caught:
            self.client.put("k|a", "x")
        self.assertFalse(caught.exception.write_may_stand)


class Refusals(Case):
    def test_of_the_line(self):
        client = self.client
        self.refused("key", None, (), client.get, "|a")
        self.refused("key", None, (), client.put, "k|" + "a" * 511, "x")
        self.refused("value", None, (), client.put, "k|a", " " * 65_537)
        self.refused("range", None, (), client.scan, "k|b", "k|a")
        self.refused("range", None, (), client.scan, "k|a", "m|a")
        self.refused("syntax", None, (12,), client.join, "t|<u> = copy")
        for position in -1, 2**48:
            self.refused("form", None, (), client.drop, position)
        for position in "1", 1.5, [1], None, True:
            with self.assertRaises(TypeError):
                client.drop(position)
        self.assertEqual(client.position, 0)
        self.refused("long", None, (), client.put, "k|a", " " * 1_048_576)
        self.assertEqual(client.put("k|a", "x"), pequod.Done(1))

    def test_of_a_line_by_hand(self):
        with socket.create_connection((HOST, self.server.port), 20) as link, link.makefile("rb") as replies:
            link.sendall(b"\n[\"get\",5]\n[\"get\"]\r\n[\"get\",\"k|\xff\"]\n")
            self.assertEqual(replies.readline(), b'["error","json"]\n')
            self.assertEqual(replies.readline(), b'["error","form"]\n')
            self.assertEqual(replies.readline(), b'["error","form"]\n')
            self.assertEqual(replies.readline(), b'["error","json"]\n')
            link.sendall(b" " * 1_048_577)
            self.assertEqual(replies.readline(), b'["error","long"]\n')
            self.assertEqual(replies.readline(), b"")

    def test_of_joins(self):
        join = self.client.join
        self.refused("slots", 0, (), join, "t|<u> = copy p|<w>")
        self.refused("sources", 0, (), join, "t|<u> = check s|<u>")
        self.assertEqual(join("b|<x> = copy a|<x>").position, 1)
        self.assertEqual(join("c|<x> = copy b|<x>").position, 2)
        self.refused("clash", 2, (1,), join, "b|<y> = copy k|<y>")
        self.refused("cycle", 2, (3, 2, 1), join, "a|<x> = copy c|<x>")
        for below, above in zip("cdefgh", "defghi"):
            join(f"{above}|<x> = copy {below}|<x>")
        self.refused("deep", 8, (), join, "j|<x> = copy i|<x>")
        self.refused("computed", 8, (1,), self.client.put, "b|1", "No")
        self.assertEqual(self.client.put("a|1", "Hi").position, 9)
        self.assertEqual((self.client.position, self.client.get("i|1").value), (9, "Hi"))

    def test_of_drops(self):
        client = self.client
        self.refused("nojoin", 0, (), client.drop, 0)
        self.refused("nojoin", 0, (), client.drop, 2**48 - 1)
        self.assertEqual(client.put("k|a", "x"), pequod.Done(1))
        self.refused("nojoin", 1, (), client.drop, 1)
        self.assertEqual(client.join("b|<x> = copy a|<x>"), pequod.Done(2))
        self.assertEqual(client.drop(2), pequod.Done(3))
        self.refused("nojoin", 3, (), client.drop, 2)

    def test_of_too_many_joins(self):
        for number in range(64):
            self.client.join(f"o{number}|<x> = copy i{number}|<x>")
        self.refused("many", 64, (), self.client.join, "o64|<x> = copy i64|<x>")

    def test_a_refusal_tells_what_it_is(self):
        with self.assertRaises(pequod.Refused) as caught:
            self.client.join("t|<u> = copy")
        self.assertEqual(str(caught.exception), "join of 't|<u> = copy': refused: syntax, 12")
        with self.assertRaises(pequod.Refused) as caught:
            self.client.scan("k|b", "k|a")
        error = pickle.loads(pickle.dumps(caught.exception))
        self.assertEqual((error.kind, error.key, error.number, error.name), ("scan", "k|b", None, "range"))
        with self.assertRaises(pequod.Refused) as caught:
            self.client.put("k|a", " " * 1_048_576)
        self.assertEqual(str(caught.exception), "put of 'k|a': refused: long")
        with self.assertRaises(pequod.Refused) as caught:
            self.client.get("k" * 600)
        self.assertLess(len(str(caught.exception)), 120)

    def test_what_is_no_text(self):
        calls = (
            (self.client.put, ("k|a", 5), "the value of a put has to be a str, and 5 is of type int"),
            (self.client.put, (b"k|a", "x"), "the key of a put has to be a str, and b'k|a' is of type bytes"),
            (self.client.get, (None,), "the key of a get has to be a str, and None is of type NoneType"),
            (self.client.scan, ("k|", 1), "the last bound of a scan has to be a str, and 1 is of type int"),
            (self.client.scan_prefix, (7,), "the prefix of a scan has to be a str, and 7 is of type int"),
            (self.client.join, (["a"],), "the text of a join has to be a str, and ['a'] is of type list"),
        )
        for call, words, told in calls:
            with self.assertRaises(TypeError) as caught:
                call(*words)
            self.assertEqual(str(caught.exception), told)
        with self.assertRaises(TypeError):
            with self.client.pipeline() as pipeline:
                pipeline.put("k|a", "x")
                pipeline.put("k|b", 1.5)
        self.assertEqual(self.client.get("k|a"), pequod.Absent(0))


class Joins(Case):
    def test_a_join_hides_pairs_until_it_is_dropped(self):
        client = self.client
        for key, value in ("b|1", "base"), ("b|2", "two"), ("a|1", "A"):
            client.put(key, value)
        self.assertEqual(client.join("b|<x> = copy a|<x>"), pequod.Done(4))
        self.assertEqual(client.scan("b|", "b}"), pequod.Pairs(4, (("b|1", "A"),)))
        self.refused("computed", 4, (4,), client.put, "b|3", "x")
        self.assertEqual(client.drop(4), pequod.Done(5))
        self.assertEqual(client.scan("b|", "b}"), pequod.Pairs(5, (("b|1", "base"), ("b|2", "two"))))
        self.refused("nojoin", 5, (), client.drop, 4)

    def test_a_new_version_beside_the_old_one(self):
        client = self.client
        for voter, value in ("ann", "1"), ("cat", "2"):
            client.put(f"v|bob|{voter}", value)
        old = client.join("karma|<poster> = count v|<poster>|<voter>").position
        client.join("points|<poster> = sum v|<poster>|<voter>")
        with client.pipeline() as pipeline:
            both = pipeline.get("karma|bob"), pipeline.get("points|bob")
            pipeline.drop(old)
            gone, stays = pipeline.get("karma|bob"), pipeline.get("points|bob")
        self.assertEqual([answer.result().value for answer in both], ["2", "3"])
        self.assertEqual((gone.result(), stays.result()), (pequod.Absent(5), pequod.Found(5, "3")))

    def test_a_join_that_stood_on_another_reads_what_was_put_there(self):
        client = self.client
        client.put("b|1", "base")
        client.join("b|<x> = copy a|<x>")
        client.join("c|<x> = copy b|<x>")
        client.put("a|1", "A")
        self.assertEqual(client.get("c|1"), pequod.Found(4, "A"))
        client.drop(2)
        self.assertEqual(client.get("c|1"), pequod.Found(5, "base"))


class Pipelines(Case):
    def test_a_thousand_requests(self):
        with self.client.pipeline() as pipeline:
            puts = [pipeline.put(f"k|{number:04}", str(number)) for number in range(500)]
            gets = [pipeline.get(f"k|{number:04}") for number in range(499)]
            scan = pipeline.scan("k|", "k}")
        self.assertEqual([put.result().position for put in puts], list(range(1, 501)))
        self.assertEqual([get.result().value for get in gets], [str(number) for number in range(499)])
        self.assertEqual(len(scan.result()), 500)
        self.assertEqual(self.client.position, 500)

    def test_replies_that_nobody_would_read_before_all_is_sent(self):
        value = "x" * 60_000
        self.client.put("k|a", value)
        with self.client.pipeline() as pipeline:
            both = [(pipeline.get("k|a"), pipeline.put(f"m|{number}", value)) for number in range(500)]
        self.assertTrue(all(get.result().value == value and put.result() for get, put in both))
        self.assertEqual(self.client.get("m|499").position, 501)

    def test_a_refusal_in_the_middle(self):
        with self.assertRaises(pequod.Refused) as caught:
            with self.client.pipeline() as pipeline:
                first, second, third = pipeline.put("k|a", "x"), pipeline.put("|", "x"), pipeline.get("k|a")
        error = caught.exception
        self.assertEqual((error.name, error.kind, error.key, error.number), ("key", "put", "|", 1))
        self.assertEqual(str(error), "request 1 of the pipeline, put of '|': refused: key")
        self.assertEqual((first.result().position, third.result().value), (1, "x"))
        self.assertIs(second.error(), caught.exception)
        with self.client.pipeline(check=False) as pipeline:
            first, second = pipeline.put("|", "x"), pipeline.remove("k|a")
        self.assertEqual((first.error().name, second.result().position, second.error()), ("key", 2, None))

    def test_what_was_not_sent(self):
        with self.assertRaises(ZeroDivisionError):
            with self.client.pipeline() as pipeline:
                pending = pipeline.put("k|a", "x")
                _ = 1 / 0
        with self.assertRaises(RuntimeError):
            pending.result()
        with self.client.pipeline():
            pass
        self.assertEqual(self.client.get("k|a"), pequod.Absent(0))

    def test_joins_and_prefixes(self):
        with self.client.pipeline() as pipeline:
            pipeline.join(TIMELINE)
            pipeline.put("s|ann|bob", "1")
            pipeline.put("p|bob|100", "Hi")
            timeline = pipeline.scan_prefix("t|ann|")
        self.assertEqual(timeline.result(), pequod.Pairs(3, (("t|ann|100|bob", "Hi"),)))


class Clients(Case):
    options = ("--workers", "4")

    def test_two_see_what_the_other_was_acknowledged(self):
        with self.server.connect() as other:
            for number in range(200):
                one, two = (self.client, other) if number % 2 else (other, self.client)
                done = one.put("k|a", str(number))
                self.assertEqual(done.position, number + 1)
                self.assertEqual(two.get("k|a"), pequod.Found(number + 1, str(number)))

    def test_a_client_that_goes_leaves_the_others(self):
        with self.server.connect() as other:
            other.put("k|a", "x")
        with socket.create_connection((HOST, self.server.port)) as link:
            link.sendall(b'["put","k|')
        self.assertEqual(self.client.get("k|a"), pequod.Found(1, "x"))

    def test_a_pool_of_four_threads(self):
        errors = []

        def work(thread):
            try:
                for number in range(100):
                    with pool.client() as client:
                        client.put(f"k|{thread}|{number:03}", "x")
                        self.assertEqual(len(client.scan_prefix(f"k|{thread}|")), number + 1)
            except BaseException as error:
                errors.append(error)

        self.client.close()
        with pequod.Pool(HOST, self.server.port, size=4, timeout=20) as pool:
            threads = [threading.Thread(target=work, args=(thread,)) for thread in range(4)]
            for thread in threads:
                thread.start()
            for thread in threads:
                thread.join()
            self.assertEqual(errors, [])
            with pool.client() as client:
                pairs = client.scan("k|", "k}")
        self.assertEqual((len(pairs), pairs.position), (400, 400))

    def test_a_pool_of_one_that_two_threads_want(self):
        with pequod.Pool(HOST, self.server.port, size=1, timeout=20) as pool:
            with pool.client() as one:
                started = threading.Event()

                def work():
                    started.set()
                    with pool.client() as client:
                        seen.append(client)

                seen = []
                thread = threading.Thread(target=work)
                thread.start()
                started.wait()
                self.assertEqual(seen, [])
                one.put("k|a", "x")
            thread.join()
            self.assertIs(seen[0], one)
        with self.assertRaises(pequod.LinkLost):
            with pool.client():
                pass

    def test_a_pool_all_of_whose_clients_are_lent(self):
        with pequod.Pool(HOST, self.server.port, size=1, timeout=1.0) as pool:
            with pool.client():
                with self.assertRaises(TimeoutError) as caught:
                    with pool.client():
                        pass
            self.assertEqual(str(caught.exception), "all 1 clients of the pool were lent for 1.0 seconds")
            with pool.client() as client:
                self.assertEqual(client.put("k|a", "x").position, 1)
            self.assertEqual(pool.position, 1)

    def test_a_pool_connects_anew(self):
        with pequod.Pool(HOST, self.server.port, size=2, timeout=20) as pool:
            with pool.client() as one:
                one.put("k|a", "x")
                one.close()
            with pool.client() as two:
                self.assertIsNot(two, one)
                self.assertEqual(two.get("k|a").value, "x")


class JoinsFile(Case):
    joins = ("# a timeline", "", TIMELINE, "posts|<poster> = count p|<poster>|<time>")

    def test_joins_stand_at_the_first_positions(self):
        self.assertEqual(self.client.put("s|ann|bob", "1"), pequod.Done(3))
        self.client.put("p|bob|100", "Hi")
        self.client.put("p|bob|101", "Ho")
        self.assertEqual([value for _, value in self.client.scan_prefix("t|ann|")], ["Hi", "Ho"])
        self.assertEqual(self.client.get("posts|bob"), pequod.Found(5, "2"))
        self.client.remove("s|ann|bob")
        self.assertEqual(self.client.scan_prefix("t|ann|"), pequod.Pairs(6, ()))
        self.refused("computed", 6, (2,), self.client.put, "posts|bob", "9")
        self.client.drop(2)
        self.assertEqual(self.client.put("posts|bob", "9"), pequod.Done(8))


class Links(unittest.TestCase):
    """Links that break, and replies that a server has no cause to give."""

    @contextlib.contextmanager
    def client_of(self, reply, timeout=20.0):
        """A client of one that gives this answer to whatever comes, and then closes."""
        listener = socket.create_server((HOST, 0))
        done = threading.Event()

        def answer():
            link, _ = listener.accept()
            with link:
                link.recv(65_536)
                link.sendall(reply)
                if timeout < 1:
                    done.wait()

        thread = threading.Thread(target=answer)
        thread.start()
        try:
            with listener, pequod.connect(HOST, listener.getsockname()[1], timeout) as client:
                yield client
        finally:
            done.set()
            thread.join()

    def test_no_memory(self):
        with self.client_of(b'["error","memory"]\n') as client:
            with self.assertRaises(pequod.OutOfMemory):
                client.put("k|a", "x")
            self.assertTrue(client.is_open)

    def test_a_full_history(self):
        with self.client_of(b'["error","full",281474976710655]\n') as client:
            with self.assertRaises(pequod.Refused) as caught:
                client.put("k|a", "x")
        self.assertEqual((caught.exception.name, caught.exception.position), ("full", 2**48 - 1))

    def test_a_write_that_was_not_acknowledged(self):
        with self.client_of(b'["o') as client:
            with self.assertRaises(pequod.LinkLost) as caught:
                client.put("k|a", "x")
            self.assertFalse(client.is_open)
        self.assertEqual((caught.exception.unanswered, caught.exception.write_may_stand), (1, True))
        self.assertIn("may stand", str(caught.exception))
        self.assertIsInstance(caught.exception, OSError)

    def test_a_server_without_a_free_worker(self):
        with Server("--workers", "1") as server, server.connect() as first, server.connect(0.5) as second:
            first.get("k|a")
            with self.assertRaises(pequod.LinkLost) as caught:
                second.get("k|a")
        self.assertIn("was no worker free?", str(caught.exception))

    def test_a_later_reply_that_takes_too_long(self):
        with self.client_of(b'["none",0]\n', timeout=0.5) as client:
            client.get("k|a")
            with self.assertRaises(pequod.LinkLost) as caught:
                client.get("k|a")
        self.assertNotIn("was no worker free?", str(caught.exception))

    def test_a_pipeline_that_breaks(self):
        with self.client_of(b'["ok",1]\n["none",1]\n') as client:
            with self.assertRaises(pequod.LinkLost) as caught:
                with client.pipeline() as pipeline:
                    pending = [pipeline.put("k|a", "x"), pipeline.get("k|b"), pipeline.get("k|b"), pipeline.get("k|c")]
        self.assertEqual((caught.exception.unanswered, caught.exception.write_may_stand), (2, False))
        self.assertEqual(pending[0].result(), pequod.Done(1))
        self.assertEqual(pending[1].result(), pequod.Absent(1))
        self.assertIs(pending[3].error(), caught.exception)

    def test_a_server_that_takes_too_long(self):
        with self.client_of(b"", timeout=0.2) as client:
            with self.assertRaises(pequod.LinkLost) as caught:
                client.remove("k|a")
        self.assertTrue(caught.exception.write_may_stand)
        with self.client_of(b"", timeout=0.2) as client:
            with self.assertRaises(pequod.LinkLost):
                with client.pipeline() as pipeline:
                    pipeline.get("k|a")
                    pipeline.get("k|b")

    def test_another_kind_of_server(self):
        for reply in b"HTTP/1.1 400 Bad Request\r\n", b'["ok",1]\n', b'["none",1]\n["none",1]\n', b'{"a":1}\n', b"[]\n":
            with self.client_of(reply) as client:
                with self.assertRaises(pequod.BadReply):
                    client.get("k|a")
                self.assertFalse(client.is_open)

    def test_nobody_there(self):
        with self.assertRaises(OSError):
            pequod.connect(HOST, free_port())


if __name__ == "__main__":
    unittest.main()
