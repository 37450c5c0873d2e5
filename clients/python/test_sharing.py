"""Tests of a client and a pool that threads share, and of what a fork leaves to the child:
PEQUOD=path/of/the/built/program python3 -m unittest test_sharing"""

import asyncio
import os
import signal
import threading
import unittest

import pequod
from pequod import aio
from serving import HOST, Case, Server, want_program

LOST = "the link is that of the process which this one was forked from, and nothing was sent; reconnect"


def setUpModule():
    want_program()


def in_child(work):
    """What a function gives in a forked child, as text. The child ends without what the tests would do at their end."""
    reading, writing = os.pipe()
    child = os.fork()
    if child == 0:
        try:
            signal.alarm(30)
            try:
                told = str(work())
            except BaseException as error:
                told = f"{type(error).__name__}: {error}"
            os.write(writing, told.encode())
        finally:
            os._exit(0)
    os.close(writing)
    with open(reading, encoding="utf-8") as told:
        text = told.read()
    os.waitpid(child, 0)
    return text


class Threads(Case):
    def test_threads_that_share_a_client_get_their_own_answers(self):
        with self.client.pipeline() as pipeline:
            for number in range(8):
                pipeline.put(f"k|{number}", str(number) * 1_000)
        seen = []

        def work(number):
            for _ in range(300):
                with self.client.pipeline() as both:
                    first, second = both.get(f"k|{number}"), both.scan(f"k|{number}", f"k|{number}0")
                values = [self.client.get(f"k|{number}").value, first.result().value, *dict(second.result()).values()]
                seen.append(values == [str(number) * 1_000] * 3)

        threads = [threading.Thread(target=work, args=(number,)) for number in range(8)]
        for thread in threads:
            thread.start()
        for thread in threads:
            thread.join()
        self.assertEqual((len(seen), all(seen)), (2_400, True))

    def test_a_thread_that_connects_anew_waits_for_the_request_of_another(self):
        self.client.put("k|a", "x" * 60_000)
        ended, seen = threading.Event(), []

        def work():
            while not ended.is_set():
                try:
                    seen.append(self.client.get("k|a").value)
                except pequod.LinkLost as error:
                    # It had not had its turn when the link was replaced.
                    seen.append(str(error))

        thread = threading.Thread(target=work)
        thread.start()
        for _ in range(50):
            self.client.reconnect()
        ended.set()
        thread.join()
        self.assertEqual(set(seen) - {"the link is closed, and nothing was sent"}, {"x" * 60_000})

    def test_a_signal_handler_gets_no_other_answer(self):
        self.client.put("k|a", "a")
        told = []

        def ask(*_):
            try:
                told.append(self.client.get("k|b"))
            except RuntimeError as error:
                told.append(str(error))

        before = signal.signal(signal.SIGALRM, ask)
        self.addCleanup(signal.signal, signal.SIGALRM, before)
        self.addCleanup(signal.setitimer, signal.ITIMER_REAL, 0)
        values = set()
        for number in range(300):
            signal.setitimer(signal.ITIMER_REAL, 0.00001 * (number % 30 + 1))
            values.update(self.client.get("k|a") for _ in range(3))
        self.assertEqual(values, {pequod.Found(1, "a")})
        refused = "a request of this client is under way in the same thread, and nothing was sent"
        self.assertEqual(set(told) - {pequod.Absent(1)}, {refused})


@unittest.skipUnless(hasattr(os, "fork"), "this system forks no process")
class Forks(unittest.TestCase):
    def setUp(self):
        self.server = Server("--workers", "8")
        self.addCleanup(self.server.stop)
        self.client = self.server.connect()
        self.addCleanup(self.client.close)
        self.client.put("k|a", "x")

    def child_and_parent(self, work, wanted):
        """What the child is told, while the parent's link goes on to serve the parent."""
        self.assertEqual(in_child(work), wanted)
        self.assertEqual(self.client.get("k|a"), pequod.Found(1, "x"))

    def test_the_child_sends_nothing_over_the_link_of_the_parent(self):
        for work, wanted in (
            (lambda: self.client.get("k|a"), f"LinkLost: {LOST}"),
            (lambda: self.client.is_open, "False"),
            (self.client.close, "None"),
            (lambda: (self.client.reconnect(), self.client.get("k|a").value), "(None, 'x')"),
            (lambda: next(self.client.watch("k|", "k}")), "('k|a', 'x')"),
        ):
            self.child_and_parent(work, wanted)

    def test_a_fork_while_another_thread_has_the_turn(self):
        turn = self.client._turn.own()
        held, ended = threading.Event(), threading.Event()

        def hold():
            with turn:
                held.set()
                ended.wait(30)

        thread = threading.Thread(target=hold)
        thread.start()
        held.wait()
        told = in_child(lambda: (self.client.reconnect(), self.client.get("k|a").value))
        ended.set()
        thread.join()
        self.assertEqual(told, "(None, 'x')")

    def test_a_pool_that_was_made_before(self):
        pool = pequod.Pool(HOST, self.server.port, size=1, timeout=5)
        self.addCleanup(pool.close)

        def ask():
            with pool.client() as client:
                return client.get("k|a").value, client._socket.getsockname()[1]

        def ask_over_another_link():
            value, port = ask()
            return value, port != links[0]

        links = [ask()[1]]
        self.child_and_parent(ask_over_another_link, "('x', True)")
        with pool.client():
            self.child_and_parent(ask_over_another_link, "('x', True)")
        self.assertEqual(ask(), ("x", links[0]))

    def test_a_client_for_asyncio(self):
        async def ask(client):
            return (await client.get("k|a")).value

        async def anew(client):
            await client.reconnect()
            return await ask(client)

        async def work():
            async with await aio.connect(HOST, self.server.port, 20) as client:
                told = [in_child(lambda: asyncio.run(each(client))) for each in (ask, anew)]
                await asyncio.sleep(0)
                return [*told, await ask(client)]

        self.assertEqual(asyncio.run(work()), [f"LinkLost: {LOST}", "x", "x"])


if __name__ == "__main__":
    unittest.main()
