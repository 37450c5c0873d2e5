"""Tests of how a restart of the server is seen: PEQUOD=path/of/the/built/program python3 -m unittest test_restarts"""

import asyncio
import logging
import threading
import unittest

import pequod
from pequod import aio
from serving import HOST, Server, want_program

JOIN = "b|<x> = copy a|<x>"


def setUpModule():
    want_program()
    # The loop of these tests would tell of each step that a busy machine made slow.
    logging.getLogger("asyncio").setLevel(logging.ERROR)


def put_some(client, count=5):
    with client.pipeline() as pipeline:
        for number in range(count):
            pipeline.put(f"k|{number}", "x")


class Clients(unittest.TestCase):
    def setUp(self):
        self.server = Server(joins=[JOIN])
        self.addCleanup(self.server.stop)
        self.client = self.server.connect()
        self.addCleanup(self.client.close)

    def test_a_restart_between_two_requests(self):
        put_some(self.client)
        self.server.restart()
        with self.assertRaises(pequod.LinkLost):
            self.client.get("k|1")
        with self.assertRaises(pequod.Restarted) as caught:
            self.client.reconnect()
        self.assertEqual((caught.exception.before, caught.exception.position), (6, 1))
        self.assertEqual(str(caught.exception), "the server was started anew: it is at position 1, and was at 6 before")
        self.assertTrue(self.client.is_open)
        self.assertEqual(self.client.get("k|1"), pequod.Absent(1))
        self.client.reconnect()
        self.assertEqual(self.client.position, 1)

    def test_a_link_that_broke_without_a_restart(self):
        self.client.reconnect()
        put_some(self.client)
        self.client.close()
        self.client.reconnect()
        self.assertEqual(self.client.get("k|1"), pequod.Found(6, "x"))

    def test_a_server_that_is_gone(self):
        put_some(self.client)
        self.server.end()
        with self.assertRaises(pequod.LinkLost):
            self.client.get("k|1")
        with self.assertRaises(OSError):
            self.client.reconnect()
        self.assertFalse(self.client.is_open)
        self.server.start()
        with self.assertRaises(pequod.Restarted):
            self.client.reconnect()

    def test_what_cannot_be_told(self):
        put_some(self.client)
        self.server.restart()
        with self.server.connect() as other:
            put_some(other, 6)
        self.client.close()
        self.client.reconnect()
        self.assertEqual(self.client.get("k|1").position, 7)


class Pools(unittest.TestCase):
    def setUp(self):
        self.server = Server("--workers", "8", joins=[JOIN])
        self.addCleanup(self.server.stop)
        self.fills = []

    def fill(self, client):
        self.fills.append(client)
        put_some(client)

    def pool(self, **options):
        pool = pequod.Pool(HOST, self.server.port, size=4, timeout=20, **options)
        self.addCleanup(pool.close)
        return pool

    def test_it_is_filled_before_the_request_goes_on(self):
        pool = self.pool(on_restart=self.fill)
        with pool.client() as client:
            put_some(client)
        self.assertEqual((self.fills, pool.position), ([], 6))
        for round in 1, 2:
            self.server.restart()
            with pool.client() as client:
                self.assertEqual(client.get("k|1"), pequod.Found(6, "x"))
            self.assertEqual((len(self.fills), pool.position), (round, 6))

    def test_threads_that_connect_meanwhile_wait_for_it(self):
        pool = self.pool(on_restart=self.fill_slowly)
        with pool.client() as client:
            put_some(client, 20)
        self.server.restart()
        seen, begun = [], threading.Barrier(4)

        def work():
            begun.wait()
            with pool.client() as client:
                seen.append(client.get("k|19").value)

        threads = [threading.Thread(target=work) for _ in range(4)]
        for thread in threads:
            thread.start()
        for thread in threads:
            thread.join()
        self.assertEqual((seen, len(self.fills)), (["x"] * 4, 1))

    def fill_slowly(self, client):
        self.fills.append(client)
        for number in range(20):
            client.put(f"k|{number}", "x")
            threading.Event().wait(0.01)

    def test_a_fill_that_fails_is_called_again(self):
        def fill(client):
            self.fills.append(client)
            put_some(client, 30)
            if len(self.fills) == 1:
                raise ZeroDivisionError

        pool = self.pool(on_restart=fill)
        with pool.client() as client:
            put_some(client)
        self.server.restart()
        with self.assertRaises(ZeroDivisionError):
            with pool.client():
                pass
        for _ in range(2):
            with pool.client() as client:
                self.assertEqual(client.get("k|29").value, "x")
            self.assertEqual(len(self.fills), 2)

    def test_without_a_fill_one_thread_is_told(self):
        pool = self.pool()
        with pool.client() as client:
            put_some(client)
        self.server.restart()
        with self.assertRaises(pequod.Restarted):
            with pool.client():
                pass
        with pool.client() as client:
            self.assertEqual(client.get("k|1"), pequod.Absent(1))

    def test_a_client_of_the_earlier_run_that_comes_back_late(self):
        pool = self.pool(on_restart=self.fill)
        with pool.client() as early:
            put_some(early, 50)
            self.server.restart()
            with pool.client() as client:
                self.assertEqual(client.get("k|1").position, 6)
                early._run.note(51)
            with self.assertRaises(pequod.LinkLost):
                early.get("k|1")
        for _ in range(3):
            with pool.client() as client:
                client.close()
        self.assertEqual((len(self.fills), pool.position), (1, 6))


class Tasks(unittest.IsolatedAsyncioTestCase):
    def setUp(self):
        self.server = Server("--workers", "8", joins=[JOIN])
        self.addCleanup(self.server.stop)
        self.fills = []

    async def fill(self, client):
        self.fills.append(client)
        for number in range(20):
            await client.put(f"k|{number}", "x")
            await asyncio.sleep(0.005)

    async def test_a_restart_between_two_requests(self):
        async with await aio.connect(HOST, self.server.port, 20) as client:
            await self.fill(client)
            self.server.restart()
            with self.assertRaises(pequod.LinkLost):
                await client.get("k|1")
            with self.assertRaises(pequod.Restarted) as caught:
                await client.reconnect()
            self.assertEqual((caught.exception.before, caught.exception.position), (21, 1))
            self.assertEqual(await client.get("k|1"), pequod.Absent(1))

    async def test_it_is_filled_before_the_request_goes_on(self):
        async with aio.Pool(HOST, self.server.port, size=4, timeout=20, on_restart=self.fill) as pool:
            async with pool.client() as client:
                await self.fill(client)
            self.server.restart()

            async def work():
                async with pool.client() as client:
                    return (await client.get("k|19")).value

            values = await asyncio.gather(*(work() for _ in range(8)))
            self.assertEqual((values, len(self.fills), pool.position), (["x"] * 8, 2, 21))

    async def test_without_a_fill_one_task_is_told(self):
        async with aio.Pool(HOST, self.server.port, size=4, timeout=20) as pool:
            async with pool.client() as client:
                await self.fill(client)
            self.server.restart()
            with self.assertRaises(pequod.Restarted):
                async with pool.client():
                    pass
            async with pool.client() as client:
                self.assertFalse(await client.get("k|1"))


if __name__ == "__main__":
    unittest.main()
