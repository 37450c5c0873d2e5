"""Tests of the client for asyncio: PEQUOD=path/of/the/built/program python3 -m unittest test_aio"""

import asyncio
import contextlib
import inspect
import logging
import unittest

import pequod
from pequod import aio
from serving import HOST, Server, free_port, want_program


def setUpModule():
    want_program()
    # The loop of these tests would tell of each step that a busy machine made slow.
    logging.getLogger("asyncio").setLevel(logging.ERROR)


class Calls(unittest.IsolatedAsyncioTestCase):
    def setUp(self):
        self.server = Server()
        self.addCleanup(self.server.stop)

    async def asyncSetUp(self):
        self.client = await aio.connect(HOST, self.server.port, 20)
        self.addCleanup(self.client.close)

    def test_it_has_the_same_calls(self):
        for one, two in (pequod.Client, aio.Client), (pequod.Pipeline, aio.Pipeline), (pequod.Pool, aio.Pool):
            names = {name for name in dir(one) if not name.startswith("_")}
            self.assertEqual(names, {name for name in dir(two) if not name.startswith("_")})
            for name in names - {"position", "is_open"}:
                words = [list(inspect.signature(getattr(each, name)).parameters) for each in (one, two)]
                self.assertEqual(words[0], words[1], name)

    async def test_each_method(self):
        client = self.client
        self.assertEqual(await client.join("b|<x> = copy a|<x>"), pequod.Done(1))
        self.assertEqual(await client.put("a|1", "Hi"), pequod.Done(2))
        self.assertEqual(await client.get("b|1"), pequod.Found(2, "Hi"))
        self.assertEqual(await client.get("b|2"), pequod.Absent(2))
        self.assertEqual(await client.scan("b|", "b}"), pequod.Pairs(2, (("b|1", "Hi"),)))
        self.assertEqual(await client.scan_prefix("b|"), pequod.Pairs(2, (("b|1", "Hi"),)))
        self.assertEqual(await client.remove("a|1"), pequod.Done(3))
        self.assertEqual(client.position, 3)
        with self.assertRaises(pequod.Refused) as caught:
            await client.put("b|1", "x")
        error = caught.exception
        self.assertEqual((error.name, error.position, error.details), ("computed", 3, (1,)))
        self.assertEqual((error.kind, error.key), ("put", "b|1"))
        with self.assertRaisesRegex(TypeError, "5 is of type int"):
            await client.put("a|1", 5)
        with self.assertRaises(ValueError):
            await client.scan_prefix("a|1")

    async def test_a_pipeline(self):
        value = "x" * 60_000
        async with self.client.pipeline() as pipeline:
            both = [(pipeline.put(f"k|{number}", value), pipeline.get(f"k|{number}")) for number in range(300)]
        self.assertTrue(all(get.result().value == value and put.result() for put, get in both))
        with self.assertRaises(pequod.Refused) as caught:
            async with self.client.pipeline() as pipeline:
                first, second, third = pipeline.put("k|a", "x"), pipeline.put("|", "x"), pipeline.get("k|a")
        self.assertEqual((caught.exception.number, third.result().value), (1, "x"))
        async with self.client.pipeline(check=False) as pipeline:
            second = pipeline.put("|", "x")
        self.assertEqual(second.error().name, "key")
        with self.assertRaises(ZeroDivisionError):
            async with self.client.pipeline() as pipeline:
                pipeline.remove("k|a")
                _ = 1 / 0
        self.assertTrue(await self.client.get("k|a"))

    async def test_tasks_that_share_a_client(self):
        async def work(number):
            await self.client.put(f"k|{number}", str(number))
            return (await self.client.get(f"k|{number}")).value

        values = await asyncio.gather(*(work(number) for number in range(100)))
        self.assertEqual(values, [str(number) for number in range(100)])

    async def test_a_request_that_is_cancelled_closes_the_link(self):
        asked = asyncio.ensure_future(self.client.put("k|a", "x"))
        await asyncio.sleep(0)
        asked.cancel()
        with self.assertRaises(asyncio.CancelledError):
            await asked
        self.assertFalse(self.client.is_open)
        with self.assertRaises(pequod.LinkLost):
            await self.client.get("k|a")
        await self.client.reconnect()
        await self.client.get("k|a")

    async def test_a_pool(self):
        self.client.close()

        async def work(task):
            for number in range(50):
                async with pool.client() as client:
                    await client.put(f"k|{task}|{number:02}", "x")
                    self.assertEqual(len(await client.scan_prefix(f"k|{task}|")), number + 1)

        async with aio.Pool(HOST, self.server.port, size=3, timeout=20) as pool:
            await asyncio.gather(*(work(task) for task in range(6)))
            async with pool.client() as client:
                self.assertEqual(len(await client.scan("k|", "k}")), 300)
            self.assertEqual(pool.position, 300)
        with self.assertRaises(pequod.LinkLost):
            async with pool.client():
                pass

    async def test_a_pool_all_of_whose_clients_are_lent(self):
        async with aio.Pool(HOST, self.server.port, size=1, timeout=1.0) as pool:
            async with pool.client():
                with self.assertRaises(TimeoutError):
                    async with pool.client():
                        pass
            async with pool.client() as client:
                self.assertEqual((await client.put("k|a", "x")).position, 1)


class Links(unittest.IsolatedAsyncioTestCase):
    """Links that break, and replies that a server has no cause to give."""

    @contextlib.asynccontextmanager
    async def client_of(self, reply, timeout=20.0):
        """A client of one that gives this answer to whatever comes, and then closes."""
        done = asyncio.Event()

        async def answer(reader, writer):
            await reader.read(65_536)
            writer.write(reply)
            if timeout < 1:
                await done.wait()
            writer.close()

        server = await asyncio.start_server(answer, HOST, 0)
        try:
            async with await aio.connect(HOST, server.sockets[0].getsockname()[1], timeout) as client:
                yield client
        finally:
            done.set()
            server.close()

    async def test_a_pipeline_that_breaks(self):
        async with self.client_of(b'["ok",1]\n["none",1]\n["o') as client:
            with self.assertRaises(pequod.LinkLost) as caught:
                async with client.pipeline() as pipeline:
                    pending = [pipeline.put("k|a", "x"), pipeline.get("k|b"), pipeline.get("k|b"), pipeline.put("k|c", "x")]
        self.assertEqual((caught.exception.unanswered, caught.exception.write_may_stand), (2, True))
        self.assertEqual((pending[0].result(), pending[1].result()), (pequod.Done(1), pequod.Absent(1)))

    async def test_a_server_that_takes_too_long(self):
        async with self.client_of(b"", timeout=0.9) as client:
            with self.assertRaises(pequod.LinkLost) as caught:
                await client.get("k|a")
        self.assertEqual((caught.exception.unanswered, caught.exception.write_may_stand), (1, False))
        self.assertIn("was no worker free?", str(caught.exception))

    async def test_another_kind_of_server(self):
        for reply in b"HTTP/1.1 400 Bad Request\r\n", b'["ok",1]\n', b'["none",1]\n["none",1]\n', b"[]\n":
            async with self.client_of(reply) as client:
                with self.assertRaises(pequod.BadReply):
                    await client.get("k|a")
                self.assertFalse(client.is_open)

    async def test_no_memory(self):
        async with self.client_of(b'["error","memory"]\n') as client:
            with self.assertRaises(pequod.OutOfMemory):
                await client.put("k|a", "x")
            self.assertTrue(client.is_open)

    async def test_nobody_there(self):
        with self.assertRaises(OSError):
            await aio.connect(HOST, free_port())


if __name__ == "__main__":
    unittest.main()
