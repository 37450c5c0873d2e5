"""The same client for asyncio.

    from pequod import aio

    async with await aio.connect("127.0.0.1", 7000) as client:
        await client.put("p|bob|100", "Hi")
        async with client.pipeline() as pipeline:
            answers = [pipeline.get(f"p|bob|{time}") for time in range(100)]
        print([answer.result().value for answer in answers])

Answers and errors are those of `pequod`. A `Client` takes one request or pipeline after another: tasks that share one wait for
their turn. Where the link is lost or replaced by then, the request is not sent over another one, and raises `LinkLost`. A request
that is cancelled while it is under way closes the link, since its reply may still come.
"""

from __future__ import annotations

import asyncio
import contextlib
import os
import selectors
import time
from typing import Any, AsyncIterator, Awaitable, Callable, Literal, Optional, Sequence, TypeVar, Union, overload

from .answers import Changes, Done, Pairs, Value
from .errors import Ahead, Gone, LinkLost, Restarted
from .exchange import Batch, Exchange, Lines, ManyPairs, Pending, pairs_of
from .feeding import Joins
from .forks import OwnOfProcess
from .runs import PROBE_KEY, Run
from .watching import RECONNECT_PAUSE, Watch
from .wire import (
    Request, changes_request, drop_request, get_request, join_request, prefix_bounds, put_request, remove_request, scan_request,
)

__all__ = ["Client", "Pipeline", "Pool", "connect"]

T = TypeVar("T")


class _Link(asyncio.Protocol):
    """One connection: what came of it and was not read yet, and whether it has ended."""

    def __init__(self) -> None:
        self._lines = Lines()
        self._pieces: list[bytes] = []
        self._end: Optional[Exception] = None
        self._came = asyncio.Event()
        self._process = os.getpid()
        self._transport: Optional[asyncio.Transport] = None

    def connection_made(self, transport: asyncio.BaseTransport) -> None:
        assert isinstance(transport, asyncio.Transport)
        self._transport = transport

    def data_received(self, data: bytes) -> None:
        self._pieces.append(data)
        self._came.set()

    def connection_lost(self, exc: Optional[Exception]) -> None:
        self._end = exc or ConnectionError("the server closed it")
        self._came.set()

    def is_own(self) -> bool:
        """Whether this process made it, and not the one that it was forked from."""
        return self._process == os.getpid()

    def is_quiet(self) -> bool:
        """Whether it is open and nothing came that was not read, also nothing that the loop has not seen yet."""
        if self._transport is None or self._end is not None or self._pieces or not self.is_own():
            return False
        with selectors.DefaultSelector() as selector:
            selector.register(self._transport.get_extra_info("socket"), selectors.EVENT_READ)
            return not selector.select(0)

    @property
    def is_fresh(self) -> bool:
        """Whether nothing ever came over it."""
        return self._lines.is_fresh

    def send(self, data: bytes) -> None:
        """Sends bytes in the background."""
        if self._transport is not None:
            self._transport.write(data)

    async def receive(self, timeout: Optional[float]) -> list[bytes]:
        """Waits for bytes, and gives the lines that end in all that came."""
        if self._end is None and not self._pieces:
            self._came.clear()
            try:
                await asyncio.wait_for(self._came.wait(), timeout)
            except asyncio.TimeoutError:
                raise TimeoutError("timed out") from None
        if not self._pieces and self._end is not None:
            raise self._end
        piece = b"".join(self._pieces)
        self._pieces.clear()
        return self._lines.take(piece)

    def close(self) -> None:
        # What a loop waits for is shared with the parent after a fork, so a child would take the parent's link out of it.
        if self._transport is not None and self.is_own():
            self._transport.abort()


class Client:
    """A connection to a server. `connect` makes one."""

    position: int
    """The last position that was told of the whole history, and 0 before the first: that of a scan at an earlier position is
    left out. It goes back where a restart is seen, and only there."""

    def __init__(self, host: str, port: int, timeout: Optional[float]) -> None:
        self.position = 0
        self._run = Run()
        self._where = (host, port)
        self._timeout = timeout
        self._links = 0
        self._restarted: Optional[Restarted] = None
        self._is_closed = False
        self._turn = OwnOfProcess(asyncio.Lock)
        self._connecting = OwnOfProcess(asyncio.Lock)
        self._link: Optional[_Link] = None

    async def put(self, key: str, value: str, strict: Optional[Joins] = None) -> Done:
        """Sets the value of a key, of at most 65,536 bytes. A key is `TABLE|` and more, of at most 512 bytes. With `strict` it
        raises `Unread`, and sends nothing, where none of these joins reads the key."""
        return await self._ask(put_request(key, value, strict))

    async def put_many(self, pairs: ManyPairs, strict: Optional[Joins] = None) -> int:
        """Puts the pairs of a mapping, or of anything that gives pairs, by pipelines of some thousand each, and gives how many
        there were. Where one is refused, `Refused` or `OutOfMemory` is raised with its place as `number`, counted from 0: those
        before it stand, and those behind it in the same pipeline may. With `strict` as `put`."""
        count = 0
        pipeline = self.pipeline()
        for count, (key, value) in enumerate(pairs_of(pairs), 1):
            pipeline.put(key, value, strict)
            if pipeline._is_large():
                await pipeline.send()
        await pipeline.send()
        return count

    async def remove(self, key: str) -> Done:
        """Removes the pair of a key. It is a write also where nothing stands there."""
        return await self._ask(remove_request(key))

    async def join(self, text: str) -> Done:
        """Declares a join, at any time. It stands until it is dropped, and is named by the position of the answer. Pairs that
        were put under keys that fit its output are hidden as long as it stands."""
        return await self._ask(join_request(text))

    async def drop(self, position: int) -> Done:
        """Drops the join that was declared at a position: its output is gone, and pairs that it hid are there again."""
        return await self._ask(drop_request(position))

    async def get(self, key: str) -> Value:
        """The value of a key: `Found`, or `Absent`, which is false. Both have `value`, which is None where there is none."""
        return await self._ask(get_request(key))

    async def scan(self, first: str, last: str, at: Optional[int] = None) -> Pairs:
        """All pairs with first <= key < last, in the byte order of their keys, within one table.

        With `at` they are those after the first so many entries, as any answer's position names them: `Gone` where more than
        65,536 entries came since, and `Ahead` where there are not so many. Scans at one position agree with one another."""
        return await self._ask(scan_request(first, last, at))

    async def scan_prefix(self, prefix: str, at: Optional[int] = None) -> Pairs:
        """All pairs whose keys begin with a text that ends with `|`, as `t|ann|`."""
        return await self.scan(*prefix_bounds(prefix), at)

    async def changes(self, first: str, last: str, since: int) -> Changes:
        """What changed in the range since a position, up to now. `Gone` and `Ahead` as of `scan`."""
        return await self._ask(changes_request(first, last, since))

    @overload
    def watch(
        self, first: str, last: str, every: float = 1.0, restarts: Literal[False] = False,
    ) -> AsyncIterator[tuple[str, Optional[str]]]: ...

    @overload
    def watch(
        self, first: str, last: str, every: float = 1.0, *, restarts: Literal[True],
    ) -> AsyncIterator[Union[tuple[str, Optional[str]], Restarted]]: ...

    async def watch(self, first: str, last: str, every: float = 1.0, restarts: bool = False) -> AsyncIterator[Any]:
        """Yields each key of a range with its value, and then each that changes, as that of `pequod.Client` does. Several tasks
        may watch over one client."""
        watch, seen = Watch(first, last), self._restarted
        while True:
            if restarts:
                async with self._connecting.own():
                    # Another task that connects anew finds first whether the server was started anew.
                    pass
            if restarts and self._restarted is not None and self._restarted is not seen:
                seen = self._restarted
                watch.forget()
                yield seen
            try:
                changed = watch.take(await self._ask(watch.request(self._links)))
            except (Gone, Ahead):
                watch.begin_anew()
                continue
            except LinkLost as error:
                watch.lose(error)
                await self._regain_link()
                continue
            for each in changed:
                yield each
            await asyncio.sleep(every)

    def pipeline(self, check: bool = True) -> Pipeline:
        """A pipeline over this connection, which sends its requests together at the end of its `async with`."""
        return Pipeline(self, check)

    @property
    def is_open(self) -> bool:
        """Whether requests can be made: the client was not closed and has not lost its link, as far as it knows."""
        return self._link is not None and self._link.is_own()

    async def reconnect(self) -> None:
        """Connects anew to the same server, as that of `pequod.Client` does. Where tasks ask for it at once, one of them connects
        for all, and is alone told of a restart."""
        self._is_closed = False
        await self._replace_link(self._link)

    def close(self) -> None:
        """Closes the connection. A client that is closed already stays as it is, and only `reconnect` opens it again."""
        self._is_closed = True
        self._drop_link()

    async def __aenter__(self) -> Client:
        return self

    async def __aexit__(self, *_: object) -> None:
        self.close()

    async def _regain_link(self) -> None:
        """Connects anew, and tries so again and again for as long as the timeout says. A restart is no error."""
        end = None if self._timeout is None else time.monotonic() + self._timeout
        while not self._is_closed:
            try:
                return await self._replace_link(None)
            except Restarted:
                return
            except OSError:
                if end is not None and time.monotonic() > end:
                    raise
            await asyncio.sleep(RECONNECT_PAUSE)
        raise LinkLost("the client was closed")

    async def _replace_link(self, old: Optional[_Link]) -> None:
        """Makes a new link in place of the old one, or of one that was lost, unless another task has done so by then."""
        async with self._connecting.own():
            if self._link is None or self._link is old:
                self._drop_link()
                await self._connect()
                await self._look_for_restart()

    def _drop_link(self) -> None:
        if self._link is not None:
            self._link.close()
            self._link = None

    async def _connect(self) -> None:
        making = asyncio.get_running_loop().create_connection(_Link, *self._where)
        try:
            _, link = await asyncio.wait_for(making, self._timeout)
        except asyncio.TimeoutError:
            raise TimeoutError("timed out") from None
        if self._is_closed:
            # By another task, meanwhile.
            link.close()
            raise LinkLost("the client was closed")
        self._link = link
        self._links += 1

    async def _look_for_restart(self) -> None:
        """Raises `Restarted` where the server's history is shorter than what was told of its run."""
        before = self._run.position
        if before == 0:
            return
        position = (await self._ask(get_request(PROBE_KEY))).position
        if position < before:
            self._run = Run(position)
            self._restarted = Restarted(before, position)
            raise self._restarted

    async def _ask(self, request: Request[T]) -> T:
        pending = Pending(request)
        await self._exchange([pending])
        return pending.result()

    async def _exchange(self, asked: Sequence[Pending[Any]]) -> None:
        """Sends all requests and takes their replies. Where that ends early, replies may be on their way that nobody could
        tell from those of later requests, so the link is closed, and all that is not answered yet is answered by `LinkLost`.

        What is asked may name a position, and over another link that may be one of another run. So it goes over the link that
        stood when it was asked, or over none."""
        link = self._link
        async with self._turn.own():
            if link is None or link is not self._link:
                raise LinkLost("the link is closed, and nothing was sent")
            if not link.is_own():
                raise LinkLost("the link is that of the process which this one was forked from, and nothing was sent; reconnect")
            exchange = Exchange(asked)
            try:
                link.send(exchange.sent())
                while not exchange.is_answered:
                    exchange.take(await link.receive(self._timeout))
            except BaseException as error:
                # Another task may have replaced it meanwhile.
                if link is self._link:
                    self._drop_link()
                lost = exchange.lose(error, link.is_fresh)
                if isinstance(error, OSError):
                    raise lost from error
                raise
            finally:
                if exchange.position is not None:
                    self.position = exchange.position
                    self._run.note(exchange.position)

    def _is_quiet(self) -> bool:
        """Whether the link is open and nothing came that was not asked for."""
        return self._link is not None and self._link.is_quiet()


class Pipeline(Batch):
    """Requests that are sent together, as those of `pequod.Pipeline`: each method gives a `Pending` at once, and all are sent
    at the end of the `async with`."""

    def __init__(self, client: Client, check: bool = True) -> None:
        super().__init__(check)
        self._client = client

    async def send(self) -> None:
        """Sends what was asked since the last call, and waits for all answers. `async with` calls it at its end."""
        asked = self._take_all()
        if asked:
            await self._client._exchange(asked)
        self._raise_first(asked)

    async def __aenter__(self) -> Pipeline:
        return self

    async def __aexit__(self, kind: Optional[type[BaseException]], *_: object) -> None:
        if kind is None:
            await self.send()


class Pool:
    """Clients of one server for many tasks, as `pequod.Pool` has them for threads. Make it within the running loop.

        pool = aio.Pool("127.0.0.1", 7000, size=4, on_restart=fill)
        async with pool.client() as client:
            await client.put("k|a", "1")

    `on_restart` is a coroutine function that is given a client. What `pequod.Pool` says of it holds here too.
    """

    def __init__(
        self,
        host: str = "127.0.0.1",
        port: int = 7000,
        size: int = 4,
        timeout: Optional[float] = 10.0,
        on_restart: Optional[Callable[[Client], Awaitable[object]]] = None,
    ) -> None:
        self._where = (host, port, timeout)
        self._size = size
        self._timeout = timeout
        self._places = OwnOfProcess(lambda: asyncio.Semaphore(size))
        self._idle: list[Client] = []
        self._is_open = True
        self._on_restart = on_restart
        self._settling = OwnOfProcess(asyncio.Lock)
        self._run = Run()
        self._is_unfilled = False

    @property
    def position(self) -> int:
        """The greatest position that a client of the pool was told since the last restart that was seen, or since the start."""
        return self._run.position

    @contextlib.asynccontextmanager
    async def client(self) -> AsyncIterator[Client]:
        """Lends a client to the task for the length of an `async with`. It waits while all are lent, and raises a TimeoutError
        where that takes too long. One that has lost its link is let go, and the next `async with` connects anew."""
        places = self._places.own()
        try:
            await asyncio.wait_for(places.acquire(), self._timeout)
        except asyncio.TimeoutError:
            raise TimeoutError(f"all {self._size} clients of the pool were lent for {self._timeout} seconds") from None
        try:
            client = self._take() or await self._connect()
            try:
                yield client
            finally:
                self._give_back(client)
        finally:
            places.release()

    def close(self) -> None:
        """Closes all clients that are not lent, and each other one when it is given back."""
        self._is_open = False
        idle, self._idle = self._idle, []
        for client in idle:
            client.close()

    async def __aenter__(self) -> Pool:
        return self

    async def __aexit__(self, *_: object) -> None:
        self.close()

    def _take(self) -> Optional[Client]:
        """The client that was used last and still has its link, if there is one."""
        if not self._is_open:
            raise LinkLost("the pool is closed, and nothing was sent")
        while self._idle:
            client = self._idle.pop()
            if client._is_quiet():
                return client
            client.close()
        return None

    async def _connect(self) -> Client:
        """A new client. Where the server was started anew, it was filled before."""
        client = await connect(*self._where)
        try:
            async with self._settling.own():
                await self._settle(client)
        except BaseException:
            client.close()
            raise
        return client

    async def _settle(self, client: Client) -> None:
        """Looks for a restart, and has the cache filled after one. It is called under the lock that is for this."""
        client._run = self._run
        try:
            await client._look_for_restart()
        except Restarted:
            self._run = client._run
            if self._on_restart is None:
                raise
            self._is_unfilled = True
        if self._is_unfilled and self._on_restart is not None:
            await self._on_restart(client)
            self._is_unfilled = False

    def _give_back(self, client: Client) -> None:
        if self._is_open and client.is_open:
            self._idle.append(client)
        else:
            client.close()


async def connect(host: str = "127.0.0.1", port: int = 7000, timeout: Optional[float] = 10.0) -> Client:
    """Connects to a server. `timeout` and what it raises are as those of `pequod.connect`."""
    client = Client(host, port, timeout)
    await client._connect()
    return client
