"""A connection to a server. Threads that share one take turns."""

from __future__ import annotations

import os
import selectors
import socket
import threading
import time
from typing import Any, Iterator, Literal, Optional, Sequence, TypeVar, Union, overload

from .answers import Changes, Done, Pairs, Value
from .errors import Ahead, Gone, LinkLost, Restarted
from .exchange import PIECE_BYTES, Batch, Exchange, Lines, ManyPairs, Pending, pairs_of
from .feeding import Joins
from .forks import OwnOfProcess
from .runs import PROBE_KEY, Run
from .watching import RECONNECT_PAUSE, Watch
from .wire import (
    Request, changes_request, drop_request, get_request, join_request, prefix_bounds, put_request, remove_request, scan_request,
)

T = TypeVar("T")


class Client:
    """A connection to a server. `connect` makes one.

    Threads that share one take turns: each request, or pipeline when it is sent, waits until the one before it is answered.
    Where the link is lost or replaced by then, it is not sent over another one, and raises `LinkLost`.
    After a fork the link is the parent's: in the child each request raises `LinkLost` and sends nothing, until `reconnect`."""

    position: int
    """The last position that was told of the whole history, and 0 before the first: that of a scan at an earlier position is
    left out. It goes back where a restart is seen, and only there."""

    def __init__(self, host: str = "127.0.0.1", port: int = 7000, timeout: Optional[float] = 10.0) -> None:
        self.position = 0
        self._run = Run()
        self._where = (host, port)
        self._timeout = timeout
        self._lines = Lines()
        self._links = 0
        self._is_closed = False
        self._turn = OwnOfProcess(threading.RLock)
        self._is_asking = False
        self._process = 0
        self._restarted: Optional[Restarted] = None
        self._socket: Optional[socket.socket] = None
        self._connect()

    def put(self, key: str, value: str, strict: Optional[Joins] = None) -> Done:
        """Sets the value of a key, of at most 65,536 bytes. A key is `TABLE|` and more, of at most 512 bytes. With `strict` it
        raises `Unread`, and sends nothing, where none of these joins reads the key."""
        return self._ask(put_request(key, value, strict))

    def put_many(self, pairs: ManyPairs, strict: Optional[Joins] = None) -> int:
        """Puts the pairs of a mapping, or of anything that gives pairs, by pipelines of some thousand each, and gives how many
        there were. Where one is refused, `Refused` or `OutOfMemory` is raised with its place as `number`, counted from 0: those
        before it stand, and those behind it in the same pipeline may. With `strict` as `put`."""
        count = 0
        pipeline = self.pipeline()
        for count, (key, value) in enumerate(pairs_of(pairs), 1):
            pipeline.put(key, value, strict)
            if pipeline._is_large():
                pipeline.send()
        pipeline.send()
        return count

    def remove(self, key: str) -> Done:
        """Removes the pair of a key. It is a write also where nothing stands there."""
        return self._ask(remove_request(key))

    def join(self, text: str) -> Done:
        """Declares a join, at any time. It stands until it is dropped, and is named by the position of the answer. Pairs that
        were put under keys that fit its output are hidden as long as it stands."""
        return self._ask(join_request(text))

    def drop(self, position: int) -> Done:
        """Drops the join that was declared at a position: its output is gone, and pairs that it hid are there again."""
        return self._ask(drop_request(position))

    def get(self, key: str) -> Value:
        """The value of a key: `Found`, or `Absent`, which is false. Both have `value`, which is None where there is none."""
        return self._ask(get_request(key))

    def scan(self, first: str, last: str, at: Optional[int] = None) -> Pairs:
        """All pairs with first <= key < last, in the byte order of their keys, within one table.

        With `at` they are those after the first so many entries, as any answer's position names them: `Gone` where more than
        65,536 entries came since, and `Ahead` where there are not so many. Scans at one position agree with one another."""
        return self._ask(scan_request(first, last, at))

    def scan_prefix(self, prefix: str, at: Optional[int] = None) -> Pairs:
        """All pairs whose keys begin with a text that ends with `|`, as `t|ann|`."""
        return self.scan(*prefix_bounds(prefix), at)

    def changes(self, first: str, last: str, since: int) -> Changes:
        """What changed in the range since a position, up to now. `Gone` and `Ahead` as of `scan`."""
        return self._ask(changes_request(first, last, since))

    @overload
    def watch(
        self, first: str, last: str, every: float = 1.0, restarts: Literal[False] = False,
    ) -> Iterator[tuple[str, Optional[str]]]: ...

    @overload
    def watch(
        self, first: str, last: str, every: float = 1.0, *, restarts: Literal[True],
    ) -> Iterator[Union[tuple[str, Optional[str]], Restarted]]: ...

    def watch(self, first: str, last: str, every: float = 1.0, restarts: bool = False) -> Iterator[Any]:
        """Yields each key of a range with its value, and then, `every` so many seconds, each key that changed with its new
        value, or None where it has gone.

        Where the position that it last saw is gone, or the link was lost, it scans the whole range anew, and yields what is
        another pair than it yielded before. It connects anew by itself, for as long as the client's timeout says, and then
        raises what was in the way. Where the link is lost twice with no answer between, as by a scan that takes longer than the
        timeout, it raises `LinkLost` rather than ask again and again. It does so too where the client was closed. `OutOfMemory`
        and other refusals end it as well.

        With `restarts` it yields a `Restarted` where the server was started anew, and after it each key with its value as at the
        start. Without, a restart shows by the keys that it takes away, and that come back when the cache is filled.

        The client can be used for other requests between two pairs. But give a watch a client of its own, and none of a pool: a
        restart is no error to it, so `on_restart` is not called, and no other request over the client is told."""
        watch, seen = Watch(first, last), self._restarted
        while True:
            if restarts and self._restarted is not None and self._restarted is not seen:
                seen = self._restarted
                watch.forget()
                yield seen
            try:
                link = self._links
                changed = watch.take(self._ask(watch.request(link), link))
            except (Gone, Ahead):
                watch.begin_anew()
                continue
            except LinkLost as error:
                watch.lose(error)
                self._regain_link()
                continue
            yield from changed
            time.sleep(every)

    def pipeline(self, check: bool = True) -> Pipeline:
        """A pipeline over this connection, which sends its requests together at the end of its `with`."""
        return Pipeline(self, check)

    @property
    def is_open(self) -> bool:
        """Whether requests can be made: the client was not closed and has not lost its link, as far as it knows."""
        return self._socket is not None and self._is_own()

    def reconnect(self) -> None:
        """Connects anew to the same server, after the link was lost or closed.

        Where a position was told before, it asks a `get` of its own first, and raises `Restarted` where the answer lies
        before that position. The client is open then too. It raises an OSError where no connection can be made. A client of
        a pool is rather given back, and the pool connects anew.
        """
        self._is_closed = False
        with self._turn.own():
            self._drop_link()
            self._connect()
            self._look_for_restart()

    def close(self) -> None:
        """Closes the connection, and waits for no request that is under way. A client that is closed already stays as it is, and
        only `reconnect` opens it again."""
        self._is_closed = True
        self._drop_link()

    def __enter__(self) -> Client:
        return self

    def __exit__(self, *_: object) -> None:
        self.close()

    def _regain_link(self) -> None:
        """Connects anew, and tries so again and again for as long as the timeout says. A restart is no error."""
        end = None if self._timeout is None else time.monotonic() + self._timeout
        while not self._is_closed:
            try:
                return self.reconnect()
            except Restarted:
                return
            except OSError:
                if end is not None and time.monotonic() > end:
                    raise
            time.sleep(RECONNECT_PAUSE)
        raise LinkLost("the client was closed")

    def _is_own(self) -> bool:
        """Whether this process made the link, and not the one that it was forked from."""
        return self._process == os.getpid()

    def _drop_link(self) -> None:
        # That of a parent stands on: this closes the child's copy alone.
        if self._socket is not None:
            self._socket.close()
            self._socket = None

    def _connect(self) -> None:
        self._lines = Lines()
        self._is_asking = False
        self._process = os.getpid()
        self._socket = socket.create_connection(self._where, self._timeout)
        self._links += 1
        self._socket.setsockopt(socket.IPPROTO_TCP, socket.TCP_NODELAY, 1)

    def _look_for_restart(self) -> None:
        """Raises `Restarted` where the server's history is shorter than what was told of its run."""
        before = self._run.position
        if before == 0:
            return
        position = self._ask(get_request(PROBE_KEY)).position
        if position < before:
            self._run = Run(position)
            self._restarted = Restarted(before, position)
            raise self._restarted

    def _ask(self, request: Request[T], link: Optional[int] = None) -> T:
        pending = Pending(request)
        self._exchange([pending], self._links if link is None else link)
        return pending.result()

    def _exchange(self, asked: Sequence[Pending[Any]], number: int) -> None:
        """Sends all requests and takes their replies, when it is their turn. Where that ends early, replies may be on their way
        that nobody could tell from those of later requests, so the link is closed, and all that is not answered yet is answered
        by `LinkLost`.

        What is asked may name a position, and over another link that may be one of another run. So it goes over the link with this
        number, which stood when it was asked, or over none."""
        with self._turn.own():
            link = self._open_link(number)
            exchange = Exchange(asked)
            self._is_asking = True
            try:
                if exchange.is_single:
                    self._do_single(link, exchange)
                else:
                    self._do_many(link, exchange)
            except BaseException as error:
                self._drop_link()
                lost = exchange.lose(error, self._lines.is_fresh)
                if isinstance(error, OSError):
                    raise lost from error
                raise
            finally:
                self._is_asking = False
                if exchange.position is not None:
                    self.position = exchange.position
                    self._run.note(exchange.position)

    def _open_link(self, number: int) -> socket.socket:
        """The link, where it has this number and a request may be sent over it."""
        if self._socket is not None and not self._is_own():
            self._drop_link()
            raise LinkLost("the link is that of the process which this one was forked from, and nothing was sent; reconnect")
        if self._socket is None or number != self._links:
            raise LinkLost("the link is closed, and nothing was sent")
        if self._is_asking:
            # The turn is this thread's already, so a signal handler asks. It would be given the other request's reply.
            raise RuntimeError("a request of this client is under way in the same thread, and nothing was sent")
        return self._socket

    def _do_single(self, link: socket.socket, exchange: Exchange) -> None:
        link.sendall(exchange.sent())
        while not exchange.is_answered:
            self._receive(link, exchange)

    def _do_many(self, link: socket.socket, exchange: Exchange) -> None:
        """Sends the lines while replies are read: the server takes no more of them while nobody reads what it answers."""
        left = memoryview(exchange.sent())
        with selectors.DefaultSelector() as selector:
            link.setblocking(False)
            selector.register(link, selectors.EVENT_READ | selectors.EVENT_WRITE)
            while not exchange.is_answered:
                events = selector.select(self._timeout)
                if not events:
                    raise TimeoutError("timed out")
                if events[0][1] & selectors.EVENT_WRITE:
                    left = left[link.send(left):]
                    if not left:
                        selector.modify(link, selectors.EVENT_READ)
                if events[0][1] & selectors.EVENT_READ:
                    self._receive(link, exchange)
        link.settimeout(self._timeout)

    def _receive(self, link: socket.socket, exchange: Exchange) -> None:
        """Waits for bytes, and takes the replies that end in them."""
        exchange.take(self._lines.take(link.recv(PIECE_BYTES)))

    def _is_quiet(self) -> bool:
        """Whether the link is open and nothing came that was not asked for."""
        if self._socket is None or not self._is_own():
            return False
        try:
            self._socket.setblocking(False)
            self._socket.recv(1, socket.MSG_PEEK)
            return False
        except BlockingIOError:
            self._socket.settimeout(self._timeout)
            return True
        except OSError:
            return False


class Pipeline(Batch):
    """Requests that are sent together, so that they cost one way to the server and back.

        with client.pipeline() as pipeline:
            for number in range(1000):
                pipeline.put(f"k|{number}", "x")
            last = pipeline.get("k|999")
        print(last.result().value)

    They are answered in order, each after the one before it, and those of other clients may come in between. Each method
    gives a `Pending`. At the end of the `with` they are sent, and the first refusal is raised when all have been answered;
    with `check` false it is left to each `Pending`. Where the `with` ends by an exception nothing is sent.
    """

    def __init__(self, client: Client, check: bool = True) -> None:
        super().__init__(check)
        self._client = client

    def send(self) -> None:
        """Sends what was asked since the last call, and waits for all answers. `with` calls it at its end."""
        asked = self._take_all()
        if asked:
            self._client._exchange(asked, self._client._links)
        self._raise_first(asked)

    def __enter__(self) -> Pipeline:
        return self

    def __exit__(self, kind: Optional[type[BaseException]], *_: object) -> None:
        if kind is None:
            self.send()


def connect(host: str = "127.0.0.1", port: int = 7000, timeout: Optional[float] = 10.0) -> Client:
    """Connects to a server.

    `timeout` is how many seconds the client waits for the connection, and each time for the server to go on; None is for
    good. Where no connection can be made, it raises an OSError. A server all of whose workers are taken lets a client
    connect, and answers when a worker is free.
    """
    return Client(host, port, timeout)
