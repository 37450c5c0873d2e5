"""Clients of one server for many threads."""

from __future__ import annotations

import contextlib
import threading
from typing import Callable, Iterator, Optional

from .client import Client
from .errors import LinkLost, Restarted
from .forks import OwnOfProcess
from .runs import Run


class Pool:
    """Clients of one server for many threads. At most `size` are open at once, and they stay open for the next use.

        pool = pequod.Pool("127.0.0.1", 7000, size=4, on_restart=fill)
        with pool.client() as client:
            client.put("k|a", "1")

    Each open one holds a worker of the server. So `size`, over all processes that have a pool, should be at most the number of
    workers: a client beyond it is not answered until another is closed.

    A pool that was told a position and connects anew asks a `get` of its own first. Where the answer lies before the greatest
    position that any of its clients was told, the server was started anew. Then `on_restart` is called with the new client,
    which puts what the cache has to hold, and only afterwards is a client lent: all that connect anew meanwhile wait for it.
    Where it raises, the thread that called it gets the exception, and the next that connects calls it again. It uses the client
    that it is given, and does not ask the pool for another. Without `on_restart` the first thread that finds a restart gets
    `Restarted`, and all others go on with what the server has.

    A process that is forked from one with a pool may use its copy: it connects anew, and counts its own clients.

    `timeout` is for each client as that of `connect`, and also for how long a thread waits while all clients are lent.
    """

    def __init__(
        self,
        host: str = "127.0.0.1",
        port: int = 7000,
        size: int = 4,
        timeout: Optional[float] = 10.0,
        on_restart: Optional[Callable[[Client], object]] = None,
    ) -> None:
        self._where = (host, port, timeout)
        self._size = size
        self._timeout = timeout
        self._places = OwnOfProcess(lambda: threading.Semaphore(size))
        self._lock = OwnOfProcess(threading.RLock)
        self._idle: list[Client] = []
        self._is_open = True
        self._on_restart = on_restart
        self._settling = OwnOfProcess(threading.Lock)
        self._run = Run()
        self._is_unfilled = False

    @property
    def position(self) -> int:
        """The greatest position that a client of the pool was told since the last restart that was seen, or since the start."""
        return self._run.position

    @contextlib.contextmanager
    def client(self) -> Iterator[Client]:
        """Lends a client to the thread for the length of a `with`. It waits while all are lent, and raises a TimeoutError
        where that takes too long. One that has lost its link is let go, and the next `with` connects anew."""
        places = self._places.own()
        if not places.acquire(timeout=self._timeout):
            raise TimeoutError(f"all {self._size} clients of the pool were lent for {self._timeout} seconds")
        try:
            client = self._take() or self._connect()
            try:
                yield client
            finally:
                self._give_back(client)
        finally:
            places.release()

    def close(self) -> None:
        """Closes all clients that are not lent, and each other one when it is given back."""
        with self._lock.own():
            self._is_open = False
            idle, self._idle = self._idle, []
        for client in idle:
            client.close()

    def __enter__(self) -> Pool:
        return self

    def __exit__(self, *_: object) -> None:
        self.close()

    def _take(self) -> Optional[Client]:
        """The client that was used last and still has its link, if there is one."""
        with self._lock.own():
            if not self._is_open:
                raise LinkLost("the pool is closed, and nothing was sent")
            while self._idle:
                client = self._idle.pop()
                if client._is_quiet():
                    return client
                client.close()
        return None

    def _connect(self) -> Client:
        """A new client. Where the server was started anew, it was filled before."""
        client = Client(*self._where)
        try:
            with self._settling.own():
                self._settle(client)
        except BaseException:
            client.close()
            raise
        return client

    def _settle(self, client: Client) -> None:
        """Looks for a restart, and has the cache filled after one. It is called under the lock that is for this."""
        client._run = self._run
        try:
            client._look_for_restart()
        except Restarted:
            self._run = client._run
            if self._on_restart is None:
                raise
            self._is_unfilled = True
        if self._is_unfilled and self._on_restart is not None:
            self._on_restart(client)
            self._is_unfilled = False

    def _give_back(self, client: Client) -> None:
        with self._lock.own():
            if self._is_open and client.is_open:
                self._idle.append(client)
                return
        client.close()
