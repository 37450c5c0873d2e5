"""The relay: its links to the server, the clients that are bound to them, and what bounds them all."""

from __future__ import annotations

import asyncio
import ssl
import sys
import time
from dataclasses import dataclass
from typing import Optional, Union

from .client_link import ClientLink
from .counts import Cause, Counts
from .server_link import ServerLink

__all__ = ["Address", "Bounds", "Relay"]

Address = tuple[str, int]

MEGABYTE = 1 << 20
PAUSE_SECONDS = 0.2
"""How long it waits before it connects to the server anew."""
CONNECT_SECONDS = 5.0
ANSWER_SECONDS = 5.0
"""After how long it says that a link was made and is not answered."""
CLOSING_SECONDS = 1.0
BACKLOG = 1024
HANDSHAKE_SECONDS = 10.0


@dataclass(frozen=True)
class Bounds:
    """How much there may be at one time."""

    clients: int = 1_000
    lines: int = 256
    """Lines of one client that are under way."""
    bytes: int = 64 * 1024
    """Bytes of these lines, beyond which no further one is begun."""
    scans: int = 2
    """Those among them whose replies have no bound: scans, `changes`, and lines in an unusual spelling."""
    replies: int = MEGABYTE // 4
    """Bytes of replies that wait for one client, beyond which its lines do not go on."""
    held: int = 64 * MEGABYTE
    """Bytes of replies that wait for one client, beyond which it is let go."""
    held_by_all: int = 256 * MEGABYTE
    """The same of all clients together, beyond which the one for which most waits is let go."""


class Relay:
    """Clients over a few links. It is made within the running loop, and used in its thread alone."""

    def __init__(
        self, server: Address, links: int, bounds: Bounds = Bounds(), server_tls: Optional[ssl.SSLContext] = None
    ) -> None:
        """Makes one that has no link yet, and takes no clients. `start` does that. With `server_tls` what it connects to speaks
        TLS, as another relay does."""
        self.bounds = bounds
        self.counts = Counts()
        self._where = server
        self._count = links
        self._server_tls = server_tls
        self._links: list[ServerLink] = []
        self._clients: set[ClientLink] = set()
        self._held: dict[ClientLink, int] = {}
        self._held_by_all = 0
        self._tasks: list[asyncio.Task[None]] = []
        self._listener: Optional[asyncio.AbstractServer] = None
        self._is_told_down = False

    async def start(self, listen: Address, tls: Optional[ssl.SSLContext] = None) -> None:
        """Listens for clients, and connects to the server until it is closed. It raises an OSError where it cannot listen."""
        loop = asyncio.get_running_loop()
        handshake = HANDSHAKE_SECONDS if tls is not None else None
        self._listener = await loop.create_server(
            lambda: ClientLink(self), *listen, ssl=tls, backlog=BACKLOG, ssl_handshake_timeout=handshake
        )
        self._tasks = [loop.create_task(self._keep_link()) for _ in range(self._count)]

    async def close(self) -> None:
        """Takes no further client, and resets those that are connected. What was sent for them may stand or not."""
        if self._listener is not None:
            self._listener.close()
        for task in self._tasks:
            task.cancel()
        for link in self._links:
            link.close()
        for client in list(self._clients):
            client.reset(Cause.RELAY_ENDED)
        end = time.monotonic() + CLOSING_SECONDS
        while self._clients and time.monotonic() < end:
            await asyncio.sleep(0)

    def text(self) -> str:
        """Gives what was counted, for Prometheus."""
        serving = self._serving()
        position = max((link.position for link in serving), default=0)
        return self.counts.text(len(self._clients), self._held_by_all, len(serving), position)

    # Clients.

    def admit(self, client: ClientLink) -> Union[ServerLink, Cause]:
        """Gives the link with the fewest clients, or why there is none for this one."""
        if len(self._clients) >= self.bounds.clients:
            return Cause.TOO_MANY
        serving = self._serving()
        if not serving:
            return Cause.NO_LINK
        self._clients.add(client)
        return min(serving, key=lambda link: len(link.clients))

    def forget(self, client: ClientLink) -> None:
        """Frees the place of a client whose connection has ended."""
        self._clients.discard(client)
        self.release(client)

    def hold(self, client: ClientLink, size: int) -> None:
        """Notes how many bytes wait for a slow client, and lets go of whoever has too many."""
        self._held_by_all += size - self._held.get(client, 0)
        self._held[client] = size
        if size > self.bounds.held:
            client.reset(Cause.TOO_SLOW)
        elif self._held_by_all > self.bounds.held_by_all:
            max(self._held, key=self._held.__getitem__).reset(Cause.TOO_SLOW)

    def release(self, client: ClientLink) -> None:
        """Notes that a client reads on, or is gone."""
        self._held_by_all -= self._held.pop(client, 0)

    # Links.

    def _serving(self) -> list[ServerLink]:
        """Gives the links that serve. One that was lost a moment ago is none of them, although its keeper has not run yet."""
        return [link for link in self._links if link.serves]

    async def _keep_link(self) -> None:
        """Keeps one link to the server, and makes it anew whenever it is lost."""
        while True:
            try:
                link = await self._connect()
                self._links.append(link)
                self._tell_up()
                await link.lost.wait()
                self._links.remove(link)
                self.counts.links_lost.add()
                _say(f"a link to {_shown(self._where)} was lost, and its clients were reset")
            except OSError as error:
                self._tell_down(error)
            await asyncio.sleep(PAUSE_SECONDS)

    async def _connect(self) -> ServerLink:
        """Makes a link, and waits until the server answers on it. It raises an OSError where it is not made or lost again."""
        loop = asyncio.get_running_loop()
        making = loop.create_connection(lambda: ServerLink(self.counts), *self._where, ssl=self._server_tls)
        try:
            _, link = await asyncio.wait_for(making, CONNECT_SECONDS)
        except asyncio.TimeoutError:
            raise TimeoutError("timed out") from None
        slow = loop.call_later(ANSWER_SECONDS, _say, f"{_shown(self._where)} does not answer: are all its workers taken?")
        try:
            await link.opened
        except BaseException:
            link.close()
            raise
        finally:
            slow.cancel()
        return link

    def _tell_up(self) -> None:
        self._is_told_down = False
        _say(f"{len(self._links)} of {self._count} links to {_shown(self._where)}")

    def _tell_down(self, error: OSError) -> None:
        if not self._is_told_down:
            self._is_told_down = True
            _say(f"no link to {_shown(self._where)}: {error}; it tries again and again")


def _shown(where: Address) -> str:
    host, port = where
    return f"[{host}]:{port}" if ":" in host else f"{host}:{port}"


def _say(text: str) -> None:
    print(f"pequod relay: {text}", file=sys.stderr, flush=True)
