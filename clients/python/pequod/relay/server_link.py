"""One connection of the relay to the server, with the lines of several clients under way on it.

The server answers the lines of a connection in order, one line each. So the link notes whose lines it sent, in order, and hands
each reply to the one whose turn it is. A reply is never read: it ends at the first line end, and its first bytes tell a position
or a refusal. One that is long is handed on in pieces, as they come.
"""

from __future__ import annotations

import asyncio
import collections
import re
import time
from typing import Deque, Optional, OrderedDict, Protocol

from ..runs import PROBE_KEY
from ..wire import get_request
from .counts import Cause, Counts
from .sockets import keep_alive

__all__ = ["Owner", "ServerLink"]

SENDING_BYTES = 1 << 20
"""How many bytes may wait for the server, before no further line is sent to it."""
PIECE_BYTES = 1 << 14
"""How many bytes of a reply are held until its end has come. What goes beyond is handed on without it."""
POSITION = re.compile(rb'\["(?:(?:ok|value|none|pairs)"|changes",[0-9]+|error","(?!syntax)[a-z]+"),([0-9]+)')
"""The head of a reply that tells the length of a history. That of a scan at an earlier position is one of these too."""


class Owner(Protocol):
    """A client, as a link knows it."""

    def take(self, replies: bytes, ended: int) -> None:
        """Takes whole replies, or a piece of one, and how many replies end in them."""

    def go_on(self) -> None:
        """Sends lines that had to wait until the server took others."""

    def reset(self, cause: Cause) -> None:
        """Ends the client's connection, so that it does not take it for an orderly end."""


class _Owed:
    """Lines of one client that were sent at once, and how many of them have no reply yet."""

    __slots__ = ("owner", "count", "since")

    def __init__(self, owner: Owner, count: int, since: float) -> None:
        self.owner = owner
        self.count = count
        self.since = since


class ServerLink(asyncio.Protocol):
    """A connection to the server. It serves once a request of its own was answered, until it is lost.

    `opened` ends with the first answer, or by a ConnectionError, and `lost` is set when the connection has ended. `clients` are
    those that are bound to it, which it resets when it is lost. It is made within the running loop.
    """

    def __init__(self, counts: Counts) -> None:
        self.opened: asyncio.Future[None] = asyncio.get_running_loop().create_future()
        self.lost = asyncio.Event()
        self.clients: set[Owner] = set()
        self.position = 0
        """The greatest position that a reply on it told."""
        self._counts = counts
        self._owed: Deque[_Owed] = collections.deque()
        self._waiters: OrderedDict[Owner, None] = collections.OrderedDict()
        self._held = b""
        self._is_within = False
        self._is_full = False
        self._transport: Optional[asyncio.Transport] = None

    # What clients do.

    @property
    def serves(self) -> bool:
        """Whether a client can be bound to it."""
        return self.opened.done() and not self.lost.is_set()

    @property
    def is_full(self) -> bool:
        """Whether the server takes no more lines for now, so that none is to be sent."""
        return self._is_full

    def send(self, owner: Owner, lines: bytes, count: int) -> None:
        """Sends whole lines of a client, of which each will have a reply."""
        assert self._transport is not None
        self._owed.append(_Owed(owner, count, time.perf_counter()))
        self._transport.write(lines)

    def wait(self, owner: Owner) -> None:
        """Has a client called once more, in its turn, when the server takes lines again."""
        self._waiters[owner] = None

    # What the loop does.

    def connection_made(self, transport: asyncio.BaseTransport) -> None:
        """Asks for the position. As long as all workers of the server are taken, there is no answer."""
        assert isinstance(transport, asyncio.Transport)
        self._transport = transport
        transport.set_write_buffer_limits(high=SENDING_BYTES)
        keep_alive(transport)
        transport.write(get_request(PROBE_KEY).line)

    def data_received(self, data: bytes) -> None:
        """Hands on each reply that has come whole, and what goes beyond a piece of one that has not."""
        if self._held:
            data, self._held = self._held + data, b""
        whole = data.rfind(b"\n") + 1
        if not self.opened.done():
            if whole:
                self._open(data)
            else:
                self._held = data
            return
        if whole and not self._hand_on(data[:whole]):
            return
        rest = data[whole:]
        if rest and (self._is_within or len(rest) > PIECE_BYTES):
            self._hand_on_piece(rest)
        else:
            self._held = rest

    def pause_writing(self) -> None:
        self._is_full = True

    def resume_writing(self) -> None:
        """Has the clients that wait go on, one after another, until it is full again."""
        self._is_full = False
        while self._waiters and not self._is_full:
            owner, _ = self._waiters.popitem(last=False)
            try:
                owner.go_on()
            except Exception as error:
                _end_alone(owner, error)

    def connection_lost(self, error: Optional[Exception]) -> None:
        """Resets each client that is bound to it: what it is owed is never answered, and one that is owed nothing has to learn
        that the server may be another one now."""
        if not self.opened.done():
            self.opened.set_exception(error or ConnectionError("it was closed before it was answered"))
        self._owed.clear()
        self._waiters.clear()
        for client in list(self.clients):
            client.reset(Cause.LINK_LOST)
        self.clients.clear()
        self.lost.set()

    def close(self) -> None:
        """Ends it."""
        if self._transport is not None:
            self._transport.abort()

    # Replies.

    def _open(self, data: bytes) -> None:
        """Takes the first answer. What tells no position is no server of this kind."""
        found = POSITION.match(data)
        if found is not None and data.count(b"\n") == 1 and data.endswith(b"\n"):
            self.position = int(found.group(1))
            self.opened.set_result(None)
        else:
            self.opened.set_exception(ConnectionError(f"it answers a get by {data[:80]!r}"))
            self.close()

    def _hand_on(self, block: bytes) -> bool:
        """Hands whole replies to those who are owed them. False, and the link ends, where one came that nobody is owed."""
        start = block.find(b"\n") + 1 if self._is_within else 0
        self._note(block, start)
        self._is_within = False
        now, at, left = time.perf_counter(), 0, block.count(b"\n")
        while left:
            if not self._owed:
                self.close()
                return False
            owed = self._owed[0]
            if owed.count > left:
                end, ended = len(block), left
                owed.count -= left
            else:
                end, ended = len(block) if owed.count == left else _after_lines(block, at, owed.count), owed.count
                self._owed.popleft()
            self._counts.latency.observe(now - owed.since, ended)
            _give(owed.owner, block[at:end], ended)
            at, left = end, left - ended
        return True

    def _hand_on_piece(self, piece: bytes) -> None:
        """Hands on a part of the reply that is under way."""
        if self._owed:
            self._is_within = True
            _give(self._owed[0].owner, piece, 0)
        else:
            self.close()

    def _note(self, block: bytes, start: int) -> None:
        """Counts the refusals in whole replies, and notes the position that the last of them tells which tells one."""
        self._counts.note_refusals(block, start)
        end, found = len(block), None
        while end > start and found is None:
            end = max(start, block.rfind(b"\n", 0, end - 1) + 1)
            found = POSITION.match(block, end)
        if found is not None:
            self.position = max(self.position, int(found.group(1)))


def _give(owner: Owner, replies: bytes, ended: int) -> None:
    try:
        owner.take(replies, ended)
    except Exception as error:
        _end_alone(owner, error)


def _end_alone(owner: Owner, error: Exception) -> None:
    """Has what went wrong with one client end its connection, and not the link of all. The loop says what it was."""
    told = {"message": "a client of the relay failed", "exception": error, "protocol": owner}
    asyncio.get_running_loop().call_exception_handler(told)
    owner.reset(Cause.FAILED)


def _after_lines(block: bytes, at: int, count: int) -> int:
    """Gives where so many lines from `at` on have ended."""
    for _ in range(count):
        at = block.index(b"\n", at) + 1
    return at
