"""One connection of a client to the relay, bound to one link to the server for as long as it lasts.

Whole lines go on in order, as they come. What ends a connection at the server (`["quit"]`, a line that is too long) would end a link
that others share, so the relay answers it itself, after all that is owed, and ends the client's connection alone.

Replies are taken off the link whether or not the client reads them, since those of others stand behind them. So what is bounded is
how much a client may have under way, and how much may wait for it.
"""

from __future__ import annotations

import asyncio
import collections
import enum
from typing import TYPE_CHECKING, Deque, Optional

from ..wire import MAX_LINE_BYTES
from .counts import Cause
from .lines import LONG, Kind, kind_of
from .server_link import ServerLink
from .sockets import has_ended, keep_alive, reset_on_close

if TYPE_CHECKING:
    from .hub import Relay

__all__ = ["ClientLink"]

LINGER_SECONDS = 2.0
"""For how long an ended connection is read and thrown away. To close over what was not read would send a reset, and the client
could lose the last reply by it."""


class State(enum.Enum):
    """How far a client's connection has come."""

    OPEN = "its lines go on"
    ENDING = "no further line is taken, and replies are owed"
    ENDED = "all was answered"
    GONE = "there is no connection"


class ClientLink(asyncio.Protocol):
    """A client's connection. The relay says to which link it is bound, and has its bounds."""

    def __init__(self, relay: Relay) -> None:
        self._relay = relay
        self._bounds = relay.bounds
        self._counts = relay.counts
        self._link: Optional[ServerLink] = None
        self._transport: Optional[asyncio.Transport] = None
        self._state = State.OPEN
        self._last: Optional[Kind] = None
        # What came: whole lines, of which those before `_at` went on, and the beginning of one.
        self._lines = b""
        self._at = 0
        self._beginning = bytearray()
        # What is under way: how many lines were sent and answered, which of these, by number, have replies without a bound, and for
        # the last of each block of lines how many bytes the block has.
        self._sent = 0
        self._answered = 0
        self._unbounded: Deque[int] = collections.deque()
        self._blocks: Deque[tuple[int, int]] = collections.deque()
        self._bytes = 0
        self._is_slow = False
        self._is_paused = False
        self._is_at_end = False

    # What the loop does.

    def connection_made(self, transport: asyncio.BaseTransport) -> None:
        """Binds the client to a link, or resets it where there is none, or no place for it."""
        assert isinstance(transport, asyncio.Transport)
        self._transport = transport
        transport.set_write_buffer_limits(high=self._bounds.replies)
        keep_alive(transport)
        place = self._relay.admit(self)
        if isinstance(place, Cause):
            return self.reset(place)
        self._link = place
        self._link.clients.add(self)

    def data_received(self, data: bytes) -> None:
        """Takes what came. Behind the end of a connection it is thrown away."""
        if self._state is not State.OPEN:
            return
        whole = data.rfind(b"\n") + 1
        if whole:
            self._lines = b"".join((self._lines[self._at:], self._beginning, data[:whole]))
            self._at = 0
            self._beginning = bytearray(data[whole:])
        else:
            self._beginning += data
        if len(self._beginning) > MAX_LINE_BYTES:
            self._finish(LONG)
        self.go_on()

    def eof_received(self) -> Optional[bool]:
        """Takes a last line without its line end, and ends the connection when all is answered. True leaves it open for that;
        over TLS that cannot be had, and the connection ends at once."""
        assert self._transport is not None
        if not self._transport.can_write_eof():
            return None
        self._is_at_end = True
        if self._state is State.ENDED:
            self._transport.close()
        elif self._state is State.OPEN:
            if self._beginning:
                self._lines = b"".join((self._lines[self._at:], self._beginning, b"\n"))
                self._at = 0
            self._finish()
            self.go_on()
        return True

    def pause_writing(self) -> None:
        self._is_slow = True

    def resume_writing(self) -> None:
        self._is_slow = False
        self._relay.release(self)
        if self._state is State.ENDED:
            self._end_sending()
        else:
            self.go_on()

    def connection_lost(self, error: Optional[Exception]) -> None:
        """Leaves the link. What is still owed is thrown away as it comes."""
        self._leave()
        self._state = State.GONE
        self._lines, self._beginning = b"", bytearray()
        self._relay.forget(self)

    # What the link does.

    def take(self, replies: bytes, ended: int) -> None:
        """Writes replies, or a piece of one, and lets go of a client for which too much waits."""
        self._note_answered(ended)
        if self._transport is None or self._is_over():
            return
        self._transport.write(replies)
        if self._is_slow:
            self._relay.hold(self, self._transport.get_write_buffer_size())
        if self._lines or self._state is State.ENDING:
            self.go_on()

    def go_on(self) -> None:
        """Sends lines that wait, as far as the bounds go, ends a connection whose lines are all answered, and reads on where
        nothing waits."""
        if self._is_over():
            return
        if self._state in (State.OPEN, State.ENDING):
            self._send_lines()
        if self._state is State.ENDING and self._at == len(self._lines) and self._answered == self._sent:
            self._end()
        self._read_or_pause()

    def reset(self, cause: Cause) -> None:
        """Ends the connection by a reset, and counts why."""
        if self._transport is None or self._is_over():
            return
        self._counts.resets.add(1, cause.value)
        self._state = State.GONE
        reset_on_close(self._transport)
        self._transport.abort()

    # Lines that go on.

    def _send_lines(self) -> None:
        start = self._at
        count, last = self._take_lines()
        if count and self._link is not None:
            lines = self._lines[start:self._at]
            self._sent += count
            self._bytes += len(lines)
            self._blocks.append((self._sent, len(lines)))
            self._link.send(self, lines, count)
        if last is not None:
            self._lines, self._at = b"", 0
            self._finish(last)
        elif self._at == len(self._lines):
            self._lines, self._at = b"", 0

    def _take_lines(self) -> tuple[int, Optional[Kind]]:
        """Goes over the lines that may be sent now. Gives how many they are, and what ends the connection behind them, if that is
        the next one."""
        count, lines, start = 0, self._lines, self._at
        while self._at < len(lines) and self._may_send(count, self._at - start):
            end = lines.index(b"\n", self._at)
            kind = kind_of(lines, self._at, end)
            if kind.words is not None:
                return count, kind
            if not kind.is_bounded:
                if len(self._unbounded) >= self._bounds.scans:
                    break
                self._unbounded.append(self._sent + count + 1)
            count += 1
            self._counts.requests.add(1, kind.name)
            self._at = end + 1
        return count, None

    def _may_send(self, more: int, size: int) -> bool:
        """Whether a line may be sent beside so many more, of so many bytes. Where the server takes none, it is called again when
        it does."""
        if self._is_slow or self._link is None or self._bytes + size >= self._bounds.bytes:
            return False
        if self._sent + more - self._answered >= self._bounds.lines:
            return False
        if self._link.is_full:
            self._link.wait(self)
        return not self._link.is_full

    def _note_answered(self, ended: int) -> None:
        """Notes that so many lines more are under way no longer."""
        self._answered += ended
        while self._unbounded and self._unbounded[0] <= self._answered:
            self._unbounded.popleft()
        while self._blocks and self._blocks[0][0] <= self._answered:
            self._bytes -= self._blocks.popleft()[1]

    def _read_or_pause(self) -> None:
        """Leaves what a client sends in its socket, while lines wait or no more is taken."""
        if self._transport is None or self._is_at_end or self._state not in (State.OPEN, State.ENDING):
            return
        pause = self._state is State.ENDING or self._is_slow or self._at < len(self._lines)
        if pause != self._is_paused and not self._transport.is_closing():
            self._is_paused = pause
            if pause:
                self._transport.pause_reading()
            else:
                self._transport.resume_reading()

    # The end.

    def _finish(self, last: Optional[Kind] = None) -> None:
        """Takes no further line. What was taken is answered, and then the last one, which the relay answers itself."""
        self._state = State.ENDING
        self._beginning = bytearray()
        self._last = last

    def _end(self) -> None:
        """Writes the last words, and ends the connection in such a way that the client can read them."""
        assert self._transport is not None
        self._state = State.ENDED
        self._leave()
        if self._last is not None and self._last.words is not None:
            self._counts.requests.add(1, self._last.name)
            self._counts.note_refusals(self._last.words, 0)
            self._transport.write(self._last.words)
        if self._is_at_end or not self._transport.can_write_eof():
            self._transport.close()
            self._linger()
        else:
            # Where something waits, it is slow by that, and reads on later.
            self._transport.set_write_buffer_limits(high=0)
            if not self._is_slow:
                self._end_sending()

    def _end_sending(self) -> None:
        """Ends that side, now that all is sent, and reads on. One that is being closed does both by itself."""
        if self._transport is None or self._transport.is_closing():
            return
        try:
            self._transport.write_eof()
        except OSError:
            # The client has reset the connection, and the loop has not seen it yet.
            return self._transport.abort()
        self._transport.resume_reading()
        self._linger()

    def _linger(self) -> None:
        asyncio.get_running_loop().call_later(LINGER_SECONDS, self._stop_lingering)

    def _stop_lingering(self) -> None:
        """Closes an ended connection, unless the client has not yet read all replies."""
        if self._transport is None or self._is_over():
            return
        if self._transport.get_write_buffer_size() > 0:
            self._linger()
        else:
            self._transport.abort()

    def _is_over(self) -> bool:
        """Whether the connection has ended. One over TLS may have, and the loop says so later: until then a call of it fails."""
        return self._transport is None or self._state is State.GONE or has_ended(self._transport)

    def _leave(self) -> None:
        """Is bound to the link no more, which is not to reset a client that has all its replies."""
        if self._link is not None:
            self._link.clients.discard(self)
