"""What can go wrong. Where no connection can be made at all, it is an OSError, of which a lost link is one too."""

from __future__ import annotations

from typing import Optional


class PequodError(Exception):
    """A request that was not answered with what was asked for."""


class NotServed(PequodError):
    """A request that the server did not serve: it did nothing.

    `kind` is the request, as `put`. `key` is the key that it named, of a scan or of `changes` its first bound, of a join its
    text, of a drop its position. `number` is its place among the requests of its pipeline, counted from 0, and None where it
    stood in none.
    """

    kind: str = ""
    key: str = ""
    number: Optional[int] = None

    def _of(self, kind: str, key: str, number: Optional[int]) -> None:
        """Says which request it was."""
        self.kind, self.key, self.number = kind, key, number

    def _what(self) -> str:
        """The error, without the request."""
        return ""

    def __str__(self) -> str:
        if not self.kind:
            return self._what()
        key = self.key if len(self.key) <= 80 else self.key[:79] + "\u2026"
        place = "" if self.number is None else f"request {self.number} of the pipeline, "
        return f"{place}{self.kind} of {key!r}: {self._what()}"


class Refused(NotServed):
    """The server refused a request, and did nothing.

    `name` is the name of the refusal, as `key`, `nojoin` or `clash`. `position` is the length of the history, and None where
    the request itself could not be read. `details` are the numbers that follow: for `syntax` the byte of the join's text,
    for `computed` and `clash` the position of the join that is in the way, for `cycle` the positions of the circle.
    """

    def __init__(self, name: str, position: Optional[int] = None, details: tuple[int, ...] = ()) -> None:
        super().__init__(name, position, details)
        self.name = name
        self.position = position
        self.details = details

    def _what(self) -> str:
        at = "" if self.position is None else f" at position {self.position}"
        return f"refused: {self.name}{at}{', ' if self.details else ''}{', '.join(map(str, self.details))}"


class Gone(Refused):
    """A question about an earlier position that lies more than 65,536 entries back: scan anew, without a position."""


class Ahead(Refused):
    """A question about a position that the history has not come to, as after a restart of the server."""


class OutOfMemory(NotServed):
    """The server found no memory for a request, and did nothing. The link stands, and the request may be made again."""

    def _what(self) -> str:
        return "the server found no memory"


class Unread(PequodError, ValueError):
    """A strict put of a key that no join reads, which was not sent. `key` is the key, and `misses` says by what it misses each
    source of its table."""

    def __init__(self, key: str, misses: tuple[str, ...]) -> None:
        super().__init__(key, misses)
        self.key = key
        self.misses = misses

    def __str__(self) -> str:
        return f"no join reads {self.key!r}: {'; '.join(self.misses)}"


class LinkLost(PequodError, ConnectionError):
    """The link ended, or the server took too long, so that the client closed it. Connect anew to go on.

    `unanswered` says how many requests were sent, or begun to be, and not answered. Where `write_may_stand`, a write is among
    them: it may stand in the history, or come to stand there soon, or be lost. A key that is read again shows which.
    """

    def __init__(self, reason: str, unanswered: int = 0, write_may_stand: bool = False) -> None:
        self.unanswered = unanswered
        self.write_may_stand = write_may_stand
        told = f"; {unanswered} not answered" if unanswered else ""
        told += ", and a write among them may stand" if write_may_stand else ""
        super().__init__(f"{reason}{told}")


class Restarted(PequodError):
    """The server was ended and started anew: its history is shorter than it was.

    So all that was put before is gone, and positions that were told before, up to `before`, mean nothing any more. `position`
    is the length of the history now. No request of the application was sent. The link stands, and the client goes on with the
    new history: fill the cache, and ask again.
    """

    def __init__(self, before: int, position: int) -> None:
        super().__init__(before, position)
        self.before = before
        self.position = position

    def __str__(self) -> str:
        return f"the server was started anew: it is at position {self.position}, and was at {self.before} before"


class BadReply(PequodError):
    """What came is no reply to the request, so this is no Pequod server. The client closed the link."""
