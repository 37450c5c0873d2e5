"""Requests that are sent together, and their answers: all of it but the sending, which `client` and `aio` do."""

from __future__ import annotations

import socket
from typing import Any, Generic, Iterable, Mapping, Optional, Sequence, TypeVar, Union

from .answers import Answer, Changes, Done, Pairs, Value
from .errors import BadReply, LinkLost, NotServed, OutOfMemory, PequodError
from .feeding import Joins
from .wire import (
    Request, changes_request, drop_request, get_request, join_request, prefix_bounds, put_request, read_reply, remove_request,
    scan_request,
)

PIECE_BYTES = 65_536
"""How many bytes are read at once."""

MANY_REQUESTS = 2_000
MANY_BYTES = 1_048_576
"""Of very many requests so many, or so many bytes of them, are sent at once."""

T = TypeVar("T")
ManyPairs = Union[Mapping[str, str], Iterable[tuple[str, str]]]


class Pending(Generic[T]):
    """The answer to a request of a pipeline, which is there when the pipeline was sent."""

    def __init__(self, request: Request[T], number: Optional[int] = None) -> None:
        self._request = request
        self._number = number
        self._answer: Union[None, Answer, PequodError] = None

    def result(self) -> T:
        """The answer. It raises what the request was answered with, where that is a refusal, or `LinkLost`."""
        if self._answer is None:
            raise RuntimeError("the pipeline was not sent yet")
        if isinstance(self._answer, PequodError):
            raise self._answer
        return self._answer  # type: ignore[return-value]

    def error(self) -> Optional[PequodError]:
        """What `result` raises, and None where it gives an answer."""
        return self._answer if isinstance(self._answer, PequodError) else None

    def _take(self, line: bytes) -> Optional[int]:
        """Takes the reply, and gives its position where that is one of the whole history."""
        answer = read_reply(line)
        earlier = self._request.earlier
        if not isinstance(answer, (*self._request.answers, NotServed)):
            raise BadReply(f"another reply than was asked for: {line[:80]!r}")
        if _earlier_of(answer, earlier) != earlier:
            raise BadReply(f"a reply about another position than was asked for: {line[:80]!r}")
        self._answer = answer
        if isinstance(answer, NotServed):
            answer._of(self._request.kind, self._request.key, self._number)
        if isinstance(answer, OutOfMemory) or isinstance(answer, Pairs) and earlier is not None:
            return None
        return answer.position


def _earlier_of(answer: Union[Answer, NotServed], asked: Optional[int]) -> Optional[int]:
    """The earlier position that an answer speaks of, where one was asked about, and where it is a refusal the one asked about."""
    if isinstance(answer, Changes):
        return answer.since
    return answer.position if isinstance(answer, Pairs) and asked is not None else asked


def pairs_of(pairs: ManyPairs) -> Iterable[tuple[str, str]]:
    """The pairs of a mapping, or those that are given."""
    return pairs.items() if isinstance(pairs, Mapping) else pairs


class Lines:
    """The lines in the bytes that come, which come in pieces."""

    def __init__(self) -> None:
        self._unended: list[bytes] = []

    def take(self, piece: bytes) -> list[bytes]:
        """Takes a piece, and gives the lines that end in it. No bytes are the end of all of them."""
        if not piece:
            raise ConnectionError("the server closed it")
        self._unended.append(piece)
        if b"\n" not in piece:
            return []
        *lines, rest = b"".join(self._unended).split(b"\n")
        self._unended = [rest]
        return lines

    @property
    def is_fresh(self) -> bool:
        """Whether nothing ever came."""
        return not self._unended


class Exchange:
    """Requests that are sent together, and how far they are answered."""

    def __init__(self, asked: Sequence[Pending[Any]]) -> None:
        self._asked = asked
        self._answered = 0
        self.position: Optional[int] = None
        """The last position that a reply told of the whole history, and None where none did: that of a scan at an earlier
        position is left out."""

    def sent(self) -> bytes:
        """What is to be sent."""
        return b"".join(pending._request.line for pending in self._asked)

    @property
    def is_single(self) -> bool:
        return len(self._asked) == 1

    @property
    def is_answered(self) -> bool:
        return self._answered == len(self._asked)

    def take(self, lines: Sequence[bytes]) -> None:
        """Takes reply lines, the next ones. `BadReply` where one answers no request."""
        for line in lines:
            if self.is_answered:
                raise BadReply("more replies than requests")
            position = self._asked[self._answered]._take(line)
            self.position = self.position if position is None else position
            self._answered += 1

    def lose(self, error: BaseException, is_fresh: bool) -> LinkLost:
        """Answers all that is not answered yet by the loss of the link, over which nothing ever came where it is fresh, and gives
        it."""
        left = self._asked[self._answered:]
        is_write = any(pending._request.is_write for pending in left)
        cause = str(error) or type(error).__name__
        if is_fresh and isinstance(error, (TimeoutError, socket.timeout)):
            cause += " before the first reply (was no worker free?)"
        lost = LinkLost(f"the link was lost: {cause}", len(left), is_write)
        for pending in left:
            pending._answer = lost
        return lost


class Batch:
    """Requests that are collected to be sent together. What a pipeline is, without the sending."""

    def __init__(self, check: bool = True) -> None:
        self._check = check
        self._asked: list[Pending[Any]] = []
        self._count = 0
        self._bytes = 0

    def put(self, key: str, value: str, strict: Optional[Joins] = None) -> Pending[Done]:
        """As that of `Client`."""
        return self._add(put_request(key, value, strict))

    def remove(self, key: str) -> Pending[Done]:
        """As that of `Client`."""
        return self._add(remove_request(key))

    def join(self, text: str) -> Pending[Done]:
        """As that of `Client`."""
        return self._add(join_request(text))

    def drop(self, position: int) -> Pending[Done]:
        """As that of `Client`."""
        return self._add(drop_request(position))

    def get(self, key: str) -> Pending[Value]:
        """As that of `Client`."""
        return self._add(get_request(key))

    def scan(self, first: str, last: str, at: Optional[int] = None) -> Pending[Pairs]:
        """As that of `Client`."""
        return self._add(scan_request(first, last, at))

    def scan_prefix(self, prefix: str, at: Optional[int] = None) -> Pending[Pairs]:
        """As that of `Client`."""
        return self.scan(*prefix_bounds(prefix), at)

    def changes(self, first: str, last: str, since: int) -> Pending[Changes]:
        """As that of `Client`."""
        return self._add(changes_request(first, last, since))

    def _add(self, request: Request[T]) -> Pending[T]:
        pending = Pending(request, self._count)
        self._count += 1
        self._asked.append(pending)
        self._bytes += len(request.line)
        return pending

    def _is_large(self) -> bool:
        """Whether as much is collected as is sent at once where more is to come."""
        return len(self._asked) >= MANY_REQUESTS or self._bytes >= MANY_BYTES

    def _take_all(self) -> list[Pending[Any]]:
        asked, self._asked, self._bytes = self._asked, [], 0
        return asked

    def _raise_first(self, asked: Sequence[Pending[Any]]) -> None:
        """Raises the first error among these, where they are to be checked."""
        errors = (pending.error() for pending in asked)
        error = next((error for error in errors if error is not None), None)
        if self._check and error is not None:
            raise error
