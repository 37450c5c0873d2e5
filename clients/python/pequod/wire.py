"""Requests and the lines that carry them, and the answers in the lines that come back."""

from __future__ import annotations

import json
from dataclasses import dataclass
from typing import Any, Generic, Optional, TypeVar, Union

from .answers import Absent, Answer, Changes, Done, Found, Pairs, Value
from .errors import Ahead, BadReply, Gone, OutOfMemory, Refused
from .feeding import Joins

MAX_LINE_BYTES = 1_048_576

T_co = TypeVar("T_co", covariant=True)


# Requests.


@dataclass(frozen=True)
class Request(Generic[T_co]):
    """A line to send, and which answers it may have."""

    kind: str
    key: str
    line: bytes
    answers: tuple[type, ...]
    earlier: Optional[int] = None
    """The earlier position that it asks about, if it asks about one."""

    @property
    def is_write(self) -> bool:
        return self.answers == (Done,)


def put_request(key: str, value: str, strict: Optional[Joins] = None) -> Request[Done]:
    if strict is not None:
        _want_text("put", "key", key)
        strict.want_fed(key)
    return Request("put", key, _line("put", ("key", key), ("value", value)), (Done,))


def remove_request(key: str) -> Request[Done]:
    return Request("remove", key, _line("remove", ("key", key)), (Done,))


def join_request(text: str) -> Request[Done]:
    return Request("join", text, _line("join", ("text", text)), (Done,))


def drop_request(position: int) -> Request[Done]:
    _want_position("drop", position)
    return Request("drop", str(position), b'["drop",%d]\n' % position, (Done,))


def get_request(key: str) -> Request[Value]:
    return Request("get", key, _line("get", ("key", key)), (Found, Absent))


def scan_request(first: str, last: str, at: Optional[int] = None) -> Request[Pairs]:
    return Request("scan", first, _line("scan", ("first bound", first), ("last bound", last), position=at), (Pairs,), at)


def changes_request(first: str, last: str, since: int) -> Request[Changes]:
    _want_position("changes", since)
    line = _line("changes", ("first bound", first), ("last bound", last), position=since)
    return Request("changes", first, line, (Changes,), since)


def prefix_bounds(prefix: str) -> tuple[str, str]:
    """The bounds of all keys that begin with a prefix. `}` is the character after `|`."""
    _want_text("scan", "prefix", prefix)
    if not prefix.endswith("|"):
        raise ValueError(f"the prefix of a scan has to end with |, and {prefix!r} does not")
    return prefix, prefix[:-1] + "}"


def _line(kind: str, *items: tuple[str, str], position: Optional[int] = None) -> bytes:
    for name, text in items:
        _want_text(kind, name, text)
    texts = [text for _, text in items]
    last: list[int] = []
    if position is not None:
        _want_position(kind, position)
        last = [position]
    line = json.dumps([kind, *texts, *last], ensure_ascii=False, separators=(",", ":")).encode()
    if len(line) > MAX_LINE_BYTES:
        # The server would answer this and end the link, so it is not sent.
        refused = Refused("long")
        refused._of(kind, texts[0], None)
        raise refused
    return line + b"\n"


def _want_position(kind: str, given: object) -> None:
    # To Python a bool is an int, and to the server it is no position.
    if not isinstance(given, int) or isinstance(given, bool):
        raise TypeError(f"the position of a {kind} has to be an int, and {given!r} is of type {type(given).__name__}")


def _want_text(kind: str, name: str, given: object) -> None:
    if not isinstance(given, str):
        shown = repr(given)
        shown = shown if len(shown) <= 80 else shown[:79] + "\u2026"
        raise TypeError(f"the {name} of a {kind} has to be a str, and {shown} is of type {type(given).__name__}")


# Answers.


def read_reply(line: bytes) -> Union[Answer, Refused, OutOfMemory]:
    """What a reply line says."""
    try:
        reply: Any = json.loads(line)
        word = reply[0]
        if word == "ok":
            return Done(int(reply[1]))
        if word == "value":
            return Found(int(reply[1]), reply[2])
        if word == "none":
            return Absent(int(reply[1]))
        if word == "pairs":
            return Pairs(int(reply[1]), tuple((key, value) for key, value in reply[2]))
        if word == "changes":
            return Changes(int(reply[1]), int(reply[2]), tuple(_read_change(*item) for item in reply[3]))
        if word == "error":
            return _read_refusal(reply[1], reply[2:])
    except (ValueError, TypeError, LookupError):
        pass
    raise BadReply(f"no reply: {line[:80]!r}")


def _read_change(key: str, value: Optional[str] = None) -> tuple[str, Optional[str]]:
    return key, value


def _read_refusal(name: str, numbers: list[Any]) -> Union[Refused, OutOfMemory]:
    if name == "memory":
        return OutOfMemory()
    if name == "syntax":
        return Refused(name, None, tuple(numbers))
    if name == "cycle":
        return Refused(name, numbers[0], tuple(numbers[1]))
    kind = {"gone": Gone, "ahead": Ahead}.get(name, Refused)
    return kind(name, numbers[0] if numbers else None, tuple(numbers[1:]))
