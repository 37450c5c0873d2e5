"""What becomes of one column within a template, and why a row makes no pair."""

from __future__ import annotations

import enum
import re
from dataclasses import dataclass
from datetime import datetime
from typing import Callable, Optional

MAX_WIDTH = 64
"""No slot of a join is wider."""

EPOCH = datetime(1970, 1, 1)
_WORD = re.compile(r"(num|us|desc)([0-9]{1,2})")
_UTC = "+00"


class Cause(enum.Enum):
    """Why a row makes no pair."""

    NULL = "null"
    EMPTY = "empty"
    BAR = "bar"
    KEY = "key"
    VALUE = "value"
    WIDTH = "width"
    NUMBER = "number"
    TIME = "time"

    @property
    def sentence(self) -> str:
        """Says what is in the way, of many rows."""
        return _SENTENCES[self]


_SENTENCES = {
    Cause.NULL: "a column is NULL",
    Cause.EMPTY: "a segment of the key is empty",
    Cause.BAR: "a column of the key has a |",
    Cause.KEY: "the key is longer than 512 bytes",
    Cause.VALUE: "the value is longer than 65,536 bytes",
    Cause.WIDTH: "a number or time is below 0 or too wide",
    Cause.NUMBER: "a number is no whole one",
    Cause.TIME: "a time is infinite, or of no year from 1 to 9999",
}


class NoPair(Exception):
    """A row makes no pair."""

    def __init__(self, cause: Cause) -> None:
        super().__init__(cause)
        self.cause = cause


class Kind(enum.Enum):
    """What a column holds, as far as a format cares."""

    NUMBER = "a whole number"
    TIME = "a time"
    OTHER = "another type"


@dataclass(frozen=True)
class Format:
    """How the text of a column becomes a part of a key or value: its name, the bytes that it always has where it has a fixed
    width, which kinds of columns it takes, and what makes it. That raises `NoPair`."""

    name: str
    width: Optional[int]
    kinds: frozenset[Kind]
    make: Callable[[str], str]


def read_format(word: str) -> Format:
    """Gives the format with this name, as `num10`. ValueError where there is none.

    `numN` is a whole number with zeros in front, so that N digits are in the order of numbers. `usN` is a time, as microseconds
    since 1970 in UTC. `descN` is either, falling: 10^N - 1 less it. `pct` has `%25` for `%` and `%7C` for `|`."""
    if word == "pct":
        return Format(word, None, frozenset(Kind), _encode)
    parts = _WORD.fullmatch(word)
    width = int(parts[2]) if parts else 0
    if parts is None or not 1 <= width <= MAX_WIDTH:
        raise ValueError(
            f"there is no format {word!r}: those are numN, usN and descN, with a width N from 1 to {MAX_WIDTH}, and pct"
        )
    if parts[1] == "num":
        return Format(word, width, frozenset([Kind.NUMBER]), lambda text: _padded(text, width))
    if parts[1] == "us":
        return Format(word, width, frozenset([Kind.TIME]), lambda text: _padded(_microseconds(text), width))
    return Format(word, width, frozenset([Kind.NUMBER, Kind.TIME]), lambda text: _falling(text, width))


def _encode(text: str) -> str:
    return text.replace("%", "%25").replace("|", "%7C")


def _padded(text: str, width: int) -> str:
    """Puts zeros in front of the digits of a whole number."""
    if not text.isdigit():
        raise NoPair(Cause.WIDTH if text[:1] == "-" and text[1:].isdigit() else Cause.NUMBER)
    if len(text) > width:
        raise NoPair(Cause.WIDTH)
    return text.zfill(width)


def _falling(text: str, width: int) -> str:
    """Takes a number, or the microseconds of a time, from the greatest of that width."""
    is_time = ":" in text or "-" in text[1:] or text.endswith("infinity")
    digits = _padded(_microseconds(text) if is_time else text, width)
    return str(10**width - 1 - int(digits)).zfill(width)


def _microseconds(text: str) -> str:
    """Counts the microseconds since 1970 of a date or a time in UTC, as PostgreSQL writes it with `datestyle=ISO`."""
    try:
        since = datetime.fromisoformat(text[:-3] if text.endswith(_UTC) else text) - EPOCH
    except ValueError as error:
        raise NoPair(Cause.TIME) from error
    return str((since.days * 86_400 + since.seconds) * 1_000_000 + since.microseconds)
