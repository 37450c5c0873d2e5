"""Templates of keys and values: texts with the columns of a row in braces, as `p|{author}|{created:us16}`."""

from __future__ import annotations

import re
from dataclasses import dataclass
from typing import Mapping, Optional, Sequence, Union

from .formats import Cause, Format, NoPair, read_format

MAX_KEY_BYTES, MAX_TABLE_BYTES, MAX_VALUE_BYTES = 512, 64, 65_536
MOST_BYTES_OF_A_CHARACTER = 4

Row = Mapping[str, Optional[str]]
"""The texts of a row's columns, None for NULL. A column that was not told is left out."""

_PART = re.compile(r"\{\{|\}\}|\{([^{}:]+)(?::([^{}]*))?\}|[^{}]+|[{}]")
_NO_LITERAL = re.compile(r"[<> \x00-\x1f]")


class Untold(Exception):
    """A column was not told, since it did not change and is stored apart from its row."""


@dataclass(frozen=True)
class Field:
    """A column within a template, and what becomes of its text."""

    column: str
    format: Optional[Format]

    @property
    def width(self) -> Optional[int]:
        """How many bytes it always has, where that is fixed."""
        return self.format.width if self.format else None

    def make(self, row: Row) -> str:
        """Makes the text. `NoPair` where the column has none that fits, and `Untold` where it was not told."""
        try:
            text = row[self.column]
        except KeyError:
            raise Untold(self.column) from None
        if text is None:
            raise NoPair(Cause.NULL)
        return self.format.make(text) if self.format else text


Part = Union[str, Field]


def read_parts(text: str) -> list[Part]:
    """Reads a template. ValueError where a brace stands alone, or a format is none. `{{` and `}}` stand for one brace."""
    parts: list[Part] = []
    for found in _PART.finditer(text):
        token, column, word = found[0], found[1], found[2]
        if column is not None:
            parts.append(Field(column, None if word is None else read_format(word)))
        elif token in ("{", "}"):
            raise ValueError(f"{token} in {text!r} belongs to no column: write {token * 2} for a brace")
        else:
            parts.append(token[0] if token in ("{{", "}}") else token)
    return parts


def fields_of(parts: Sequence[Part]) -> list[Field]:
    """Gives the columns among the parts."""
    return [part for part in parts if isinstance(part, Field)]


class ValueTemplate:
    """What makes the value of a row. `fields` are its columns."""

    def __init__(self, text: str) -> None:
        """Reads the template. ValueError, with a sentence, where it is none."""
        self.text = text
        self._parts = read_parts(text)
        self.fields = fields_of(self._parts)
        self._only = self._parts[0] if len(self._parts) == 1 else None

    def make(self, row: Row) -> str:
        """Makes the value. `NoPair` where the row has none, and `Untold` where a column was not told."""
        if isinstance(self._only, Field):
            value = self._only.make(row)
        else:
            value = "".join(part if isinstance(part, str) else part.make(row) for part in self._parts)
        if _is_longer(value, MAX_VALUE_BYTES):
            raise NoPair(Cause.VALUE)
        return value


class KeyTemplate:
    """What makes the key of a row: `table` is Pequod's table, `fields` are its columns.

    Rows with different texts in these columns have different keys: a segment has at most one column without a fixed width."""

    def __init__(self, text: str) -> None:
        """Reads the template. ValueError, with a sentence, where it is none."""
        self.text = text
        first, *rest = text.split("|")
        self.table = _read_table(first)
        if not rest:
            raise ValueError(f"the key {text!r} has no | after its table")
        self._segments = [_read_segment(segment) for segment in rest]
        self.fields = [field for segment in self._segments for field in fields_of(segment)]
        if not self.fields:
            raise ValueError(f"the key {text!r} has no column, so all rows would have one key")

    def make(self, row: Row) -> str:
        """Makes the key. `NoPair` where the row has none, and `Untold` where a column was not told."""
        key = self.table
        for segment in self._segments:
            key += "|" + _make_segment(segment, row)
        if _is_longer(key, MAX_KEY_BYTES):
            raise NoPair(Cause.KEY)
        return key


def _read_table(segment: str) -> str:
    if not 1 <= len(segment.encode()) <= MAX_TABLE_BYTES or "{" in segment or "}" in segment or _NO_LITERAL.search(segment):
        raise ValueError(
            f"a key begins with the name of Pequod's table, and {segment!r} is none: it has 1 to 64 bytes, no column, no brace, "
            "no < or >, no space and no control character"
        )
    return segment


def _read_segment(text: str) -> list[Part]:
    parts = read_parts(text)
    if not parts:
        raise ValueError("a segment of the key is empty")
    free = [field.column for field in fields_of(parts) if field.width is None]
    if len(free) > 1:
        raise ValueError(
            f"{' and '.join(free)} stand in one segment without a fixed width, so two rows might have one key: put a | between them"
        )
    return parts


def _make_segment(parts: Sequence[Part], row: Row) -> str:
    only = parts[0]
    if len(parts) > 1:
        text = "".join(part if isinstance(part, str) else part.make(row) for part in parts)
    else:
        text = only if isinstance(only, str) else only.make(row)
    if not text:
        raise NoPair(Cause.EMPTY)
    if "|" in text:
        raise NoPair(Cause.BAR)
    return text


def _is_longer(text: str, limit: int) -> bool:
    """Whether the text has more bytes. Most texts have so few characters that nobody has to count."""
    return len(text) * MOST_BYTES_OF_A_CHARACTER > limit and len(text.encode()) > limit
