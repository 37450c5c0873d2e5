"""Keys of segments, and the segments of keys."""

from __future__ import annotations

from typing import Optional, Sequence, Union

MAX_KEY_BYTES = 512
MAX_TABLE_BYTES = 64


def key(table: str, *segments: Union[str, int], widths: Sequence[Optional[int]] = ()) -> str:
    """Makes a key of a table and segments: `key("p", "bob", 7, widths=(None, 8))` is `p|bob|00000007`.

    `widths` has for each segment, from the first behind the table on, its number of bytes or None, as the slots of a join have
    them. A number is filled up with zeros in front, so that the order of keys is that of numbers; a text has to have that many.

    It raises a ValueError where a segment has a `|` or is empty, which fits no slot, where it is wider than its width or a text
    narrower, where a number below 0 has a width, and where the key would be too long; and a TypeError where a segment is neither
    a text nor a number."""
    if len(widths) > len(segments):
        raise ValueError(f"there are {len(widths)} widths for {len(segments)} segments behind the table")
    if not segments:
        raise ValueError("a key has a segment behind its table")
    padded = [*widths, *[None] * (len(segments) - len(widths))]
    texts = [_segment(table, None), *map(_segment, segments, padded)]
    if len(table.encode()) > MAX_TABLE_BYTES:
        raise ValueError(f"a table's name has at most {MAX_TABLE_BYTES} bytes, and {_short(table)} has {len(table.encode())}")
    made = "|".join(texts)
    if len(made.encode()) > MAX_KEY_BYTES:
        raise ValueError(f"a key has at most {MAX_KEY_BYTES} bytes, and {_short(made)} has {len(made.encode())}")
    return made


def parts(key: str) -> tuple[str, ...]:
    """Gives the table of a key and its segments, as texts. It raises a ValueError where it is no key."""
    found = tuple(key.split("|"))
    if len(found) < 2 or not 1 <= len(found[0].encode()) <= MAX_TABLE_BYTES or len(key.encode()) > MAX_KEY_BYTES:
        raise ValueError(f"{_short(key)} is no key: TABLE| and more, with a table's name of 1 to 64 bytes, and at most 512 in all")
    return found


def _segment(given: object, width: Optional[int]) -> str:
    if isinstance(given, bool) or not isinstance(given, (str, int)):
        raise TypeError(f"a segment is a text or a number, and {_short(given)} is of type {type(given).__name__}")
    if isinstance(given, int) and width is not None:
        if given < 0:
            raise ValueError(f"{given} is below 0, so zeros in front would not bring it into the order of numbers")
        given = str(given).zfill(width)
    text = str(given)
    if text == "" or "|" in text:
        raise ValueError(f"{_short(text)} is no segment: it is not empty and has no |")
    if width is not None and len(text.encode()) != width:
        raise ValueError(f"{_short(text)} has {len(text.encode())} bytes, and its slot has {width}")
    return text


def _short(given: object) -> str:
    shown = repr(given)
    return shown if len(shown) <= 80 else shown[:79] + "\u2026"
