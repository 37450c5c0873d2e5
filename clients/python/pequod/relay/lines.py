"""What a line of a client is to the relay: its kind, whether its reply has a bound, and whether it ends the client's connection.

The relay reads no JSON. A line that begins as clients write it is known by its first bytes, whatever follows; of each other one
only this has to be known, whether the server would take it for a `["quit"]`, in any spelling that JSON has for it.
"""

from __future__ import annotations

import re
from dataclasses import dataclass
from typing import Optional

from ..wire import MAX_LINE_BYTES

__all__ = ["LONG", "OTHER", "QUIT", "Kind", "kind_of"]


@dataclass(frozen=True)
class Kind:
    """A kind of line, with the name under which it is counted."""

    name: str
    is_bounded: bool
    """Whether its reply has a bound that does not depend on what stands in the server."""
    words: Optional[bytes] = None
    """What the relay answers itself, in the server's place, and ends the client's connection; None for what goes on."""


QUIT = Kind("quit", True, b'["bye"]\n')
LONG = Kind("long", True, b'["error","long"]\n')
OTHER = Kind("other", False)
HEAD_BYTES = 6
BY_HEAD = {
    b'["put"': Kind("put", True),
    b'["get"': Kind("get", True),
    b'["remo': Kind("remove", True),
    b'["scan': Kind("scan", False),
    b'["chan': Kind("changes", False),
    b'["join': Kind("join", True),
    b'["drop': Kind("drop", True),
}
SPACE = rb"[ \t\r\n]*"
QUIT_LINE = re.compile(
    SPACE + rb"\[" + SPACE + rb'"(?:q|\\u0071)(?:u|\\u0075)(?:i|\\u0069)(?:t|\\u0074)"' + SPACE + rb"\]" + SPACE
)
"""All texts that JSON reads as `["quit"]`. They are ASCII, so that one with a byte order mark or in UTF-16 is none."""


def kind_of(block: bytes, start: int, end: int) -> Kind:
    """Gives the kind of the line from `start` to its line end at `end`. It costs the same for lines of any length, but for those
    that begin with much white space."""
    if end - start > MAX_LINE_BYTES:
        return LONG
    kind = BY_HEAD.get(block[start:start + HEAD_BYTES])
    if kind is not None:
        return kind
    return QUIT if QUIT_LINE.fullmatch(block, start, end) else OTHER
