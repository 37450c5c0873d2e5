"""The marker: a pair that says up to where in PostgreSQL's log whole transactions stand, and at which position of the history.

An LSN is a place in that log. All transactions whose commits end at or before the marker's stand at its position, and nothing of a
later one does. So scans at that position see each transaction whole, and who knows the LSN of a commit knows when it may be read.
"""

from __future__ import annotations

import re
from typing import NamedTuple, Optional

from ..client import Client
from ..errors import BadReply

OWN_TABLE = "pg"
"""The table of Pequod that holds what the bridge says of itself. No mapping may name it."""

MARKER_KEY = "pg|at"
SKIPPED_KEY = "pg|skipped"

_LSN = re.compile(r"([0-9A-Fa-f]{1,8})/([0-9A-Fa-f]{1,8})")


class NotCopied(LookupError):
    """No marker stands: no bridge has copied its tables into this server since it was started."""


class Mark(NamedTuple):
    """An LSN, in bytes, and the position of Pequod's history at which all that was committed up to it stands."""

    lsn: int
    position: int

    def __str__(self) -> str:
        return f"{lsn_text(self.lsn)} {self.position}"


def read_lsn(text: str) -> int:
    """Reads an LSN as PostgreSQL writes it, as `16/B374D848`. ValueError where it is none."""
    halves = _LSN.fullmatch(text)
    if halves is None:
        raise ValueError(f"{text!r} is no LSN")
    return (int(halves[1], 16) << 32) + int(halves[2], 16)


def lsn_text(lsn: int) -> str:
    """Writes an LSN as PostgreSQL does."""
    return f"{lsn >> 32:X}/{lsn & 0xFFFFFFFF:X}"


def read_mark(client: Client) -> Optional[Mark]:
    """Asks for the marker, and gives None where none stands. `BadReply` where what stands there is no marker."""
    value = client.get(MARKER_KEY).value
    if value is None:
        return None
    lsn, _, position = value.partition(" ")
    try:
        return Mark(read_lsn(lsn), int(position))
    except ValueError as error:
        raise BadReply(f"what stands at {MARKER_KEY} is no marker: {value[:80]!r}") from error
