"""Messages of `pgoutput`, which every PostgreSQL has: the changes of published tables, in the order of commits.

It is version 1 of the protocol: a transaction comes as a whole, when it is committed. `docs` of PostgreSQL have the messages under
'Logical Replication Message Formats'.
"""

from __future__ import annotations

import struct
from typing import Callable, NamedTuple, Optional, Union

from .templates import Row

PLUGIN = "pgoutput"
FULL = "f"
"""The replica identity by which the whole old row is told."""

_TEXT, _NULL, _UNCHANGED = b"tnu"
_INSERT, _UPDATE, _DELETE, _TRUNCATE, _BEGIN, _COMMIT, _RELATION = b"IUDTBCR"
_KEY, _OLD, _NEW = b"KON"


class Begin(NamedTuple):
    """A transaction begins."""


class Commit(NamedTuple):
    """It ends, and the record of its commit ends at this LSN."""

    lsn: int


class Relation(NamedTuple):
    """What is told of a table before its first change, and again where it was altered. `identity` names the columns of its replica
    identity."""

    number: int
    name: str
    columns: tuple[str, ...]
    identity: frozenset[str]


class Inserted(NamedTuple):
    """A row is new."""

    table: int
    row: Row


class Updated(NamedTuple):
    """A row is another. `old` has the columns of the old row that are told: all, those of the identity, or none, where none of the
    identity changed."""

    table: int
    old: Optional[Row]
    row: Row


class Deleted(NamedTuple):
    """A row has gone. `old` has its columns, or those of the identity."""

    table: int
    old: Row


class Truncated(NamedTuple):
    """All rows of these tables have gone."""

    tables: tuple[int, ...]


Event = Union[Begin, Commit, Relation, Inserted, Updated, Deleted, Truncated]


class Decoder:
    """Decodes messages. It keeps what was told of each table, by the table's number in PostgreSQL's catalogue."""

    def __init__(self, wanted: Callable[[int], Optional[frozenset[str]]]) -> None:
        """`wanted` gives the columns of a table that matter, and None where the table does not."""
        self._wanted = wanted
        self._relations: dict[int, Relation] = {}
        self._plans: dict[int, Optional[list[Optional[str]]]] = {}

    def decode(self, message: bytes) -> Optional[Event]:
        """Decodes one message. It gives None where nothing follows from it."""
        kind = message[0]
        if kind == _INSERT or kind == _UPDATE or kind == _DELETE:
            return self._change(kind, message)
        if kind == _BEGIN:
            return Begin()
        if kind == _COMMIT:                     # flags, the LSN of the commit, the LSN where it ends, the time
            return Commit(int.from_bytes(message[10:18], "big"))
        if kind == _RELATION:
            return self._relation(message)
        if kind == _TRUNCATE:
            count, _ = struct.unpack_from(">IB", message, 1)
            return Truncated(struct.unpack_from(f">{count}I", message, 6))
        return None                             # a type, an origin

    def _change(self, kind: int, message: bytes) -> Optional[Event]:
        table = int.from_bytes(message[1:5], "big")
        plan = self._plans[table]
        if plan is None:
            return None
        old: Optional[Row] = None
        at, mark = 6, message[5]
        if mark == _KEY or mark == _OLD:
            row, at = _read_row(message, at, plan)
            old = row if mark == _OLD else {name: row[name] for name in row if name in self._relations[table].identity}
            at += 1
        if kind == _DELETE:
            return Deleted(table, old or {})
        row, _ = _read_row(message, at, plan)
        return Inserted(table, row) if kind == _INSERT else Updated(table, old, row)

    def _relation(self, message: bytes) -> Relation:
        number = int.from_bytes(message[1:5], "big")
        schema, table, rest = message[5:].split(b"\0", 2)
        count = int.from_bytes(rest[1:3], "big")
        columns, identity, at = [], [], 3
        for _ in range(count):                  # flags, the name, the type, its modifier
            end = rest.index(b"\0", at + 1)
            columns.append(rest[at + 1:end].decode())
            if rest[at] & 1:
                identity.append(columns[-1])
            at = end + 9
        relation = Relation(number, f"{schema.decode()}.{table.decode()}", tuple(columns), frozenset(identity))
        wanted = self._wanted(number)
        self._relations[number] = relation
        self._plans[number] = None if wanted is None else [name if name in wanted else None for name in columns]
        return relation


def _read_row(message: bytes, at: int, plan: list[Optional[str]]) -> tuple[dict[str, Optional[str]], int]:
    """Reads the columns that the plan names, and gives where they end. An unchanged one that is stored apart is left out."""
    row: dict[str, Optional[str]] = {}
    at += 2
    for name in plan:
        kind = message[at]
        at += 1
        if kind == _TEXT:
            end = at + 4 + int.from_bytes(message[at:at + 4], "big")
            if name is not None:
                row[name] = message[at + 4:end].decode()
            at = end
        elif kind == _NULL and name is not None:
            row[name] = None
    return row, at
