"""The copy of a table: what Pequod has is compared with the rows, and only what differs is written."""

from __future__ import annotations

import re
from typing import Optional

from ..client import Client
from .database import Database
from .formats import NoPair
from .mapping import TableMapping
from .skipping import Skipped
from .writing import Writer

_ESCAPE = re.compile(r"\\(.)", re.DOTALL)
_ESCAPED = {"b": "\b", "f": "\f", "n": "\n", "r": "\r", "t": "\t", "v": "\v"}
_NULL = "\\N"


class TableCopy:
    """Takes the rows of one table, as COPY writes them, and writes the pairs that differ from what stands in Pequod."""

    def __init__(self, table: TableMapping, stands: dict[str, str], writer: Writer, skipped: Skipped) -> None:
        self._table = table
        self._columns = table.columns
        self._stands = stands
        self._writer = writer
        self._skipped = skipped
        self._rest = b""
        self.rows = 0

    def write(self, piece: bytes) -> None:
        """Takes some bytes."""
        *lines, self._rest = (self._rest + piece).split(b"\n")
        for line in lines:
            self._take(line.decode())

    def remove_others(self) -> None:
        """Removes the pairs that no row has made."""
        for key in self._stands:
            self._writer.remove(key)

    def _take(self, line: str) -> None:
        self.rows += 1
        texts: list[Optional[str]] = list(line.split("\t"))
        if "\\" in line:
            texts = [None if text is None or text == _NULL else _ESCAPE.sub(_unescaped, text) for text in texts]
        row = dict(zip(self._columns, texts))
        try:
            key, value = self._table.key.make(row), self._table.value.make(row)
        except NoPair as error:
            self._skipped.note(self._table, error.cause)
            return
        if self._stands.pop(key, None) != value:
            self._writer.put(key, value)


def copy_table(database: Database, client: Client, table: TableMapping, writer: Writer, skipped: Skipped) -> int:
    """Writes what differs between a table's rows, in the snapshot that `database` reads, and its pairs, and gives the number of
    rows. It holds all pairs of the table at once."""
    copy = TableCopy(table, dict(client.scan(*table.bounds)), writer, skipped)
    database.copy(table.schema, table.table, table.columns, copy)
    copy.remove_others()
    writer.send()
    return copy.rows


def _unescaped(found: re.Match[str]) -> str:
    return _ESCAPED.get(found[1], found[1])
