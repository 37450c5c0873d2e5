"""What the changes of rows write."""

from __future__ import annotations

from typing import Mapping, Optional

from .formats import Cause, NoPair
from .mapping import TableMapping
from .pgoutput import Deleted, Event, Inserted, Truncated, Updated
from .skipping import Skipped
from .templates import Row, Untold
from .writing import Writer


class CopyNeeded(Exception):
    """What stands in Pequod cannot be told from the stream: the tables are to be copied again."""


class Follower:
    """Turns changes into writes. A row that makes no pair takes its old pair away, and is counted."""

    def __init__(self, tables: Mapping[int, TableMapping], writer: Writer, skipped: Skipped) -> None:
        """`tables` are the mapped ones by their numbers in the catalogue."""
        self._tables = tables
        self._writer = writer
        self._skipped = skipped

    def take(self, event: Event) -> None:
        """Does what a change of rows asks for. `CopyNeeded` where that cannot be known."""
        if isinstance(event, Inserted):
            self._insert(self._tables[event.table], event.row)
        elif isinstance(event, Updated):
            self._update(self._tables[event.table], event.old, event.row)
        elif isinstance(event, Deleted):
            key = _key_before(self._tables[event.table], event.old)
            if key is not None:
                self._writer.remove(key)
        elif isinstance(event, Truncated):
            for number in event.tables:
                if number in self._tables:
                    self._truncate(self._tables[number])

    def _insert(self, table: TableMapping, row: Row) -> None:
        try:
            key, value = table.key.make(row), table.value.make(row)
        except NoPair as error:
            self._skipped.note(table, error.cause)
            return
        self._writer.put(key, value)

    def _update(self, table: TableMapping, old: Optional[Row], row: Row) -> None:
        """Removes the old pair where the new one has another key or is none, and puts the new one. Where the old row is not told,
        the key is the same."""
        if old is not None:
            row = {**old, **row}
        before = _key_before(table, row if old is None else {**row, **old})
        try:
            key = table.key.make(row)
            value = self._value(table, row, key, before)
        except NoPair as error:
            self._skipped.note(table, error.cause)
            if before is not None:
                self._writer.remove(before)
            return
        except Untold as error:
            raise CopyNeeded(f"{table.name} has a key that was not told") from error
        if before is not None and before != key:
            self._writer.remove(before)
        if value is not None:
            self._writer.put(key, value)

    def _value(self, table: TableMapping, row: Row, key: str, before: Optional[str]) -> Optional[str]:
        """Gives the value of a changed row, and None where the pair stays as it is. A value that was not told is that of the old
        pair, since a value of several columns is told as a whole."""
        try:
            return table.value.make(row)
        except Untold as error:
            if key == before:
                return None
            if before is None:
                raise CopyNeeded(f"{table.name} has a row whose value was not told when its key became one") from error
        value = self._writer.value_of(before)
        if value is None:
            raise NoPair(Cause.VALUE)           # it was too long for the old pair, and still is
        return value

    def _truncate(self, table: TableMapping) -> None:
        for key in self._writer.keys_between(*table.bounds):
            self._writer.remove(key)


def _key_before(table: TableMapping, row: Row) -> Optional[str]:
    """Gives the key of a pair that may stand, and None where the row made none."""
    try:
        return table.key.make(row)
    except NoPair:
        return None
    except Untold as error:
        raise CopyNeeded(f"{table.name} has an old key that was not told") from error
