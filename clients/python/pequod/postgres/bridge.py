"""The bridge: it copies the mapped tables into Pequod and then follows their changes, for as long as both links stand.

There is one way for a start, a lost link and a restarted Pequod: a slot that goes with its connection, a copy of what stood when
it was made, by which only what differs is written, and the changes from there on. So nothing lies between, and nothing is kept in
the database for a bridge that is away.
"""

from __future__ import annotations

import time
from typing import Callable, Optional

from ..client import Client
from .catalogue import Catalogue, Table, read_catalogue, read_files
from .checks import joins_in_the_way, refusals_of
from .copying import copy_table
from .database import Database
from .following import CopyNeeded, Follower
from .mapping import Mapping, MappingRefused, TableMapping
from .marks import MARKER_KEY, SKIPPED_KEY, Mark, lsn_text, read_mark
from .pgoutput import Begin, Commit, Decoder, Event, Relation
from .skipping import Skipped
from .writing import BATCH, Writer

IDLE_SECONDS = 0.2
"""How long the bridge waits for a message before it looks whether something else is to be done."""

CHECK_SECONDS = 5.0
"""How often it looks whether a table was altered: no message of the stream tells that alone."""

MARK_SECONDS = 0.002
"""How much lies at least between two markers that follow PostgreSQL's log where no mapped row changes."""

FAR_BACK = 8_192
"""How many entries may have come since the marker's position before an idle bridge puts it anew. Scans reach 65,536 back."""


class Busy(Exception):
    """Another bridge is at work on the database."""


class Bridge:
    """One beginning, over two links that stand."""

    def __init__(self, mapping: Mapping, database: Database, client: Client, say: Callable[[str], None]) -> None:
        """`say` prints a line."""
        self._mapping = mapping
        self._database = database
        self._client = client
        self._say = say
        self._skipped = Skipped(say)
        self._writer = Writer(client, say)
        self._catalogue = self._check()
        self._tables = _by_number(mapping, self._catalogue)
        self._decoder = Decoder(self._wanted)
        self._follower = Follower(self._tables, self._writer, self._skipped)
        self._is_open = False
        self._last = 0
        self._next_check = 0.0
        self._marked_at = 0.0

    def copy(self) -> None:
        """Copies all tables, and has the stream begin where the copy ends. The marker of an earlier bridge stands meanwhile, so
        that readers go on at its position."""
        began, database = time.monotonic(), self._database
        files = read_files(database.ask, self._mapping)
        slot = database.make_slot()
        earlier = read_mark(self._client)
        if earlier is not None and earlier.lsn > slot.lsn:
            self._client.remove(MARKER_KEY)     # the database was set back
        database.begin_snapshot(slot)
        rows = sum(copy_table(database, self._client, table, self._writer, self._skipped) for table in self._mapping.tables)
        database.end_snapshot()
        if read_files(database.ask, self._mapping) != files:
            raise CopyNeeded("a table was truncated or written anew while it was copied")
        self._look_for_strangers()
        self._last = slot.lsn
        self._tell_skipped()
        self._writer.put_mark(Mark(slot.lsn, self._client.position))
        self._say(f"copied {rows} rows in {time.monotonic() - began:.2f} s, by {self._writer.written} writes, "
                  f"up to {lsn_text(slot.lsn)}")
        database.begin_stream(slot, self._mapping.publication)
        self._next_check = time.monotonic() + CHECK_SECONDS

    def follow(self) -> None:
        """Follows the changes. It ends by an exception alone: `CopyNeeded`, `MappingRefused`, `WriteRefused`, or that of a lost
        link."""
        taken = 0
        while True:
            message = self._database.next_message()
            if message is not None:
                taken += 1
                event = self._decoder.decode(message)
                if event is not None:
                    self._take(event)
                if taken < BATCH:
                    continue
            seconds = self._settle()
            if message is None:
                self._database.wait(seconds)
            taken = 0

    def _take(self, event: Event) -> None:
        if isinstance(event, Begin):
            self._is_open = True
        elif isinstance(event, Commit):
            self._is_open, self._last = False, event.lsn
            self._writer.end_transaction(event.lsn)
        elif isinstance(event, Relation):
            self._look_again(event)
        else:
            self._follower.take(event)

    def _settle(self) -> float:
        """Writes what came, and does what is due. It gives the seconds after which it wants to be called again."""
        if not self._writer.is_idle:
            self._write()
        elif not self._is_open:
            self._last = max(self._last, self._database.told_lsn)
            if self._last > self._writer.mark.lsn:
                wait = self._marked_at + MARK_SECONDS - time.monotonic()
                if wait > 0:
                    return wait
                self._writer.end_transaction(self._last)
                self._write()
        self._do_what_is_due()
        return IDLE_SECONDS

    def _write(self) -> None:
        """Sends what is to be written. Where a transaction has ended, the marker is put."""
        before = self._writer.mark
        self._writer.send()
        if self._writer.mark != before:
            self._database.confirm(self._writer.mark.lsn)
            self._marked_at = time.monotonic()

    def _do_what_is_due(self) -> None:
        self._tell_skipped()
        if time.monotonic() >= self._next_check:
            self._next_check = time.monotonic() + CHECK_SECONDS
            self._compare(read_catalogue(self._database.ask, self._mapping))
            self._look_for_strangers()
            self._writer.own.forget()
        if not self._is_open and self._writer.is_idle and time.monotonic() >= self._marked_at + IDLE_SECONDS:
            self._marked_at = time.monotonic()
            position = self._client.get(MARKER_KEY).position
            if position > self._writer.mark.position + FAR_BACK:
                self._writer.put_mark(Mark(self._writer.mark.lsn, position))

    def _look_for_strangers(self) -> None:
        """Looks whether somebody else wrote into a mapped table, and if so has the tables copied again."""
        for table in self._mapping.tables:
            key = self._writer.own.stranger_in(self._client, table)
            if key is not None:
                raise CopyNeeded(f"another than this bridge has written {key!r}")

    def _tell_skipped(self) -> None:
        news = self._skipped.take_news()
        if news is not None:
            self._writer.put_now(SKIPPED_KEY, news)

    def _check(self) -> Catalogue:
        """Looks whether the mapping can be kept. `MappingRefused`, with all that is in the way, where it cannot, and `Busy` where
        another bridge is at work."""
        if not self._database.lock():
            raise Busy("another bridge is at work on this database")
        catalogue = read_catalogue(self._database.ask, self._mapping)
        refusals = refusals_of(self._mapping, catalogue) + joins_in_the_way(self._client, self._mapping)
        if refusals:
            raise MappingRefused(refusals)
        return catalogue

    def _wanted(self, number: int) -> Optional[frozenset[str]]:
        table = self._tables.get(number)
        return None if table is None else frozenset(table.columns)

    def _look_again(self, relation: Relation) -> None:
        """Looks at a table that is told of for the first time, or again."""
        self._compare(read_catalogue(self._database.ask, self._mapping))
        table = self._tables.get(relation.number)
        if table is not None and not set(table.columns) <= set(relation.columns):
            raise CopyNeeded(f"{table.name} had other columns for a while")

    def _compare(self, catalogue: Catalogue) -> None:
        """Compares what the catalogue says now with what it said at the beginning."""
        if catalogue == self._catalogue:
            return
        refusals = refusals_of(self._mapping, catalogue)
        if refusals:
            raise MappingRefused(refusals)
        raise CopyNeeded("a table was altered")


def _by_number(mapping: Mapping, catalogue: Catalogue) -> dict[int, TableMapping]:
    """Gives the mapped tables by their numbers in the catalogue."""
    stands: list[tuple[Optional[Table], TableMapping]] = [(catalogue.tables[table.name], table) for table in mapping.tables]
    return {found.number: table for found, table in stands if found is not None}
