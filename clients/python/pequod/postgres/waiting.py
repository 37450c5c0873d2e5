"""What a reader asks: the position of whole transactions, and to wait for those that it made itself."""

from __future__ import annotations

import time
from typing import Any, Mapping, Protocol

from ..client import Client
from .marks import NotCopied, lsn_text, read_lsn, read_mark

PAUSE = 0.001
"""How many seconds lie between two looks at the marker."""

WHERE = """select pg_current_wal_insert_lsn()::text, current_setting('wal_block_size')::int,
    pg_size_bytes(current_setting('wal_segment_size'))"""
PAGE_HEADER_BYTES, SEGMENT_HEADER_BYTES = 24, 40


class Cursor(Protocol):
    """A cursor of the Python database interface, of psycopg2 or another."""

    def execute(self, query: str) -> Any:
        """Asks a query."""

    def fetchone(self) -> Any:
        """Gives the next row."""


def read_at(client: Client) -> int:
    """Gives a position of the history at which whole transactions stand, for `scan(.., at=..)`: a transaction is seen as a whole
    there or not at all, and those that are seen are all up to one.

    It costs one get. `NotCopied` where the bridge has not copied yet. A scan there raises `Gone` where more than 65,536 writes
    came since, as beside a transaction of so many rows: ask again later, or scan without a position, which may then show a part of
    a transaction."""
    mark = read_mark(client)
    if mark is None:
        raise NotCopied("no bridge has copied its tables into this server")
    return mark.position


def wait_for(client: Client, cursor: Cursor, timeout: float = 2.0) -> int:
    """Waits until all that was committed over the cursor's connection stands in Pequod, and gives the position of whole
    transactions at which it does.

    Call it after the commit. Each answer of Pequod from then on holds these changes, over any connection, and so do scans at the
    position. It asks the database once, and then Pequod each millisecond: `TimeoutError` where that takes longer than `timeout`
    seconds, as where no bridge is at work. What other transactions write with `synchronous_commit=off` may have it wait for
    PostgreSQL's `wal_writer_delay` too."""
    end = time.monotonic() + timeout
    lsn = committed_lsn(cursor)
    while True:
        mark = read_mark(client)
        if mark is not None and mark.lsn >= lsn:
            return mark.position
        if time.monotonic() > end:
            stands = "nothing" if mark is None else f"what was written up to {lsn_text(mark.lsn)}"
            raise TimeoutError(f"{stands} stands in Pequod after {timeout} seconds, and {lsn_text(lsn)} was waited for")
        time.sleep(PAUSE)


def committed_lsn(cursor: Cursor) -> int:
    """Asks where PostgreSQL's log ends by now, which is at or after all that was committed so far.

    The log tells where the next record would begin. At the start of a page that lies behind the page's header, where no record
    ends: the last one ends where the page begins, and the bridge is told no more than that until something else is written."""
    cursor.execute(WHERE)
    row = cursor.fetchone()
    text, page, segment = row.values() if isinstance(row, Mapping) else row
    lsn = read_lsn(text)
    header = SEGMENT_HEADER_BYTES if lsn % segment == SEGMENT_HEADER_BYTES else PAGE_HEADER_BYTES
    return lsn - header if lsn % page == header else lsn
