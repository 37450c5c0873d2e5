"""The connections to PostgreSQL: one asks and holds the bridge's lock, and one streams. `psycopg2` is named here alone."""

from __future__ import annotations

import secrets
import select
from types import TracebackType
from typing import Any, NamedTuple, Optional, Protocol, Sequence

import psycopg2  # type: ignore[import]
import psycopg2.extensions  # type: ignore[import]
import psycopg2.extras  # type: ignore[import]

from .marks import read_lsn
from .pgoutput import PLUGIN

PostgresError: type[Exception] = psycopg2.Error
"""What goes wrong with a connection or a query."""

PermissionMissing: type[Exception] = psycopg2.errors.InsufficientPrivilege

SETTINGS = {
    "timezone": "UTC", "datestyle": "ISO", "intervalstyle": "iso_8601", "bytea_output": "hex", "extra_float_digits": "1",
    "client_encoding": "UTF8", "row_security": "off",
    "statement_timeout": "0", "lock_timeout": "0", "idle_in_transaction_session_timeout": "0",
}
"""The texts of values depend on the first ones, and both connections have to give the same. With the next one a policy of rows is
an error rather than a filter. The last ones let a long copy end."""

OTHERWISE = {"application_name": "pequod", "connect_timeout": "10"}
LOCK = 0x706571756F64
"""The advisory lock that the one bridge of a database holds."""

STATUS_SECONDS = 5
"""How often PostgreSQL is told that the stream is read. It lets go of a reader after its `wal_sender_timeout`, of 60 seconds."""


class Slot(NamedTuple):
    """The LSN at which the stream begins, and the name of the snapshot that has all before it."""

    name: str
    lsn: int
    snapshot: str


class Sink(Protocol):
    """What takes the bytes of a copy."""

    def write(self, piece: bytes) -> None:
        """Takes some of them."""


class Database:
    """The two connections. `with` closes them, which drops the slot and the lock."""

    def __init__(self, dsn: str) -> None:
        """Connects. `PostgresError` where that fails."""
        given = psycopg2.extensions.parse_dsn(dsn)
        options = " ".join([given.get("options", ""), *(f"-c {name}={value}" for name, value in SETTINGS.items())])
        words = {**OTHERWISE, **given, "options": options.strip()}
        self._questions = psycopg2.connect(**words)
        self._questions.autocommit = True
        kind = psycopg2.extras.LogicalReplicationConnection
        self._stream = psycopg2.connect(connection_factory=kind, **words).cursor()

    def __enter__(self) -> Database:
        return self

    def __exit__(
        self, kind: Optional[type[BaseException]], error: Optional[BaseException], trace: Optional[TracebackType]
    ) -> None:
        for connection in (self._stream.connection, self._questions):
            connection.close()

    def ask(self, query: str, words: Sequence[object] = ()) -> list[Any]:
        """Asks a query, and gives the rows."""
        with self._questions.cursor() as cursor:
            cursor.execute(query, words)
            return list(cursor.fetchall())

    def lock(self) -> bool:
        """Takes the lock of the one bridge of a database, and says whether it was free. The connection holds it to its end."""
        return bool(self.ask("select pg_try_advisory_lock(%s)", (LOCK,))[0][0])

    def make_slot(self) -> Slot:
        """Makes a slot that goes with its connection, so that a bridge that is away keeps nothing of the log. It waits until each
        transaction that writes now has ended. The snapshot can be taken until the stream begins."""
        name = f"pequod_{secrets.token_hex(8)}"
        self._stream.execute(f"CREATE_REPLICATION_SLOT {name} TEMPORARY LOGICAL {PLUGIN} EXPORT_SNAPSHOT")
        _, lsn, snapshot, _ = self._stream.fetchone()
        return Slot(name, read_lsn(lsn), snapshot)

    def begin_snapshot(self, slot: Slot) -> None:
        """Has `copy` read what stood when the slot was made, until `end_snapshot`."""
        with self._questions.cursor() as cursor:
            cursor.execute("begin isolation level repeatable read read only")
            cursor.execute("set transaction snapshot %s", (slot.snapshot,))

    def end_snapshot(self) -> None:
        """Has questions see what stands now."""
        with self._questions.cursor() as cursor:
            cursor.execute("commit")

    def copy(self, schema: str, table: str, columns: Sequence[str], sink: Sink) -> None:
        """Writes the rows into a sink, in the text form of COPY."""
        named = ", ".join(map(_quoted, columns))
        with self._questions.cursor() as cursor:
            cursor.copy_expert(f"copy (select {named} from {_quoted(schema)}.{_quoted(table)}) to stdout", sink)

    def begin_stream(self, slot: Slot, publication: str) -> None:
        """Has the changes come that were committed after the slot was made."""
        self._stream.start_replication(
            slot_name=slot.name, decode=False, start_lsn=slot.lsn, status_interval=STATUS_SECONDS,
            options={"proto_version": "1", "publication_names": _quoted(publication)},
        )

    def next_message(self) -> Optional[bytes]:
        """Gives the next message of the stream, where one has come."""
        message = self._stream.read_message()
        return None if message is None else bytes(message.payload)

    @property
    def told_lsn(self) -> int:
        """Up to where in the log all has come. It moves on without a message where nothing of the mapped tables is written."""
        return int(self._stream.wal_end)

    def confirm(self, lsn: int) -> None:
        """Has PostgreSQL know, with the next report, that all up to this LSN is done with."""
        self._stream.send_feedback(write_lsn=lsn, flush_lsn=lsn, apply_lsn=lsn)

    def wait(self, seconds: float) -> None:
        """Waits until something comes, at most so long."""
        select.select([self._stream], [], [], seconds)


def _quoted(name: str) -> str:
    return '"' + name.replace('"', '""') + '"'
