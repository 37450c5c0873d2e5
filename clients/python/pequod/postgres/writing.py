"""Writes to Pequod, in order and by pipelines, with the marker at the ends of transactions."""

from __future__ import annotations

import time
from typing import Callable, Optional

from ..answers import Done
from ..client import Client
from ..errors import OutOfMemory, PequodError
from ..exchange import Pending
from .marks import MARKER_KEY, Mark
from .own_writes import OwnWrites

BATCH = 2_000
"""How many writes go at once."""

MEMORY_PAUSE = 0.05
"""How many seconds lie between two attempts to have a write done for which the server finds no memory."""

Write = tuple[str, Optional[str]]
"""A key and its value, or None where the pair goes."""


class WriteRefused(Exception):
    """Pequod refuses a write for good."""

    def __init__(self, key: str, error: PequodError) -> None:
        super().__init__(str(error))
        self.key = key
        self.error = error


class Writer:
    """What is to be written, and up to where in PostgreSQL's log it is.

    The marker is put when all up to it was acknowledged. It has the position of the last write of a transaction, and not of one
    within the next, so a reader at that position sees no part of a transaction."""

    def __init__(self, client: Client, say: Callable[[str], None]) -> None:
        """`say` prints a line."""
        self._client = client
        self._say = say
        self._pending: list[Write] = []
        self._ended: Optional[tuple[int, int]] = None
        self._done = client.get(MARKER_KEY).position
        self.mark = Mark(0, 0)
        self.written = 0
        self.own = OwnWrites(self._done)

    @property
    def is_idle(self) -> bool:
        """Whether nothing is to be written."""
        return not self._pending

    def put(self, key: str, value: str) -> None:
        """Sets a pair, in its turn."""
        self._add(key, value)

    def remove(self, key: str) -> None:
        """Removes a pair, in its turn."""
        self._add(key, None)

    def end_transaction(self, lsn: int) -> None:
        """Notes that what was written so far ends with a transaction, and that all up to this LSN is among it."""
        self._ended = len(self._pending), lsn

    def send(self) -> None:
        """Has all of it done, and puts the marker where a transaction ended. `WriteRefused` where the server refuses a write, and
        `LinkLost` where the link is lost."""
        pending, self._pending = self._pending, []
        ended, self._ended = self._ended, None
        before = self._done
        answers = self._send_in_order(pending)
        if pending:
            self._done = self._client.position
            self.written += len(pending)
            self.own.note(pending)
        if ended is None:
            return
        count, lsn = ended
        if count == 0:
            self.put_mark(Mark(lsn, before))
        elif count == len(pending):
            self.put_mark(Mark(lsn, self._done))
        elif answers is not None:
            self.put_mark(Mark(lsn, answers[count - 1].result().position))
        # Else writes of the next transaction stand among the others, and the marker waits for its end.

    def put_mark(self, mark: Mark) -> None:
        """Puts the marker. No later one has an earlier position."""
        self._send_in_order([(MARKER_KEY, str(mark))])
        self.mark = mark
        self._done = max(self._done, mark.position)

    def put_now(self, key: str, value: str) -> None:
        """Sets a pair of the bridge's own, out of turn."""
        self._send_in_order([(key, value)])

    def value_of(self, key: str) -> Optional[str]:
        """Asks for a value, as it stands when all is done."""
        self.send()
        return self._client.get(key).value

    def keys_between(self, first: str, last: str) -> list[str]:
        """Asks for the keys of a range, as they stand when all is done."""
        self.send()
        return [key for key, _ in self._client.scan(first, last)]

    def _add(self, key: str, value: Optional[str]) -> None:
        self._pending.append((key, value))
        if len(self._pending) >= BATCH:
            self.send()

    def _send_in_order(self, writes: list[Write]) -> Optional[list[Pending[Done]]]:
        """Has writes done in their order, and gives the answers. What the server has no memory for did not happen: it is written
        again with all that came after it, so that the last write of each key is the last one there too. Positions do not tell
        then what stood before what, and no answers are given."""
        answers = self._exchange(writes)
        is_first = True
        while (bad := _first_error(answers)) is not None:
            error = answers[bad].error()
            if not isinstance(error, OutOfMemory):
                raise WriteRefused(writes[bad][0], error or PequodError())
            if is_first:
                self._say("Pequod finds no memory for a write, and is asked again")
            time.sleep(MEMORY_PAUSE)
            is_first, writes = False, writes[bad:]
            answers = self._exchange(writes)
        return answers if is_first else None

    def _exchange(self, writes: list[Write]) -> list[Pending[Done]]:
        with self._client.pipeline(check=False) as pipeline:
            return [pipeline.remove(key) if value is None else pipeline.put(key, value) for key, value in writes]


def _first_error(answers: list[Pending[Done]]) -> Optional[int]:
    return next((number for number, answer in enumerate(answers) if answer.error() is not None), None)
