"""Rows that make no pair: counted by table and cause, said, and put where readers of Pequod find it."""

from __future__ import annotations

import json
import time
from typing import Callable, Optional

from .formats import Cause
from .mapping import TableMapping

SECONDS_BETWEEN = 1.0

Counts = dict[str, dict[str, int]]


class Skipped:
    """How many rows made no pair since the tables were copied last, by table and cause."""

    def __init__(self, say: Callable[[str], None]) -> None:
        """`say` prints a line."""
        self._say = say
        self._counts: dict[str, dict[Cause, int]] = {}
        self._is_told = False
        self._next = 0.0

    def note(self, table: TableMapping, cause: Cause) -> None:
        """Counts one row."""
        of_table = self._counts.setdefault(table.name, {})
        of_table[cause] = of_table.get(cause, 0) + 1
        self._is_told = False

    @property
    def counts(self) -> Counts:
        """The counts, by the names of tables and causes."""
        return {name: {cause.value: count for cause, count in counts.items()} for name, counts in sorted(self._counts.items())}

    def take_news(self) -> Optional[str]:
        """Says what was counted, and gives what is to be put, where that is another than before. At most once a second it does."""
        now = time.monotonic()
        if self._is_told or now < self._next:
            return None
        self._is_told, self._next = True, now + SECONDS_BETWEEN
        for name, counts in sorted(self._counts.items()):
            causes = "; ".join(f"{cause.sentence}: {count}" for cause, count in counts.items())
            self._say(f"{name}: {sum(counts.values())} rows make no pair: {causes}")
        return json.dumps(self.counts, separators=(",", ":"))
