"""How a restart of a server is seen."""

from __future__ import annotations

import threading

from .forks import OwnOfProcess


class Run:
    """What was told of one run of a server: the greatest position in its replies. The clients of a pool share it.

    When a restart is seen, a new one takes its place. A client of the earlier run may still have the old one, and notes there
    what nobody asks for any more.
    """

    def __init__(self, position: int = 0) -> None:
        # A signal handler may ask while its own thread is within `note`.
        self._lock = OwnOfProcess(threading.RLock)
        self._position = position

    @property
    def position(self) -> int:
        return self._position

    def note(self, position: int) -> None:
        """Notes a position that was told."""
        with self._lock.own():
            self._position = max(self._position, position)


PROBE_KEY = "pequod|"
"""The key of which a new connection asks, to be told a position. It does not matter what stands there."""
