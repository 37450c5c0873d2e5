"""What a process has for itself, also after it was forked from another."""

from __future__ import annotations

import os
from typing import Callable, Generic, TypeVar

T = TypeVar("T")


class OwnOfProcess(Generic[T]):
    """A thing, as a lock, of which each process has one of its own.

    A fork copies a lock as it stands, also one that another thread holds, and that thread is not in the child: nobody would
    ever let it go there. So the child makes a new one when it first wants it."""

    def __init__(self, make: Callable[[], T]) -> None:
        self._make = make
        self._things: dict[int, T] = {}

    def own(self) -> T:
        """The thing of this process. Threads that ask for it at once get the same one."""
        process = os.getpid()
        thing = self._things.get(process)
        return self._things.setdefault(process, self._make()) if thing is None else thing
