"""Begins again and again: a bridge lasts as long as its links do."""

from __future__ import annotations

import time
from typing import Callable, NoReturn

from ..client import connect
from ..errors import PequodError
from .bridge import Bridge, Busy
from .database import Database, PermissionMissing, PostgresError
from .following import CopyNeeded
from .mapping import Mapping, MappingRefused

PAUSE = 0.5
"""How many seconds lie between two beginnings."""

ANSWER_SECONDS = 60.0
"""How long an answer of Pequod may take. A scan of a whole table is among them."""


def keep(mapping: Mapping, say: Callable[[str], None]) -> NoReturn:
    """Keeps Pequod's tables equal to those of PostgreSQL. It ends by an exception alone: `MappingRefused`, or `WriteRefused`.

    What else ends a bridge is said once, and the next one begins after a pause, until one has begun."""
    said = ""
    while True:
        try:
            with Database(mapping.dsn) as database, connect(mapping.host, mapping.port, ANSWER_SECONDS) as client:
                bridge = Bridge(mapping, database, client, say)
                bridge.copy()
                said = ""
                bridge.follow()
        except PermissionMissing as error:
            raise MappingRefused([mapping.refusal(("postgres", "dsn"), _first_line(error))]) from error
        except (PostgresError, PequodError, OSError, Busy, CopyNeeded) as error:
            line = _first_line(error)
            if line != said:
                say(f"begins anew: {line}")
            said = line
        time.sleep(PAUSE)


def _first_line(error: Exception) -> str:
    return (str(error).strip() or type(error).__name__).splitlines()[0]
