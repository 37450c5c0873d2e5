"""What the bridge wrote, to find what another wrote into the mapped tables since it began.

A bridge that was ended, or that lost its link, may have left lines with the server that are answered later: after the next bridge
has compared the pairs with the rows. So that one looks what changed since then, and whether it was its own writes.
"""

from __future__ import annotations

from typing import Mapping, Optional

from ..client import Client
from ..errors import Gone
from .mapping import TableMapping

MOST_NOTED = 50_000
"""Of how many keys it is noted what was written. With more the position may be out of reach of `changes`, and nobody looks."""


class OwnWrites:
    """What the bridge wrote since a position: of each key the last value, None where the pair was removed."""

    def __init__(self, since: int) -> None:
        self._since = since
        self._written: Optional[dict[str, Optional[str]]] = {}

    def note(self, writes: list[tuple[str, Optional[str]]]) -> None:
        """Notes what was written."""
        if self._written is not None:
            self._written.update(writes)
            if len(self._written) > MOST_NOTED:
                self._written = None

    def forget(self) -> None:
        """Has nothing be noted any more."""
        self._written = None

    def stranger_in(self, client: Client, table: TableMapping) -> Optional[str]:
        """Gives a key of the table whose pair is not what the bridge wrote last, if there is one. All that it wrote has to be
        acknowledged. It costs two scans of the table."""
        if self._written is None:
            return None
        try:
            changed = client.changes(*table.bounds, self._since)
        except Gone:
            return None
        return _stranger(dict(changed.changes), self._written)


def _stranger(changed: Mapping[str, Optional[str]], written: Mapping[str, Optional[str]]) -> Optional[str]:
    """Gives a key that has changed and was not written, or not to what it is. One that was written back is no change."""
    return next((key for key, value in changed.items() if key not in written or written[key] != value), None)
