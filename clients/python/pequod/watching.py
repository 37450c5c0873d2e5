"""What is told of a range that is watched, and what is asked next."""

from __future__ import annotations

from typing import Optional, Union

from .answers import Changes, Pairs
from .errors import LinkLost
from .wire import Request, changes_request, scan_request

RECONNECT_PAUSE = 0.2
"""How many seconds a watch waits between two attempts to connect."""


class Watch:
    """The pairs of a range as they were told, and the position of that on one link."""

    def __init__(self, first: str, last: str) -> None:
        self._bounds = (first, last)
        self._pairs: dict[str, str] = {}
        self._since: Optional[int] = None
        self._link = 0
        self._was_lost = False

    def request(self, link: int) -> Request[Union[Pairs, Changes]]:
        """What to ask over the link with this number: what changed, or all pairs. On another link than before there may be
        another run of the server, with positions of its own."""
        if link != self._link:
            self.begin_anew()
        self._link = link
        if self._since is None:
            return scan_request(*self._bounds)
        return changes_request(*self._bounds, self._since)

    def take(self, answer: Union[Pairs, Changes]) -> list[tuple[str, Optional[str]]]:
        """Takes the answer, and gives what is another pair than was told before."""
        changed = list(answer) if isinstance(answer, Changes) else self._compared(dict(answer.pairs))
        for key, value in changed:
            if value is None:
                self._pairs.pop(key, None)
            else:
                self._pairs[key] = value
        self._since = answer.position
        self._was_lost = False
        return changed

    def begin_anew(self) -> None:
        """All pairs are asked for next."""
        self._since = None

    def forget(self) -> None:
        """All pairs are asked for next, and told as at the start: those that were told are of an earlier run."""
        self._pairs.clear()
        self.begin_anew()

    def lose(self, error: LinkLost) -> None:
        """Notes that the link was lost before the answer came. It raises the error where that is the second time since the last
        answer: a scan that takes longer than the timeout would be asked without an end, each time at the server's cost. Where
        nothing was sent, another request has lost the link, which does not count."""
        if error.unanswered:
            if self._was_lost:
                raise error
            self._was_lost = True

    def _compared(self, pairs: dict[str, str]) -> list[tuple[str, Optional[str]]]:
        """Each key that has another pair here than was told, in byte order."""
        keys = {key for key in self._pairs if key not in pairs}
        keys.update(key for key, value in pairs.items() if self._pairs.get(key) != value)
        return [(key, pairs.get(key)) for key in sorted(keys, key=str.encode)]
