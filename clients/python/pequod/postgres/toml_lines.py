"""On which line of a TOML file a name stands, which the library that reads it does not tell."""

from __future__ import annotations

import re
from typing import Any, Callable, Mapping

Path = tuple[str, ...]
"""The names that lead to a value, as `("table", "public.post", "key")`."""

_HEADER = re.compile(r"\s*(\[[^\[].*?\])\s*(?:#.*)?$")
_NAMED = re.compile(r"\s*((?:\"[^\"]*\"|'[^']*'|[A-Za-z0-9_.\- ])+?)\s*=")


class Lines:
    """The lines of a TOML file on which tables begin and names are given values."""

    def __init__(self, text: str, read: Callable[[str], Mapping[str, Any]]) -> None:
        """Looks through a text that `read` reads as TOML."""
        self._lines: dict[Path, int] = {(): 1}
        header: Path = ()
        for number, line in enumerate(text.splitlines(), 1):
            if found := _HEADER.match(line):
                header = _path(read, found[1])
                self._note(header, number)
            elif found := _NAMED.match(line):
                self._note(header + _path(read, f"{found[1]} = 0"), number)

    def _note(self, path: Path, number: int) -> None:
        """Notes a path that a line names, and all that it stands in, where none before did."""
        for length in range(len(path), 0, -1):
            self._lines.setdefault(path[:length], number)

    def of(self, path: Path) -> int:
        """Gives the line of a name, or else of what it would stand in."""
        while path not in self._lines:
            path = path[:-1]
        return self._lines[path]


def _path(read: Callable[[str], Mapping[str, Any]], line: str) -> Path:
    """Reads the names of one line. It gives none where the line is no whole one, as within a long text."""
    try:
        found: Any = read(line)
    except ValueError:
        return ()
    names = []
    while isinstance(found, Mapping) and found:
        name, found = next(iter(found.items()))
        names.append(name)
    return tuple(names)
