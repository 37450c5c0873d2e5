"""Pairs in a file, one JSON array on each line: `["p|bob|100","Hi"]`."""

from __future__ import annotations

import json
from typing import IO, Iterable, Iterator, Sequence

from .client import Client
from .runs import PROBE_KEY


class NoPairs(ValueError):
    """A line that is no pair."""


def dump(client: Client, tables: Sequence[str]) -> tuple[int, Iterator[bytes]]:
    """Gives a position, and a line for each pair of whole tables, all as they stood at that position.

    The lines raise `Gone` where more than 65,536 entries came while the tables before were read. It raises a ValueError where a
    table's name has a `|` or is empty. A whole table is one answer, so both sides hold its pairs at once."""
    for table in tables:
        if table == "" or "|" in table:
            raise ValueError(f"{table!r} is no name of a table")
    position = client.get(PROBE_KEY).position
    scans = (client.scan(f"{table}|", f"{table}}}", at=position) for table in tables)
    return position, (_line(*pair) for pairs in scans for pair in pairs)


def _line(key: str, value: str) -> bytes:
    return json.dumps([key, value], ensure_ascii=False, separators=(",", ":")).encode() + b"\n"


def read_pairs(file: Iterable[bytes]) -> Iterator[tuple[str, str]]:
    """Yields the pair of each line; empty lines are left out. It raises `NoPairs` with the line's number where it is none."""
    for number, line in enumerate(file, 1):
        if not line.strip():
            continue
        try:
            key, value = json.loads(line.decode())
        except (ValueError, TypeError):
            key = value = None
        if not isinstance(key, str) or not isinstance(value, str):
            raise NoPairs(f'line {number} is no ["KEY","VALUE"]: {line[:80]!r}')
        yield key, value


def write_dump(client: Client, tables: Sequence[str], file: IO[bytes]) -> tuple[int, int]:
    """Writes the lines of a dump to a file, and gives how many there were, and at which position."""
    count = 0
    position, lines = dump(client, tables)
    for count, line in enumerate(lines, 1):
        file.write(line)
    return count, position
