"""Which joins a pair feeds, and which one makes it."""

from __future__ import annotations

import os
import pathlib
from dataclasses import dataclass
from typing import Iterable, Mapping, Union

from .errors import Unread
from .joins import Join, NoJoin, Pattern, Slot, Source, overlap, read_join
from .joins_file import join_lines


@dataclass(frozen=True)
class Feed:
    """A join that reads a pair, through one of its sources, and the key that it makes of it: slots that other sources give stand
    in it as they are."""

    number: int
    join: Join
    source: Source
    key: str


class Joins:
    """Joins that are declared together, each of which is taken to stand: `python3 -m pequod check FILE` says whether they do.

        joins = pequod.Joins.of_file("timeline.joins")
        client.put("p|bob|100", "Hi", strict=joins)
    """

    def __init__(self, texts: Union[Iterable[str], Mapping[int, str]]) -> None:
        """Reads the texts, which have numbers from 1 on unless others are given. It raises a ValueError where one is no join."""
        numbered: Iterable[tuple[int, str]] = texts.items() if isinstance(texts, Mapping) else enumerate(texts, 1)
        self._joins: dict[int, Join] = {}
        for number, text in numbered:
            try:
                self._joins[number] = read_join(text)
            except NoJoin as fault:
                raise ValueError(f"line {number} is no join, from byte {fault.at} on: {fault.sentence}") from None

    @classmethod
    def of_file(cls, file: Union[str, "os.PathLike[str]"]) -> Joins:
        """Reads a file as `--joins` of the server does; its joins are numbered by its lines. It raises an OSError where it cannot
        be read, and a ValueError where a line is no join."""
        return cls({number: line.decode() for number, line in join_lines(pathlib.Path(file).read_bytes())})

    def __len__(self) -> int:
        return len(self._joins)

    def makers(self, key: str) -> dict[int, Join]:
        """The joins whose output the key fits, by their numbers: such a key is made, and never put."""
        return {number: join for number, join in self._joins.items() if isinstance(join.output.match(key), dict)}

    def makers_of(self, pattern: Pattern) -> list[int]:
        """The numbers of the joins whose outputs may have keys that fit a pattern."""
        return [number for number, join in self._joins.items() if overlap(join.output, pattern)]

    def feeds(self, key: str) -> list[Feed]:
        """Each join that reads the key, through each source that it fits."""
        found = []
        for number, join in self._joins.items():
            for source in join.sources:
                slots = source.pattern.match(key)
                if isinstance(slots, dict):
                    found.append(Feed(number, join, source, filled(join.output, slots)))
        return found

    def misses(self, key: str) -> list[str]:
        """For each source of the key's table by what the key misses it, as a sentence. Where there is none, one sentence says which
        tables are read."""
        table = key.partition("|")[0]
        near, tables = [], set()
        for number, join in self._joins.items():
            for source in join.sources:
                tables.add(source.pattern.table)
                missed = source.pattern.match(key)
                if source.pattern.table == table and isinstance(missed, str):
                    near.append(f"{source.pattern} of line {number}: {missed}")
        return near or [f"no join reads the table {table}; those that are read are {', '.join(sorted(tables)) or 'none'}"]

    def want_fed(self, key: str) -> None:
        """Raises `Unread` where no join reads the key. One that a join makes is left to the server, which refuses it."""
        if not self.feeds(key) and not self.makers(key):
            raise Unread(key, tuple(self.misses(key)))


def filled(pattern: Pattern, slots: Mapping[str, str]) -> str:
    """A key of a pattern, with the texts of the slots that are known."""
    return "|".join(slots.get(each.name, str(each)) if isinstance(each, Slot) else str(each) for each in pattern.segments)
