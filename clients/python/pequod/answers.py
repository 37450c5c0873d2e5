"""What a server answers. Each answer has a position: the length of the write history that it speaks of."""

from __future__ import annotations

from dataclasses import dataclass
from typing import Iterator, Literal, Optional, Union


@dataclass(frozen=True)
class Done:
    """A write that entered the history, at this position."""

    position: int


@dataclass(frozen=True)
class Found:
    """The value of a key."""

    position: int
    value: str

    def __bool__(self) -> Literal[True]:
        return True


@dataclass(frozen=True)
class Absent:
    """No pair stands at the key. It is false, and its value is None."""

    position: int
    value: None = None

    def __bool__(self) -> Literal[False]:
        return False


@dataclass(frozen=True)
class Pairs:
    """The pairs of a range, in the byte order of their keys. It can be looped over and has a length, and `dict` takes it."""

    position: int
    pairs: tuple[tuple[str, str], ...]

    def __iter__(self) -> Iterator[tuple[str, str]]:
        return iter(self.pairs)

    def __len__(self) -> int:
        return len(self.pairs)


@dataclass(frozen=True)
class Changes:
    """What changed in a range from the position `since` to the position of the answer: each key whose pair is another one, in
    the byte order of keys, with its value now, or None where it has gone. It can be looped over and has a length."""

    since: int
    position: int
    changes: tuple[tuple[str, Optional[str]], ...]

    def __iter__(self) -> Iterator[tuple[str, Optional[str]]]:
        return iter(self.changes)

    def __len__(self) -> int:
        return len(self.changes)


Value = Union[Found, Absent]
Answer = Union[Done, Found, Absent, Pairs, Changes]
