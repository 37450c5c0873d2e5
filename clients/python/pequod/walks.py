"""What a read of a join's output walks: the ranges of its sources, in the order in which the server reads them."""

from __future__ import annotations

from dataclasses import dataclass
from typing import Mapping, Optional

from .joins import Join, Literal, Pattern, Slot, Source


@dataclass(frozen=True)
class Walk:
    """What is read of one source: the keys that begin with these segments, or one key. `stop` is the first slot whose text is not
    known, and None where the key is. `each` has the slots among the segments that sources before it gave."""

    source: Source
    segments: tuple[str, ...]
    each: tuple[str, ...]
    stop: Optional[Slot]

    @property
    def front(self) -> str:
        """What its keys begin with, or the key."""
        return "|".join(self.segments) + ("" if self.stop is None else "|")

    def __str__(self) -> str:
        what = f"the key {self.front}" if self.stop is None else f"{self.front} to {self.front[:-1]}}}"
        return f"{what}, for each {' and '.join(self.each)} that was found" if self.each else what


def walks(join: Join, known: Mapping[str, str]) -> list[Walk]:
    """What a read walks that knows the texts of some slots. All slots of a source are known to those behind it."""
    texts, given = dict(known), dict(known)
    found = []
    for source in join.in_order():
        segments, each, stop = [], [], None
        for segment in source.pattern.segments:
            if isinstance(segment, Slot) and segment.name not in texts:
                stop = segment
                break
            segments.append(segment.text if isinstance(segment, Literal) else texts[segment.name])
            if isinstance(segment, Slot) and segment.name not in given and str(segment) not in each:
                each.append(str(segment))
        found.append(Walk(source, tuple(segments), tuple(each), stop))
        for slot in source.pattern.slots:
            texts.setdefault(slot.name, str(slot))
    return found


def fronts(output: Pattern) -> list[tuple[str, dict[str, str]]]:
    """What a reader may know of an output: each text that its keys begin with and that ends with another slot, from one slot on,
    and the slots in it. The last is a whole key."""
    found = []
    known: dict[str, str] = {}
    segments = []
    for place, segment in enumerate(output.segments, 1):
        segments.append(str(segment))
        if isinstance(segment, Slot) and segment.name not in known:
            known[segment.name] = str(segment)
            is_key = place == len(output.segments)
            found.append(("|".join(segments) + ("" if is_key else "|"), dict(known)))
    return found
