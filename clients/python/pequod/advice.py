"""Warnings about a join that the server takes, and that may mean or cost something else than was thought."""

from __future__ import annotations

from typing import Iterator, Optional

from .joins import AGGREGATES, Join, Literal, Slot, Source
from .reasons import Note
from .walks import Walk, fronts, walks

ORDERED = frozenset((
    "at", "created", "date", "day", "hour", "index", "minute", "month", "n", "no", "number", "page", "points", "pos", "position",
    "price", "rank", "score", "second", "seq", "sequence", "time", "timestamp", "ts", "updated", "week", "when", "year",
))
"""Names of slots that are likely to be in an order by which pages are cut. A text does not tell; its names may."""


def warnings(join: Join) -> Iterator[Note]:
    """What to look at in a join: literals that look like slots, sources that a read walks too much of, slots without widths."""
    yield from _missed_slots(join)
    yield from _long_walks(join)
    yield from _missed_widths(join)


def _missed_slots(join: Join) -> Iterator[Note]:
    names = {slot.name for pattern in join.patterns() for slot in pattern.slots}
    seen = False
    for pattern in join.patterns():
        for segment in pattern.segments[1:]:
            if isinstance(segment, Literal) and segment.text in names:
                seen = True
                yield Note(f"{segment} is a literal here, and <{segment}> is a slot of this join", join.text, segment.byte)
    is_total = join.values[0].operator in AGGREGATES and join.values[0].pattern.slots
    if not join.output.slots and not seen and not is_total:
        first = join.output.segments[1]
        walked = ", ".join(str(walk) for walk in walks(join, {}))
        sentence = f"the output has no slot, so it is one pair; was <{first}> meant? A read of it walks {walked}"
        yield Note(sentence, join.text, first.byte)


def _long_walks(join: Join) -> Iterator[Note]:
    """For each source the first text that a reader may know of the output, and that leaves too much of the source to be read."""
    told: set[Source] = set()
    known_fronts = fronts(join.output)
    for front, known in known_fronts[:-1] or known_fronts:
        before = set(known)
        for walk in walks(join, known):
            slots = walk.source.pattern.slots
            why = _why_long(walk, [slot for slot in slots if slot.name in before])
            if why is not None and walk.source not in told and walk.stop is not None:
                told.add(walk.source)
                yield Note(f"a read of {front} walks all of {_walked(walk)}: {why}", join.text, walk.stop.byte)
            before.update(slot.name for slot in slots)


def _why_long(walk: Walk, known: list[Slot]) -> Optional[str]:
    """Why more is walked than is known, or None where it is not."""
    if walk.stop is None:
        return None
    if not known:
        return "none of its slots is known by then"
    behind = [slot for slot in known if slot.byte > walk.stop.byte]
    return f"{behind[0]} stands behind {walk.stop}, which such a read does not know" if behind else None


def _walked(walk: Walk) -> str:
    return f"{walk.front}{f' for each {walk.each[0]}' if walk.each else ''}"


def _missed_widths(join: Join) -> Iterator[Note]:
    """The first slot of the output by which a page is likely to be cut and cannot be."""
    known: dict[str, str] = {}
    front = ""
    for segment in join.output.segments:
        if isinstance(segment, Slot) and segment.width is None and segment.name not in known and _is_ordered(segment.name):
            walked = [_walked(walk) for walk in walks(join, known) if walk.stop is not None and walk.stop.name == segment.name]
            if walked:
                what = f"a page of {front} that is cut by {segment} walks all of {' and '.join(walked)}"
                yield Note(f"{what}, since the slot has no width, as <{segment.name}:16>", join.text, segment.byte)
                return
        if isinstance(segment, Slot):
            known[segment.name] = str(segment)
        front += f"{segment}|"


def _is_ordered(name: str) -> bool:
    return any(part in ORDERED for part in name.lower().split("_")) or name.lower().endswith(("time", "date"))
