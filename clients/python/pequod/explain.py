"""What the joins of a file have to do with a key: `python3 -m pequod explain FILE KEY`."""

from __future__ import annotations

import sys

from .feeding import Feed, Joins
from .joins import Join
from .walks import walks

READ, UNREAD, UNUSABLE = 0, 1, 9


def explain_file(file: str, key: str) -> int:
    """Prints which joins a put of the key feeds and which one makes it, or by what it misses those of its table. It gives the
    status: 0, 1 where the key has to do with none, 9 where the file cannot be used."""
    try:
        joins = Joins.of_file(file)
    except (OSError, ValueError) as error:
        print(f"pequod explain: {file}: {error}", file=sys.stderr)
        return UNUSABLE
    makers, feeds = joins.makers(key), joins.feeds(key)
    for number, join in makers.items():
        print(f"{key} is made by line {number}, and cannot be put")
        print(f"  {join.text}")
        print("  a get of it reads")
        for line in _read(join, key, joins):
            print(f"    {line}")
    for feed in feeds:
        print(f"{key} feeds line {feed.number} through {feed.source}")
        print(f"  {feed.join.text}")
        print(f"  {_made(feed)}")
    if not makers and not feeds:
        print(f"{key} feeds no join")
        for miss in joins.misses(key):
            print(f"  {miss}")
    return READ if makers or feeds else UNREAD


def _read(join: Join, key: str, joins: Joins) -> list[str]:
    """What a get of a key of the output reads, in order, and which of it other joins make."""
    slots = join.output.match(key)
    lines = []
    for walk in walks(join, slots if isinstance(slots, dict) else {}):
        makers = joins.makers_of(walk.source.pattern)
        by = f", which line {' and '.join(map(str, makers))} may make" if makers else ""
        lines.append(f"{walk}{by}")
    return lines


def _made(feed: Feed) -> str:
    if feed.source.operator == "check":
        return f"as one that is wanted for {feed.key}"
    return f"as {'the value' if feed.source.operator == 'copy' else 'one of the values'} of {feed.key}"
