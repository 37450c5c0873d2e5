"""What recipes of docs/COOKBOOK.md ask of an application, in functions to copy. `client` is one of `clients/python`."""

from __future__ import annotations

import asyncio
import contextlib
import heapq
import json
import secrets
import time
from typing import Callable, ContextManager, Iterable, Iterator, Mapping, Optional, Union

import pequod
from pequod import aio

# A score in the key.


def move_score(client: pequod.Client, game: str, player: str, score: int) -> None:
    """Makes this the only score of a player, from 0 to 9,999. Whoever calls it holds a lock for the player from the change in the
    truth until this returns, or two writers find one old score and the player stands twice."""
    new = f"{score:04}"
    old = {key.split("|")[3] for key, _ in client.scan_prefix(f"at|{game}|{player}|")}
    with client.pipeline() as pipeline:
        # The new score comes first: a reader in between sees the player twice, and never misses the player. `at` stands from
        # before the score until after it, so the next move finds what a writer left that ended midway.
        pipeline.put(f"at|{game}|{player}|{new}", "1")
        pipeline.put(f"score|{game}|{new}|{player}", "1")
        for stray in sorted(old - {new}):
            pipeline.remove(f"score|{game}|{stray}|{player}")
            pipeline.remove(f"at|{game}|{player}|{stray}")


# The best ten by value.


def best_of(karma: Mapping[str, str], size: int) -> str:
    """Returns the authors with the most karma, as JSON, of the pairs of `karma`."""
    values = ((int(value), key.split("|")[1]) for key, value in karma.items())
    best = heapq.nsmallest(size, values, key=lambda each: (-each[0], each[1]))
    return json.dumps([[author, value] for value, author in best])


def keep_best(client: pequod.Client, size: int = 10, every: float = 0.5) -> None:
    """Keeps the best in the pair `best|karma`, and looks `every` so many seconds; values are walked only where one has changed. It
    ends by `LinkLost`, as after a restart, or by `Gone`: call it again then, with another client."""
    bounds = "karma|", "karma}"
    pairs = client.scan(*bounds)
    karma, position, told = dict(pairs), pairs.position, None
    while True:
        best = best_of(karma, size)
        if best != told:
            client.put("best|karma", best)
            told = best
        time.sleep(every)
        while not (changes := client.changes(*bounds, position)):
            position = changes.position
            time.sleep(every)
        position = changes.position
        apply(changes, karma)


# Newest first.

LATEST = 9_999_999_999_999_999
"""The greatest time that has 16 digits."""


def back(moment: int) -> str:
    """Returns a time in microseconds as the segment of a key, the latest time first."""
    return f"{LATEST - moment:016}"


def moment_of(key: str) -> int:
    """Returns the time of a key whose third segment `back` made."""
    return LATEST - int(key.split("|")[2])


def newest(client: pequod.Client, user: str, since: int, after: Optional[str] = None, at: Optional[int] = None) -> pequod.Pairs:
    """Returns what a user's feed has since a time, the newest first. `after` is the last key of the page before, and `at` the
    position of the first page."""
    first = f"new|{user}|" if after is None else after + "\0"
    return client.scan(first, f"new|{user}|{back(since)}}}", at)


# What ends by itself.


def put_until(client: pequod.Client, key: str, value: str, minute: int) -> None:
    """Puts a pair that ends at a minute, counted from 1970, that is still to come. The key has at most 500 bytes. A later call
    with a later minute has it stand longer. Whoever calls it holds the lock that `sweep_up_to` is called under."""
    with client.pipeline() as pipeline:
        # The end comes first: nothing that a writer left midway stays for good.
        pipeline.put(f"end{minute:08}|{key}", "1")
        pipeline.put(f"until|{key}", f"{minute:08}")
        pipeline.put(key, value)


def value_at(client: pequod.Client, key: str, minute: int) -> Optional[str]:
    """Returns the value of a key, or None where it has ended by that minute, swept or not."""
    with client.pipeline() as pipeline:
        until, value = pipeline.get(f"until|{key}"), pipeline.get(key)
    return value.result().value if (until.result().value or "") > f"{minute:08}" else None


def sweep(client: pequod.Client, minute: int) -> None:
    """Removes what ended at a minute, and leaves what was put again with a later end."""
    name = f"{minute:08}"
    keys = [key.partition("|")[2] for key, _ in client.scan(f"end{name}|", f"end{name}}}")]
    with client.pipeline() as pipeline:
        ends = [(key, pipeline.get(f"until|{key}")) for key in keys]
    with client.pipeline() as pipeline:
        for key, until in ends:
            if (until.result().value or "") <= name:
                pipeline.remove(key)
                pipeline.remove(f"until|{key}")
            # It goes last: where this ends midway the next sweep of the minute goes on.
            pipeline.remove(f"end{name}|{key}")


def sweep_up_to(client: pequod.Client, minute: int) -> None:
    """Sweeps each minute up to this one that was not swept yet. In an empty cache that is this one alone."""
    swept = client.get("swept|minute").value
    for each in range(int(swept or minute - 1) + 1, minute + 1):
        sweep(client, each)
        client.put("swept|minute", f"{each:08}")


# Refill with a sentinel.


def fill(client: pequod.Client, rows: Iterable[tuple[str, int, str]]) -> None:
    """Puts all rows of the truth, and then the pair that tells readers that they stand. Whoever writes rows waits meanwhile, or
    an older value comes after a newer one. The pipeline raises where a row was refused, and then the sentinel is not put. Its
    value is drawn, so that a reader who notes it knows later whether the cache was filled anew."""
    with client.pipeline() as pipeline:
        for shop, number, name in rows:
            pipeline.put(f"item|{shop}|{number}", name)
    client.put("ready|items", secrets.token_hex(8))


def stock(client: pequod.Client, shop: str) -> Optional[int]:
    """Returns how many items a shop has, or None where the cache is not filled. The sentinel is asked for before the count:
    positions of one connection never fall, so where it stands, the count has seen all that was put before it."""
    with client.pipeline() as pipeline:
        ready, count = pipeline.get("ready|items"), pipeline.get(f"stock|{shop}")
    return int(count.result().value or 0) if ready.result() else None


# Pages of a long list.


def next_page(client: pequod.Client, shop: str, after: str, size: int, at: Optional[int] = None) -> pequod.Pairs:
    """Returns the pairs whose numbers are the next `size` behind that of the key `after`: the greatest key of the page before,
    or `item|SHOP|` for the first page. Where none stands there it looks further, and the page behind the last one is empty.
    With `at`, the position of the first page, they are the pairs that stood then. The least text above a key is the key and a
    character 0."""
    is_first = after.endswith("|")
    first, number = (after, 0) if is_first else (after + "\0", int(after.split("|")[2]))
    while True:
        is_last = number + size >= 9999
        page = client.scan(first, f"item|{shop}}}" if is_last else f"item|{shop}|{number + size + 1:04}", at)
        if page or is_last:
            return page
        size *= 2


# A list that stays fresh.


def refresh(client: pequod.Client, first: str, last: str, shown: dict[str, str], since: int) -> int:
    """Brings the pairs of a range that a page shows, a dictionary, from a position to now, and returns the position that they
    have then. Where that position cannot be asked for any more, the range is scanned anew.

    `client` is over the link that told the position. Over another one scan anew: the server may have been started anew, and its
    history may have passed the position by now, so that it answers, and what is shown is wrong."""
    try:
        changes = client.changes(first, last, since)
    except (pequod.Gone, pequod.Ahead):
        pairs = client.scan(first, last)
        shown.clear()
        shown.update(pairs)
        return pairs.position
    apply(changes, shown)
    return changes.position


def apply(changes: pequod.Changes, shown: dict[str, str]) -> None:
    """Sets the pairs that changed, and takes out those that have gone."""
    for key, value in changes:
        if value is None:
            shown.pop(key, None)
        else:
            shown[key] = value


# A page that is open.


def open_page(client: pequod.Client, first: str, last: str) -> tuple[Optional[str], pequod.Pairs]:
    """Returns the value of the sentinel, None where the cache is not filled, and the pairs of a range."""
    with client.pipeline() as pipeline:
        ready, pairs = pipeline.get("ready|feeds"), pipeline.scan(first, last)
    return ready.result().value, pairs.result()


def what_is_new(client: pequod.Client, run: Optional[str], first: str, last: str, since: int) -> Optional[pequod.Changes]:
    """Returns what changed in a range since a position that a page was given with this value of the sentinel. None: the page has
    to be loaded again, since the position is out of reach, or of another run. Any client will do, also one of a pool."""
    try:
        with client.pipeline() as pipeline:
            ready, changes = pipeline.get("ready|feeds"), pipeline.changes(first, last, since)
    except (pequod.Gone, pequod.Ahead):
        return None
    return changes.result() if run is not None and ready.result().value == run else None


# Hundreds of lists that stay fresh.

Told = tuple[bool, list[tuple[str, Optional[str]]]]
"""Whether all pairs of a feed follow, or else what changed; and these pairs, one that went without a value."""


class Feed:
    """The feed of a user, as one reader follows it. What is new comes into `told`."""

    def __init__(self, user: str) -> None:
        self.told: asyncio.Queue[Told] = asyncio.Queue()
        self._bounds = f"feed|{user}|", f"feed|{user}}}"
        self._position: Optional[int] = None

    def ask(self, pipeline: aio.Pipeline) -> Union[pequod.Pending[pequod.Pairs], pequod.Pending[pequod.Changes]]:
        """Asks for all of it, or for what changed."""
        if self._position is None:
            return pipeline.scan(*self._bounds)
        return pipeline.changes(*self._bounds, self._position)

    def take(self, answer: Union[pequod.Pairs, pequod.Changes]) -> None:
        """Tells the reader of an answer."""
        is_all = self._position is None
        self._position = answer.position
        if is_all or answer:
            self.told.put_nowait((is_all, list(answer)))

    def begin_anew(self) -> None:
        """Has the next question ask for all of it."""
        self._position = None


class Feeds:
    """Feeds of hundreds of readers over one client, which holds one worker of the server: all are asked for by one pipeline. No
    reader's coming, going or slowness touches the client."""

    def __init__(self, client: aio.Client) -> None:
        self._client = client
        self._feeds: set[Feed] = set()

    @contextlib.contextmanager
    def follow(self, user: str) -> Iterator[Feed]:
        """Follows a user's feed for the length of a `with`."""
        feed = Feed(user)
        self._feeds.add(feed)
        try:
            yield feed
        finally:
            self._feeds.discard(feed)

    async def run(self, every: float = 0.5) -> None:
        """Looks `every` so many seconds. After a lost link it connects anew, and has all feeds begin anew."""
        while True:
            try:
                await self._look()
            except pequod.LinkLost:
                await self._regain(every)
            await asyncio.sleep(every)

    async def _look(self) -> None:
        async with self._client.pipeline(check=False) as pipeline:
            asked = [(feed, feed.ask(pipeline)) for feed in self._feeds]
        for feed, answer in asked:
            try:
                feed.take(answer.result())
            except (pequod.Gone, pequod.Ahead):
                feed.begin_anew()
            except pequod.OutOfMemory:
                # It is asked again the next time.
                pass

    async def _regain(self, every: float) -> None:
        for feed in self._feeds:
            feed.begin_anew()
        while True:
            try:
                return await self._client.reconnect()
            except pequod.Restarted:
                return
            except OSError:
                await asyncio.sleep(every)


# A new server in the place of the old one.


def bring_to(client: pequod.Client, wanted: Mapping[str, str], tables: Iterable[str]) -> int:
    """Brings these tables of a cache to what the truth has, and returns how many writes that took: a pair that stands already is
    left alone, and one that the truth lacks goes."""
    stands: dict[str, str] = {}
    for table in tables:
        stands.update(client.scan(f"{table}|", f"{table}}}"))
    gone = [key for key in stands if key not in wanted]
    changed = [key for key, value in wanted.items() if stands.get(key) != value]
    with client.pipeline() as pipeline:
        for key in gone:
            pipeline.remove(key)
        for key in changed:
            pipeline.put(key, wanted[key])
    return len(gone) + len(changed)


def move_to(
    new: pequod.Client,
    truth: Callable[[], Mapping[str, str]],
    tables: Iterable[str],
    writers: ContextManager[object],
    switch: Callable[[], None],
) -> None:
    """Fills a new server and has the application use it. `writers` is the lock that each writer holds from the write of the truth
    to that of the cache; it is held only for what changed while most was filled."""
    tables = list(tables)
    bring_to(new, truth(), tables)
    with writers:
        bring_to(new, truth(), tables)
        new.put("ready|items", secrets.token_hex(8))
        switch()
