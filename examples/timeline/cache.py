"""The cache of a truth: how both are written, how the cache is filled, and how it is read.

**Writes.** The truth is changed first, and then the cache, under one lock. The other way round, a page could show what was never
saved. Without the lock, two changes of one pair could come to the cache in another order than to the truth. When the cache does
not take a change, the truth has it all the same, and the cache is filled again before the next page.

**Reads.** A page asks for the sentinel first, on its own connection, and fills the cache where it is missing. Positions of a
connection never fall, so behind a sentinel that stands each answer has seen all that was put before it. The pool sees a restart
by itself, from a position that fell. The sentinel tells what positions do not: that another process fills the cache just now, or
that others wrote to it past the position where it was before. Its value is drawn at each fill of an empty cache, so that who notes
a position with it knows later whether that is one of the same run.
"""

import contextlib
import pathlib
import secrets
import sys

sys.path.insert(0, str(pathlib.Path(__file__).resolve().parent.parent.parent / "clients" / "python"))
import pequod  # noqa: E402

SENTINEL = "ready|timeline"
TABLES = ("user", "s", "p")
# What a request can end with where there is no cache.
Unavailable = (pequod.PequodError, OSError)


class Cache:
    """The cache of a truth. Threads share it."""

    def __init__(self, truth, host, port, size=2):
        self._truth = truth
        # Each of its connections holds a worker of the server, and `size` should leave some for others. Where a position fell,
        # the pool has the cache filled before it lends a client.
        self._pool = pequod.Pool(host, port, size, timeout=3, on_restart=self.fill)
        # At the start nobody knows whether an earlier run of this program ended between its two writes.
        self._is_behind = True

    def write(self, change, *words):
        """Calls a change of the truth, and does the same to the cache where there is one. It raises `sqlite3.Error` where the
        truth is not changed, and then the cache is not either."""
        with contextlib.ExitStack() as held:
            try:
                client = held.enter_context(self._pool.client())
            except Unavailable:
                client = None
            held.enter_context(self._truth.lock())
            pairs = change(*words)
            if client is None or not self._send(client, pairs):
                self._is_behind = True

    def read(self, make, *words):
        """Returns what `make` makes with a client of the filled cache. When the link is lost it tries once more, since a cache
        that was restarted answers by then. It raises one of `Unavailable` where there is none."""
        for is_last in (False, True):
            try:
                with self._pool.client() as client:
                    if self._is_behind or not client.get(SENTINEL):
                        self.fill(client)
                    return make(client, *words)
            except pequod.LinkLost:
                if is_last:
                    raise

    def fill(self, client):
        """Brings the cache to the truth, unless another thread or process has done so by the time the lock is free. A pair that
        stands already is left alone, since the cache needs memory for each write: an empty cache gets all pairs by one pipeline,
        and one that was not restarted gets what differs. The sentinel comes when all of them are acknowledged."""
        with self._truth.lock():
            is_ready = client.get(SENTINEL)
            if is_ready and not self._is_behind:
                return
            wanted, stands = self._truth.pairs(), {}
            for table in TABLES:
                stands.update(client.scan(f"{table}|", f"{table}}}"))
            changes = [(key, None) for key in stands if key not in wanted]
            changes += [(key, value) for key, value in wanted.items() if stands.get(key) != value]
            put_all(client, changes)
            if not is_ready:
                client.put(SENTINEL, secrets.token_hex(8))
            self._is_behind = False

    def close(self):
        """Closes the connections."""
        self._pool.close()

    def _send(self, client, pairs):
        try:
            put_all(client, pairs)
        except Unavailable:
            return False
        return True


def put_all(client, pairs):
    """Puts and removes all pairs by one pipeline, which raises where one of them was refused."""
    with client.pipeline() as pipeline:
        for key, value in pairs:
            if value is None:
                pipeline.remove(key)
            else:
                pipeline.put(key, value)
