"""How a server is, seen from outside: one look at it, and what is counted over many."""

from __future__ import annotations

import time
from dataclasses import dataclass
from typing import Callable, Optional, TypeVar, Union

from .client import Client, connect
from .errors import PequodError
from .exposition import Counter, Gauge, Histogram, Metric, page
from .processes import Usage, listener_of, usage_of
from .runs import PROBE_KEY
from .wire import prefix_bounds

SECONDS = (0.00005, 0.0001, 0.00025, 0.0005, 0.001, 0.0025, 0.005, 0.01, 0.025, 0.05, 0.1, 0.25, 0.5, 1.0)
PROBES = ("connect", "get", "scan")
NEAR = ("localhost", "::1", "127.")
T = TypeVar("T")


@dataclass(frozen=True)
class Look:
    """What one look told: the position, and the seconds until the first answer over a new connection, of a get, and of a scan."""

    position: int
    seconds: tuple[float, float, float]


@dataclass(frozen=True)
class NoLook:
    """Why there was no answer."""

    why: str


class Probe:
    """Looks at a server, each time over a connection of its own, as a health check does, so that it holds a worker for a moment."""

    def __init__(self, host: str, port: int, key: str = PROBE_KEY, prefix: str = PROBE_KEY, timeout: float = 1.0) -> None:
        """Looks by a get of `key` and a scan of the keys that begin with `prefix`, each answered within `timeout` seconds."""
        self.host, self.port = host, port
        self._key = key
        self._bounds = prefix_bounds(prefix)
        self._timeout = timeout

    def look(self) -> Union[Look, NoLook]:
        """Connects, asks two gets and a scan, and closes."""
        begun = time.perf_counter()
        try:
            with connect(self.host, self.port, self._timeout) as client:
                client.get(self._key)
                connected = time.perf_counter() - begun
                return self._timed(client, connected)
        except (PequodError, OSError) as error:
            return NoLook(str(error))

    def _timed(self, client: Client, connected: float) -> Look:
        get, answer = _seconds(lambda: client.get(self._key))
        scan, _ = _seconds(lambda: client.scan(*self._bounds))
        return Look(answer.position, (connected, get, scan))


def _seconds(ask: Callable[[], T]) -> tuple[float, T]:
    begun = time.perf_counter()
    answer = ask()
    return time.perf_counter() - begun, answer


class Counts:
    """What is counted over many looks at one server."""

    def __init__(self, probe: Probe, process: Optional[int] = None) -> None:
        """`process` is the server's, and is looked for at its port unless given, where the server is on this machine."""
        self._probe = probe
        self._process = process
        self._may_seek = process is None and probe.host.startswith(NEAR)
        self._is_sought = True
        self._worked: Optional[float] = None
        self._before: Optional[int] = None
        self._at = 0.0
        self.usage: Optional[Usage] = None
        """What the process uses, as of the last look."""
        self._up = Gauge("pequod_up", "Whether the last look was answered: 1, or 0.")
        self._position = Gauge("pequod_position", "The length of the write history.")
        self._writes = Counter("pequod_writes_total", "Entries of the history that came since the first look.")
        self._rate = Gauge("pequod_writes_per_second", "Entries a second between the last two looks that were answered.")
        self._restarts = Counter("pequod_restarts_total", "How often the position fell, as where the server was started anew.")
        self._failed = Counter("pequod_looks_failed_total", "Looks that were not answered in time.")
        self._spread = Histogram("pequod_probe_seconds", "How long the requests of the looks took.", SECONDS, ("probe",))
        self._last = Gauge("pequod_last_probe_seconds", "How long those of the last look took.", ("probe",))
        self._memory = Gauge("pequod_resident_memory_bytes", "The resident memory of the server's process.")
        self._processor = Counter("pequod_processor_seconds_total", "Seconds that processors worked for it since the first look.")

    def look(self) -> tuple[Union[Look, NoLook], Optional[int]]:
        """Looks once and counts it. It gives what was seen, and the position that was seen before, where one was."""
        seen, before = self._probe.look(), self._before
        self._up.set(int(isinstance(seen, Look)))
        if isinstance(seen, Look):
            self._count(seen, time.monotonic())
        else:
            self._failed.add()
            for gauge in self._position, self._rate:
                gauge.clear()
            for name in PROBES:
                self._last.clear(name)
        self._use(isinstance(seen, Look))
        return seen, before

    def text(self) -> str:
        """Gives all of it as Prometheus reads it."""
        counted: list[Metric] = [self._up, self._position, self._writes, self._rate, self._restarts, self._failed]
        counted += [self._spread, self._last]
        return page(counted if self._worked is None else [*counted, self._memory, self._processor])

    def _count(self, seen: Look, now: float) -> None:
        if self._before is not None:
            is_new = seen.position < self._before
            entries = seen.position if is_new else seen.position - self._before
            self._restarts.add(int(is_new))
            self._writes.add(entries)
            self._rate.set(entries / max(now - self._at, 1e-6))
        self._before, self._at = seen.position, now
        self._position.set(seen.position)
        for name, seconds in zip(PROBES, seen.seconds):
            self._spread.observe(seconds, 1, name)
            self._last.set(seconds, name)

    def _use(self, was_answered: bool) -> None:
        """Notes what the process uses."""
        self.usage = None if self._process is None else usage_of(self._process)
        if self.usage is None and self._may_seek:
            self._seek(was_answered)
        if self.usage is None:
            return self._memory.clear()
        self._memory.set(self.usage.memory)
        before = self.usage.seconds if self._worked is None else self._worked
        self._processor.add(max(self.usage.seconds - before, 0.0))
        self._worked = self.usage.seconds

    def _seek(self, was_answered: bool) -> None:
        """Looks for the process at the server's port: once, and once more when it has gone or the server did not answer. To look
        through the open files of all processes takes too long for each second."""
        if self._process is not None or not was_answered:
            self._process, self._is_sought = None, True
        if self._is_sought and was_answered:
            self._is_sought = False
            self._process = listener_of(self._probe.port)
            self.usage = None if self._process is None else usage_of(self._process)
            # A process that came later is counted from its start, and the first one from the first look.
            self._worked = None if self._worked is None else 0.0
