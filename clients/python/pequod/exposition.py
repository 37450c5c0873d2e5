"""What a program counts, as Prometheus reads it: its text format, version 0.0.4, and a listener that shows it over HTTP.

    from pequod import exposition

    requests = exposition.Counter("shop_requests_total", "Requests that came.", ("kind",))
    requests.add(1, "put")
    listener = exposition.Listener("127.0.0.1", 9100, lambda: exposition.page([requests]))

A `Counter` only grows, a `Gauge` is set, and a `Histogram` tells how many of the values that it saw were at most so great. Each
has a name and a help text, and names of labels, of which none may be given. A sample is named by the values of the labels, in
their order.

Nothing here is locked. Where the listener's thread is not the one that counts, the text has to be made in a thread where nothing
is counted meanwhile. Whoever reaches the listener reads what is counted, so give it an address that only the collector reaches.
"""

from __future__ import annotations

import bisect
import http.server
import re
import socket
import socketserver
import threading
from typing import Callable, Iterable, Iterator, Sequence, Union

__all__ = ["CONTENT_TYPE", "PATH", "Counter", "Gauge", "Histogram", "Listener", "Metric", "page"]

CONTENT_TYPE = "text/plain; version=0.0.4; charset=utf-8"
PATH = "/metrics"
SILENCE = 10.0
"""For how many seconds a client of the listener may be silent before its connection ends."""
METRIC_NAME = re.compile("[a-zA-Z_:][a-zA-Z0-9_:]*")
LABEL_NAME = re.compile("(?!__)[a-zA-Z_][a-zA-Z0-9_]*")

Number = Union[int, float]
Labels = tuple[tuple[str, str], ...]


class Metric:
    """What all three have: a name, a help text, and the names of the labels."""

    kind = "untyped"

    def __init__(self, name: str, explanation: str, labels: Sequence[str] = ()) -> None:
        """Makes one without a sample. It raises a ValueError where a name is none that the format knows."""
        if METRIC_NAME.fullmatch(name) is None:
            raise ValueError(f"{name!r} is no name of a metric")
        for label in labels:
            if LABEL_NAME.fullmatch(label) is None or label == "le":
                raise ValueError(f"{label!r} is no name of a label")
        self.name = name
        self.explanation = explanation
        self.labels = tuple(labels)

    def lines(self) -> Iterator[str]:
        """Gives the lines of the text format, the help and the type first."""
        yield f"# HELP {self.name} {_escaped(self.explanation)}"
        yield f"# TYPE {self.name} {self.kind}"
        yield from self._samples()

    def _samples(self) -> Iterator[str]:
        raise NotImplementedError

    def _want(self, values: Sequence[str]) -> None:
        if len(values) != len(self.labels):
            raise ValueError(f"{self.name} has {len(self.labels)} labels, and {len(values)} values were given")

    def _named(self, values: Sequence[str]) -> Labels:
        return tuple(zip(self.labels, values))


class Counter(Metric):
    """Counts what only grows, for each combination of its labels. Without labels it is shown from the start, as 0."""

    kind = "counter"

    def __init__(self, name: str, explanation: str, labels: Sequence[str] = ()) -> None:
        """Makes one. It raises a ValueError where the name does not end with `_total`, as a collector expects it."""
        super().__init__(name, explanation, labels)
        if not name.endswith("_total"):
            raise ValueError(f"the name of a counter ends with _total, and {name!r} does not")
        self._values: dict[tuple[str, ...], Number] = {} if self.labels else {(): 0}

    def add(self, amount: Number = 1, *values: str) -> None:
        """Adds an amount, which is not negative, where the labels have these values. An amount of 0 has it shown."""
        if amount < 0:
            raise ValueError(f"a counter does not fall, and {amount} was added to {self.name}")
        self._want(values)
        self._values[values] = self._values.get(values, 0) + amount

    def value(self, *values: str) -> Number:
        """Gives what was counted there, and 0 where nothing was."""
        return self._values.get(values, 0)

    def _samples(self) -> Iterator[str]:
        for values, amount in self._values.items():
            yield _sample(self.name, self._named(values), amount)


class Gauge(Metric):
    """Tells a value that rises and falls, for each combination of its labels that was set."""

    kind = "gauge"

    def __init__(self, name: str, explanation: str, labels: Sequence[str] = ()) -> None:
        """Makes one that is not shown before it is set."""
        super().__init__(name, explanation, labels)
        self._values: dict[tuple[str, ...], Number] = {}

    def set(self, value: Number, *values: str) -> None:
        """Sets the value where the labels have these values."""
        self._want(values)
        self._values[values] = value

    def clear(self, *values: str) -> None:
        """Shows it no more where the labels have these values, as when it is not known."""
        self._values.pop(values, None)

    def _samples(self) -> Iterator[str]:
        for values, value in self._values.items():
            yield _sample(self.name, self._named(values), value)


class Histogram(Metric):
    """Counts values by how great they are, for each combination of its labels. Without labels it is shown from the start."""

    kind = "histogram"

    def __init__(self, name: str, explanation: str, bounds: Sequence[float], labels: Sequence[str] = ()) -> None:
        """Makes one with these upper bounds, which rise. It raises a ValueError where they do not."""
        super().__init__(name, explanation, labels)
        if not bounds or any(low >= high for low, high in zip(bounds, bounds[1:])):
            raise ValueError(f"the bounds of {name} do not rise")
        self.bounds = tuple(bounds)
        self._spreads: dict[tuple[str, ...], _Spread] = {} if self.labels else {(): _Spread(len(bounds) + 1)}

    def observe(self, value: float, times: int = 1, *values: str) -> None:
        """Counts a value, or as many equal ones, where the labels have these values. It looks through the bounds by halves."""
        spread = self._spreads.get(values)
        if spread is None:
            self._want(values)
            spread = self._spreads[values] = _Spread(len(self.bounds) + 1)
        spread.counts[bisect.bisect_left(self.bounds, value)] += times
        spread.total += value * times

    def _samples(self) -> Iterator[str]:
        for values, spread in self._spreads.items():
            labels, counted = self._named(values), 0
            for bound, count in zip((*self.bounds, float("inf")), spread.counts):
                counted += count
                yield _sample(f"{self.name}_bucket", (*labels, ("le", _number(float(bound)))), counted)
            yield _sample(f"{self.name}_sum", labels, spread.total)
            yield _sample(f"{self.name}_count", labels, counted)


class _Spread:
    """How many values of a histogram lie up to each bound and above the one before it, and all of them added up."""

    def __init__(self, places: int) -> None:
        self.counts = [0] * places
        self.total = 0.0


def page(metrics: Iterable[Metric]) -> str:
    """Gives the text of all of them, in their order: what a collector reads in one go."""
    return "".join(f"{line}\n" for metric in metrics for line in metric.lines())


def _sample(name: str, labels: Labels, value: Number) -> str:
    told = ",".join(f'{label}="{_quoted(text)}"' for label, text in labels)
    return f"{name}{{{told}}} {_number(value)}" if told else f"{name} {_number(value)}"


def _number(value: Number) -> str:
    if value != value:
        return "NaN"
    if value in (float("inf"), float("-inf")):
        return "+Inf" if value > 0 else "-Inf"
    return repr(value)


def _escaped(text: str) -> str:
    return text.replace("\\", "\\\\").replace("\n", "\\n")


def _quoted(text: str) -> str:
    return _escaped(text).replace('"', '\\"')


class Listener:
    """Shows a text over HTTP at `/metrics`, from threads of its own, until it is closed.

    Each request asks `text` anew, in the thread that answers it. Where that raises, the answer has status 503 and says what was
    raised, and the listener goes on.
    """

    def __init__(self, host: str, port: int, text: Callable[[], str]) -> None:
        """Listens at the address, with port 0 at one that is free. It raises an OSError where it cannot."""
        self._server = _server_of(host, port, text)
        self.port: int = self._server.server_address[1]
        """The port at which it listens."""
        self._thread = threading.Thread(target=self._server.serve_forever, name="pequod metrics", daemon=True)
        self._thread.start()

    def close(self) -> None:
        """Ends it, after half a second at most. A request that is being answered is still answered."""
        self._server.shutdown()
        self._thread.join()
        self._server.server_close()


class _Server(socketserver.ThreadingTCPServer):
    """A thread for each connection, none of which the end of the process waits for. That of `http.server` would look up the name
    of its address, which takes seconds where no name server answers."""

    allow_reuse_address = True
    daemon_threads = True
    block_on_close = False

    def handle_error(self, *_: object) -> None:
        """Says nothing of a client that went away before it had its answer."""


def _server_of(host: str, port: int, text: Callable[[], str]) -> _Server:
    """Makes the server for a name or number of either family."""
    family, _, _, _, where = socket.getaddrinfo(host, port, type=socket.SOCK_STREAM, flags=socket.AI_PASSIVE)[0]

    class Server(_Server):
        address_family = family

    class Handler(_Handler):
        source = staticmethod(text)

    return Server((str(where[0]), int(where[1])), Handler)


class _Handler(http.server.BaseHTTPRequestHandler):
    """Answers a GET of the path, and everything else by the status that HTTP has for it."""

    source: Callable[[], str]
    timeout = SILENCE
    server_version = "pequod"
    sys_version = ""

    def do_GET(self) -> None:
        """Writes the text, or why there is none."""
        if self.path.partition("?")[0] != PATH:
            return self._answer(404, "text/plain; charset=utf-8", f"what is counted stands at {PATH}\n")
        try:
            text = self.source()
        except Exception as error:
            return self._answer(503, "text/plain; charset=utf-8", f"{type(error).__name__}: {error}\n")
        self._answer(200, CONTENT_TYPE, text)

    def _answer(self, status: int, content_type: str, text: str) -> None:
        body = text.encode("utf-8", "replace")
        self.send_response(status)
        self.send_header("Content-Type", content_type)
        self.send_header("Content-Length", str(len(body)))
        self.end_headers()
        self.wfile.write(body)

    def log_message(self, *_: object) -> None:
        """Says nothing: each request would be a line on standard error."""
