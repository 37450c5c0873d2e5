"""How a server is, once a second, as lines or for Prometheus: `python3 -m pequod metrics`."""

from __future__ import annotations

import argparse
import contextlib
import json
import pathlib
import sys
import time
from typing import Iterator, Optional, Sequence, Union

from .commands import address
from .exposition import PATH, Listener
from .probing import Counts, Look, NoLook, Probe
from .processes import Usage
from .runs import PROBE_KEY

DONE, NO_ANSWER, NO_ADDRESS = 0, 1, 8
DASHBOARD = pathlib.Path(__file__).parent / "dashboard.json"
"""A dashboard of Grafana over what is counted, to be imported there."""


def metrics_command(given: Sequence[str]) -> int:
    """Looks at a server again and again, and prints a line of each look, or listens for Prometheus."""
    options = _parser().parse_args(given)
    if options.dashboard:
        print(json.dumps(json.loads(DASHBOARD.read_text(encoding="utf-8")), indent=2))
        return DONE
    host, port = options.address
    try:
        counts = Counts(Probe(host, port, options.get, options.scan, options.timeout), options.pid)
        with _listening(options.listen, counts) as note, contextlib.suppress(KeyboardInterrupt):
            return _watch(counts, options.every, options.count, note)
        return DONE
    except ValueError as error:
        _parser().error(str(error))
    except OSError as error:
        print(f"pequod metrics: {options.listen[0]}:{options.listen[1]}: {error}", file=sys.stderr)
        return NO_ADDRESS


def _parser() -> argparse.ArgumentParser:
    parser = argparse.ArgumentParser(
        prog="python3 -m pequod metrics",
        description="Looks at a server once a second, and prints a line of each look, or with --listen shows it to Prometheus.",
        epilog="Status 0: it was ended. 1: with --count, the last look had no answer. 8: it cannot listen there.",
    )
    parser.add_argument("address", metavar="HOST:PORT", type=address, nargs="?", default=("127.0.0.1", 7000))
    parser.add_argument("--listen", metavar="HOST:PORT", type=address, help=f"shows it over HTTP at {PATH}; prints no lines")
    parser.add_argument("--pid", type=int, help="the server's process, where it is on this machine; unless given it is looked for")
    parser.add_argument("--get", metavar="KEY", default=PROBE_KEY, help=f"the key that is asked for; {PROBE_KEY} unless given")
    parser.add_argument("--scan", metavar="PREFIX", default=PROBE_KEY, help="what is scanned, as 't|ann|' for a kept range")
    parser.add_argument("--every", type=float, default=1.0, metavar="SECONDS", help="between two looks; 1 unless given")
    parser.add_argument("--timeout", type=float, default=1.0, metavar="SECONDS", help="for each answer; 1 unless given")
    parser.add_argument("--count", type=int, default=0, metavar="N", help="ends after so many looks")
    parser.add_argument("--dashboard", action="store_true", help="prints a dashboard for Grafana, and ends")
    return parser


class _Lines:
    """Prints a line of each look."""

    def note(self, seen: Union[Look, NoLook], before: Optional[int], usage: Optional[Usage]) -> None:
        print(f"{time.strftime('%H:%M:%S')} {told(seen, before, usage)}", flush=True)


class _Shown:
    """Keeps the text of the last look for those who ask."""

    def __init__(self, counts: Counts) -> None:
        self._counts = counts
        self.text = ""

    def note(self, *_: object) -> None:
        # The listener's threads read the text, and never what is being counted.
        self.text = self._counts.text()


@contextlib.contextmanager
def _listening(where: Optional[tuple[str, int]], counts: Counts) -> Iterator[Union[_Lines, _Shown]]:
    """What notes each look. Where somebody is to be shown it, a listener runs meanwhile."""
    if where is None:
        yield _Lines()
        return
    shown = _Shown(counts)
    listener = Listener(*where, lambda: shown.text)
    print(f"listening at {where[0]}:{listener.port}", flush=True)
    try:
        yield shown
    finally:
        listener.close()


def _watch(counts: Counts, every: float, count: int, noted: Union[_Lines, _Shown]) -> int:
    """Looks, and waits, and looks again."""
    number = 0
    while True:
        begun = time.monotonic()
        seen, before = counts.look()
        noted.note(seen, before, counts.usage)
        number += 1
        if number == count:
            return DONE if isinstance(seen, Look) else NO_ANSWER
        time.sleep(max(0.0, begun + every - time.monotonic()))


def told(seen: Union[Look, NoLook], before: Optional[int], usage: Optional[Usage]) -> str:
    """A look in a line: the position and how many entries came, how long each request took, and the resident memory."""
    if isinstance(seen, NoLook):
        return f"no answer: {seen.why}"
    text = f"position {seen.position}"
    if before is not None:
        text += f" (+{seen.position - before})" if seen.position >= before else f" (restarted: it was at {before})"
    connect, get, scan = (f"{seconds * 1000:.2f}" for seconds in seen.seconds)
    text += f", first answer {connect} ms, get {get} ms, scan {scan} ms"
    return text if usage is None else f"{text}, {usage.memory // 1024} kB"
