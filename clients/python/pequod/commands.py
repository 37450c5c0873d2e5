"""The commands that speak to a server and end: `python3 -m pequod dump`, and `load`."""

from __future__ import annotations

import argparse
import contextlib
import sys
from typing import IO, Iterator, Optional, Sequence

from .client import Client, connect
from .dumping import NoPairs, read_pairs, write_dump
from .errors import NotServed, PequodError
from .feeding import Joins

DONE, NOT_DONE, UNUSABLE = 0, 1, 9
WAIT_SECONDS = 60.0


def host_and_port(text: str) -> tuple[str, int]:
    """The host and the port of `HOST:PORT`, where a host of colons stands in brackets. It raises a ValueError where it is none."""
    host, _, port = text.rpartition(":")
    if not host or not (port.isascii() and port.isdigit()):
        raise ValueError(f"{text!r} is no HOST:PORT")
    return host.strip("[]"), int(port)


def address(text: str) -> tuple[str, int]:
    """The same for `argparse`, which prints what is wrong."""
    try:
        return host_and_port(text)
    except ValueError as error:
        raise argparse.ArgumentTypeError(str(error)) from None


def dump_command(given: Sequence[str]) -> int:
    """Writes the pairs of tables to standard output, and to standard error how many, and at which position."""
    parser = _parser(
        "dump", "Writes the pairs of tables at one position, a JSON array on each line.",
        "Status 0: all are written. 1: the server did not give them, or they could not be written, and some are missing.",
    )
    parser.add_argument("tables", metavar="TABLE", nargs="+")
    options = parser.parse_args(given)
    host, port = options.address
    try:
        with connect(host, port, options.timeout) as client:
            count, position = write_dump(client, options.tables, sys.stdout.buffer)
        sys.stdout.buffer.flush()
    except (PequodError, OSError, ValueError) as error:
        return _fail("dump", error)
    print(f"{_pairs(count)} at position {position}", file=sys.stderr)
    return DONE


def load_command(given: Sequence[str]) -> int:
    """Puts the pairs of a file, and prints how many stand by then, and at which position."""
    parser = _parser(
        "load", "Puts the pairs of a file that has a JSON array on each line, as `dump` writes it. Other pairs stay.",
        "Status 0: all are put. 1: one was refused or is none, or the link was lost, and some are put. 9: a file cannot be read, or"
        " no connection be made.",
    )
    parser.add_argument("file", metavar="FILE", help="- is standard input")
    parser.add_argument("--strict", metavar="JOINS", help="a file of joins, one of which has to read each pair")
    options = parser.parse_args(given)
    host, port = options.address
    try:
        strict = Joins.of_file(options.strict) if options.strict else None
        with _reading(options.file) as file, connect(host, port, options.timeout) as client:
            return _load(client, file, strict)
    except (OSError, ValueError) as error:
        print(f"pequod load: {error}", file=sys.stderr)
        return UNUSABLE


def _load(client: Client, file: IO[bytes], strict: Optional[Joins]) -> int:
    try:
        count = client.put_many(read_pairs(file), strict)
    except NotServed as refused:
        where = "" if refused.number is None else f"pair {refused.number + 1}: "
        refused.number = None
        return _fail("load", f"{where}{refused}")
    except (PequodError, NoPairs) as error:
        return _fail("load", error)
    print(f"{_pairs(count)}, at position {client.position}")
    return DONE


@contextlib.contextmanager
def _reading(file: str) -> Iterator[IO[bytes]]:
    if file == "-":
        yield sys.stdin.buffer
        return
    with open(file, "rb") as opened:
        yield opened


def _parser(command: str, what: str, statuses: str) -> argparse.ArgumentParser:
    parser = argparse.ArgumentParser(prog=f"python3 -m pequod {command}", description=what, epilog=statuses)
    parser.add_argument("address", metavar="HOST:PORT", type=address)
    wait = f"for each answer; {WAIT_SECONDS:.0f} unless given"
    parser.add_argument("--timeout", type=float, default=WAIT_SECONDS, metavar="SECONDS", help=wait)
    return parser


def _fail(command: str, error: object) -> int:
    print(f"pequod {command}: {error}", file=sys.stderr)
    return NOT_DONE


def _pairs(count: int) -> str:
    return f"{count} pair" if count == 1 else f"{count} pairs"
