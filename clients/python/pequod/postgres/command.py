"""`python3 -m pequod postgres MAPPING.toml` keeps tables of Pequod equal to tables of PostgreSQL, until it is ended.

It prints a line for what it does, and one on standard error for what is in the way. A link that is lost, or cannot be made, is made
again for as long as it takes. Statuses: 0 where it was ended, 7 where the mapping is refused, or a write for good, each with its
line, and 9 where the file, Python or psycopg2 cannot be used.
"""

from __future__ import annotations

import argparse
import pathlib
import signal
import sys
from typing import NoReturn, Optional, Sequence

from .mapping import Mapping, MappingRefused, Refusal, read_mapping
from .writing import WriteRefused

ENDED, REFUSED, UNUSABLE = 0, 7, 9
OLDEST_PYTHON = (3, 11)


class _Ended(BaseException):
    """A signal came."""


def main(words: Sequence[str]) -> int:
    """Does what the words say, and gives the status."""
    parser = argparse.ArgumentParser(
        prog="python3 -m pequod postgres",
        description="Copies tables of PostgreSQL into Pequod, and follows their changes until it is ended.",
        epilog="Status 7: the mapping was refused. 9: the file, Python or psycopg2 could not be used.",
    )
    parser.add_argument("mapping", metavar="MAPPING.toml")
    file = parser.parse_args(words).mapping
    if sys.version_info < OLDEST_PYTHON:
        return _unusable("it wants Python 3.11 or later, whose tomllib reads the mapping")
    try:
        mapping = read_mapping(pathlib.Path(file).read_text(encoding="utf-8"))
    except MappingRefused as refused:
        return _refused(file, refused.refusals)
    except (OSError, UnicodeDecodeError) as error:
        return _unusable(f"{file}: {error}")
    return _keep(file, mapping)


def _keep(file: str, mapping: Mapping) -> int:
    """Keeps the tables equal until a signal comes, or something is refused."""
    try:
        from .keeping import keep
    except ImportError as error:
        return _unusable(f"it wants psycopg2, which Debian has as python3-psycopg2: {error}")
    signal.signal(signal.SIGTERM, _end)
    try:
        keep(mapping, _say)
    except (_Ended, KeyboardInterrupt):
        return ENDED
    except MappingRefused as refused:
        return _refused(file, refused.refusals)
    except WriteRefused as refused:
        return _refused(file, [refusal_of_write(mapping, refused)])


def refusal_of_write(mapping: Mapping, refused: WriteRefused) -> Refusal:
    """Says which table's rows made a write that Pequod refuses for good, as where a join was declared over its keys."""
    table = mapping.table_of_key(refused.key)
    sentence = f"Pequod refuses the key {refused.key!r}: {refused.error}"
    return mapping.refusal(("pequod",) if table is None else ("table", table.name, "key"), sentence)


def _end(*_: Optional[object]) -> NoReturn:
    raise _Ended


def _say(line: str) -> None:
    print(line, flush=True)


def _refused(file: str, refusals: Sequence[Refusal]) -> int:
    for refusal in refusals:
        print(f"{file}:{refusal.line}: {refusal.sentence}", file=sys.stderr)
    return REFUSED


def _unusable(sentence: str) -> int:
    print(f"pequod postgres: {sentence}", file=sys.stderr)
    return UNUSABLE
