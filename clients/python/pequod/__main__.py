"""`python3 -m pequod HOST:PORT` is a prompt, and `python3 -m pequod COMMAND ..` does one thing: the commands are below."""

from __future__ import annotations

import argparse
import sys
from typing import Callable, Optional, Sequence

from . import __version__
from .check import check_file
from .commands import address, dump_command, load_command
from .explain import explain_file
from .keys import parts
from .metrics import metrics_command
from .prompt import run_prompt

STATUS_OF_WORDS = 2


def main(words: Optional[Sequence[str]] = None) -> int:
    """Does what the words say, and gives the status."""
    given = list(sys.argv[1:] if words is None else words)
    command = COMMANDS.get(given[0]) if given else None
    return _prompt(given) if command is None else command(given[1:])


def _check(given: Sequence[str]) -> int:
    parser = argparse.ArgumentParser(
        prog="python3 -m pequod check", description="Asks a server of its own about each line of a file of joins.",
        epilog="Status 0: each join is accepted. 7: one was refused. 9: the file or the program could not be used.",
    )
    parser.add_argument("file", metavar="FILE")
    parser.add_argument("--program", metavar="PATH", help="the built program; unless given $PEQUOD, or else pequod")
    options = parser.parse_args(given)
    return check_file(options.file, options.program)


def _postgres(given: Sequence[str]) -> int:
    from .postgres.command import main as keep_tables

    return keep_tables(given)


def _relay(given: Sequence[str]) -> int:
    from .relay.command import run

    return run(given)


def _explain(given: Sequence[str]) -> int:
    parser = argparse.ArgumentParser(
        prog="python3 -m pequod explain",
        description="Says which joins of a file a put of a key feeds, and which one makes it. Each line is taken to be accepted.",
        epilog="Status 0: some join has to do with it. 1: none has. 9: the file could not be used.",
    )
    parser.add_argument("file", metavar="FILE")
    parser.add_argument("key", metavar="KEY")
    options = parser.parse_args(given)
    try:
        parts(options.key)
    except ValueError as error:
        parser.error(str(error))
    return explain_file(options.file, options.key)


def _prompt(given: Sequence[str]) -> int:
    parser = argparse.ArgumentParser(
        prog="python3 -m pequod", description="A prompt for a server.",
        epilog=f"python3 -m pequod COMMAND --help says more of {', '.join(COMMANDS)}.",
    )
    parser.add_argument("address", metavar="HOST:PORT", type=address)
    parser.add_argument("--timeout", type=float, default=10.0, metavar="SECONDS", help="for each answer; 10 unless given")
    parser.add_argument("--version", action="version", version=__version__)
    if given and ":" not in given[0] and not given[0].startswith("-"):
        parser.error(f"{given[0]!r} is neither HOST:PORT nor one of the commands {', '.join(COMMANDS)}")
    options = parser.parse_args(given)
    host, port = options.address
    return run_prompt(host, port, options.timeout)


COMMANDS: dict[str, Callable[[Sequence[str]], int]] = {
    "check": _check, "explain": _explain, "dump": dump_command, "load": load_command, "metrics": metrics_command,
    "postgres": _postgres, "relay": _relay,
}


if __name__ == "__main__":
    sys.exit(main())
