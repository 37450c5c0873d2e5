"""What the system tells of a process of this machine: Linux' /proc, without which nothing is known."""

from __future__ import annotations

import contextlib
import os
import pathlib
from dataclasses import dataclass
from typing import Optional

PROC = pathlib.Path("/proc")
LISTENS = "0A"
SECONDS_OF_USER, SECONDS_OF_SYSTEM = 11, 12
"""Places of the two in the words of /proc/PID/stat behind the name, which may have spaces and brackets."""


@dataclass(frozen=True)
class Usage:
    """The resident memory of a process in bytes, and the seconds that processors worked for it."""

    memory: int
    seconds: float


def usage_of(process: int) -> Optional[Usage]:
    """What a process uses, or None where there is no such process, or no /proc."""
    try:
        pages = int((PROC / str(process) / "statm").read_text().split()[1])
        words = (PROC / str(process) / "stat").read_text().rpartition(")")[2].split()
        ticks = int(words[SECONDS_OF_USER]) + int(words[SECONDS_OF_SYSTEM])
        return Usage(pages * os.sysconf("SC_PAGE_SIZE"), ticks / os.sysconf("SC_CLK_TCK"))
    except (OSError, LookupError, ValueError):
        return None


def listener_of(port: int) -> Optional[int]:
    """The process of this machine that listens at a TCP port, or None where none does, or where this process may not see it, as
    where it is another user's. It looks through the open files of all processes."""
    sockets = {f"socket:[{inode}]" for inode in _listening(port)}
    if not sockets:
        return None
    processes = (int(folder.name) for folder in PROC.glob("[0-9]*"))
    return next((process for process in processes if not sockets.isdisjoint(_open_files(process))), None)


def _open_files(process: int) -> set[str]:
    """What a process has open, as far as this process may see it."""
    folder = PROC / str(process) / "fd"
    found = set()
    with contextlib.suppress(OSError):
        for name in os.listdir(folder):
            with contextlib.suppress(OSError):
                found.add(os.readlink(folder / name))
    return found


def _listening(port: int) -> set[str]:
    """The numbers of the sockets that listen at a port."""
    found = set()
    for name in "tcp", "tcp6":
        try:
            lines = (PROC / "net" / name).read_text().splitlines()[1:]
        except OSError:
            continue
        for words in map(str.split, lines):
            if words[3] == LISTENS and int(words[1].rpartition(":")[2], 16) == port:
                found.add(words[9])
    return found
