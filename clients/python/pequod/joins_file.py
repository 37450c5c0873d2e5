"""The lines of a file of joins that are to be joins."""

from __future__ import annotations

from typing import Iterator


def join_lines(content: bytes) -> Iterator[tuple[int, bytes]]:
    """Each line that is to be a join, and its number from 1 on. Those that are empty, have spaces alone or begin with # are left
    out."""
    for number, line in enumerate(content.split(b"\n"), 1):
        line = line[:-1] if line.endswith(b"\r") else line
        if line.strip(b" ") != b"" and not line.startswith(b"#"):
            yield number, line
