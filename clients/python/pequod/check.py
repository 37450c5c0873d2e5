"""Why the lines of a file of joins are refused, with the place, and what to look at in those that are accepted: each line is asked
of a server of its own."""

from __future__ import annotations

import os
import pathlib
import subprocess
import sys
from dataclasses import dataclass, field
from typing import Iterator, Mapping, Optional, Union

from .advice import warnings
from .answers import Answer, Done
from .errors import BadReply, OutOfMemory, Refused
from .joins import AGGREGATES, Join, Slot, overlap, read_join
from .joins_file import join_lines
from .reasons import REASONS, Note, place, shown, syntax_fault
from .wire import join_request, read_reply

ACCEPTED, FILE_REFUSED, UNUSABLE = 0, 7, 9
MAX_CHECKS = 7


@dataclass(frozen=True)
class Line:
    """A line of the file that is to be a join."""

    number: int
    text: str


@dataclass
class Verdict:
    """What is to be said of a line: the name of the refusal, or `warning`, a sentence, and notes with their places."""

    line: Line
    name: str
    sentence: str
    notes: list[Note] = field(default_factory=list)


class Unusable(Exception):
    """The file or the program cannot be used."""


def check_file(file: str, program: Optional[str]) -> int:
    """Prints why each refused line of a file of joins is refused, what to look at in those that are accepted, and how many there
    are of each. It gives the status: 0 where all are accepted, 7 where one is refused, 9 where the file or the program cannot be
    used."""
    try:
        lines, unread = read_lines(pathlib.Path(file).read_bytes())
        verdicts, accepted = judge(lines, program or os.environ.get("PEQUOD") or "pequod")
    except (OSError, Unusable) as error:
        print(f"pequod check: {error}", file=sys.stderr)
        return UNUSABLE
    refused = [*unread, *verdicts]
    warned = [Verdict(line, "warning", note.sentence, [Note("", note.text, note.byte)])
              for line in accepted.values() for note in warnings(read_join(line.text))]
    for verdict in sorted([*refused, *warned], key=lambda verdict: verdict.line.number):
        print(f"{file}:{verdict.line.number}: {verdict.name}: {verdict.sentence}")
        for note in verdict.notes:
            _print_note(note)
    count = "" if not warned else f", {len(warned)} {'warning' if len(warned) == 1 else 'warnings'}"
    print(f"{len(accepted)} accepted, {len(refused)} refused{count}")
    return FILE_REFUSED if refused else ACCEPTED


def _print_note(note: Note) -> None:
    if note.sentence:
        print(f"  {note.sentence}")
    lines = (shown(note.text),) if note.byte is None else place(note.text, note.byte)
    for line in lines:
        print(f"    {line}")


def read_lines(content: bytes) -> tuple[list[Line], list[Verdict]]:
    """The lines that are to be joins, and those of them that are no UTF-8."""
    lines, unread = [], []
    for number, line in join_lines(content):
        try:
            lines.append(Line(number, line.decode()))
        except UnicodeDecodeError as error:
            text = line.decode("utf-8", "replace")
            note = Note(f"from byte {error.start} on it is no UTF-8", text)
            unread.append(Verdict(Line(number, text), "syntax", REASONS["syntax"], [note]))
    return lines, unread


def judge(lines: list[Line], program: str) -> tuple[list[Verdict], dict[int, Line]]:
    """The lines that are refused, each beside those before it that are accepted, and the accepted ones by their positions."""
    verdicts: list[Verdict] = []
    asked: list[Line] = []
    sent = b""
    for line in lines:
        try:
            sent += join_request(line.text).line
            asked.append(line)
        except Refused:
            verdicts.append(Verdict(line, "long", REASONS["long"]))
    accepted: dict[int, Line] = {}
    for line, answer in zip(asked, _answers(program, sent, len(asked))):
        if isinstance(answer, Done):
            accepted[answer.position] = line
        elif isinstance(answer, Refused):
            sentence = REASONS.get(answer.name, "refused")
            verdicts.append(Verdict(line, answer.name, sentence, list(_notes(line, answer, accepted))))
        else:
            raise Unusable(f"{program}: no answer to line {line.number}")
    return verdicts, accepted


def _answers(program: str, sent: bytes, count: int) -> list[Union[Answer, Refused, OutOfMemory]]:
    """What the program answers to these requests."""
    try:
        ended = subprocess.run([program, "run"], input=sent, capture_output=True, check=False)
    except OSError as error:
        why = "is not there" if isinstance(error, FileNotFoundError) else f"cannot be run: {error.strerror}"
        raise Unusable(f"the program {program} {why}; --program PATH or $PEQUOD names the one that was built") from None
    replies = ended.stdout.split(b"\n")[:-1]
    if ended.returncode != 0 or len(replies) != count:
        told = ended.stderr.decode("utf-8", "replace").strip()
        raise Unusable(f"{program} ended with status {ended.returncode}{': ' if told else ''}{told}")
    try:
        return [read_reply(reply) for reply in replies]
    except BadReply as error:
        raise Unusable(f"{program}: {error}") from None


def _notes(line: Line, refused: Refused, accepted: Mapping[int, Line]) -> Iterator[Note]:
    """What the refusal names: a place in the text, or the joins at the positions that it names."""
    if refused.name == "syntax":
        byte, sentence = syntax_fault(line.text, refused.details[0])
        yield Note(sentence, line.text, byte)
        return
    join = read_join(line.text)
    if refused.name in ("slots", "sources"):
        yield from slot_notes(join) if refused.name == "slots" else source_notes(join)
        return
    if refused.name == "cycle" and len(refused.details) == 1:
        for source in join.sources:
            if overlap(source.pattern, join.output):
                yield Note(f"the join reads its own output: keys may fit both {join.output} and {source.pattern}", line.text,
                           source.pattern.byte)
        return
    yield Note("the join", line.text)
    for position in refused.details:
        if position in accepted:
            other = accepted[position]
            yield Note(f"and that of line {other.number}, at position {position}", other.text)


def slot_notes(join: Join) -> Iterator[Note]:
    """What is wrong with the slots of a join."""
    output = join.output.slots
    read = [slot for source in join.sources for slot in source.pattern.slots]
    for slot in output:
        if slot.name not in {other.name for other in read}:
            yield Note(f"{slot} of the output occurs in no source", join.text, slot.byte)
    widths: dict[str, Slot] = {}
    for slot in (*output, *read):
        first = widths.setdefault(slot.name, slot)
        if slot.width != first.width:
            yield Note(f"{slot} has another width than {first}", join.text, slot.byte)
    for source in join.sources:
        for slot in source.pattern.slots:
            if source.operator == "copy" and slot.name not in {other.name for other in output}:
                yield Note(f"{slot} of what is copied does not occur in the output", join.text, slot.byte)


def source_notes(join: Join) -> Iterator[Note]:
    """What is wrong with the number and the kinds of a join's sources."""
    values, checks = join.values, [source for source in join.sources if source.operator == "check"]
    if not values:
        yield Note("it has no value source: one copy, count, sum, min or max", join.text, len(join.text.encode()))
    for source in values[1:]:
        yield Note(f"a second value source, beside {values[0]}", join.text, source.byte)
    for source in checks[MAX_CHECKS:]:
        yield Note(f"more than {MAX_CHECKS} checks", join.text, source.byte)
    for value in values:
        if value.operator in AGGREGATES and checks:
            yield Note(f"a check beside {value.operator}, which takes none: let a join with the check make the pairs that it reads",
                       join.text, checks[0].byte)
