"""The text of a join, read as the server reads it: its output, its sources, and where it stops being one.

docs/PROTOCOL.md states the language. Which joins may stand together the server alone says; this is for those who explain it.
"""

from __future__ import annotations

import re
from dataclasses import dataclass
from typing import Iterator, Mapping, Optional, Sequence, Union

OPERATORS = ("check", "copy", "count", "sum", "min", "max")
AGGREGATES = OPERATORS[2:]
MAX_TEXT_BYTES = 4_096
MAX_PATTERN_BYTES = 512
MAX_TABLE_BYTES = 64
MAX_SEGMENTS = 16
MAX_NAMES = 16
MAX_NAME_CHARACTERS = 32
MAX_WIDTH = 64
NOT_IN_NAME = re.compile("[^A-Za-z0-9_]")
NOT_IN_LITERAL = re.compile("[<>\0-\x20]")


class NoJoin(ValueError):
    """A text that is no join. `byte` is what the server names, the first byte of the token that it does not accept; `at` is the
    byte of what is wrong, within that token."""

    def __init__(self, sentence: str, byte: int, at: Optional[int] = None) -> None:
        super().__init__(sentence)
        self.sentence = sentence
        self.byte = byte
        self.at = byte if at is None else at


@dataclass(frozen=True)
class Literal:
    """A segment that stands for itself, and its first byte in the text."""

    text: str
    byte: int

    def __str__(self) -> str:
        return self.text


@dataclass(frozen=True)
class Slot:
    """A segment that stands for any that is not empty, or for any of so many bytes, and its first byte in the text."""

    name: str
    width: Optional[int]
    byte: int

    def __str__(self) -> str:
        return f"<{self.name}>" if self.width is None else f"<{self.name}:{self.width}>"


Segment = Union[Literal, Slot]


@dataclass(frozen=True)
class Pattern:
    """Two segments and more, of which the first is a literal, the table's name."""

    segments: tuple[Segment, ...]
    byte: int

    def __str__(self) -> str:
        return "|".join(str(segment) for segment in self.segments)

    @property
    def table(self) -> str:
        return str(self.segments[0])

    @property
    def slots(self) -> tuple[Slot, ...]:
        """The slots in their order; one that repeats is there again."""
        return tuple(segment for segment in self.segments if isinstance(segment, Slot))

    def match(self, key: str) -> Union[dict[str, str], str]:
        """The texts of the slots where the key fits, and otherwise a sentence that says by what it does not."""
        texts = key.split("|")
        if texts[0] != self.table:
            return f"its table is {texts[0]}, and not {self.table}"
        if len(texts) != len(self.segments):
            return f"it has {len(texts)} segments, and the pattern has {len(self.segments)}"
        found: dict[str, str] = {}
        for place, (segment, text) in enumerate(zip(self.segments, texts), 1):
            miss = _miss(segment, text, found)
            if miss is not None:
                return f"segment {place} is {text!r}, and {miss}"
            if isinstance(segment, Slot):
                found[segment.name] = text
        return found


def _miss(segment: Segment, text: str, found: Mapping[str, str]) -> Optional[str]:
    """By what a text does not fit a segment, or None where it does."""
    if isinstance(segment, Literal):
        return None if text == segment.text else f"the pattern has {segment.text!r} there"
    if text == "":
        return f"{segment} is never empty"
    if segment.width is not None and len(text.encode()) != segment.width:
        return f"{segment} has {segment.width} bytes, not {len(text.encode())}"
    before = found.get(segment.name, text)
    return None if text == before else f"{segment} was {before!r} before"


@dataclass(frozen=True)
class Source:
    """An operator, the pattern that it reads, and the operator's first byte in the text."""

    operator: str
    pattern: Pattern
    byte: int

    def __str__(self) -> str:
        return f"{self.operator} {self.pattern}"


@dataclass(frozen=True)
class Join:
    """A text that is a join. Whether its slots and sources go together the server says."""

    text: str
    output: Pattern
    is_pull: bool
    sources: tuple[Source, ...]

    def patterns(self) -> Iterator[Pattern]:
        """The output, and then the pattern of each source."""
        yield self.output
        for source in self.sources:
            yield source.pattern

    @property
    def values(self) -> tuple[Source, ...]:
        """The sources that are no checks. A join that the server takes has one."""
        return tuple(source for source in self.sources if source.operator != "check")

    def in_order(self) -> tuple[Source, ...]:
        """The sources as they are read: the checks, and then the one that gives the value."""
        return (*(source for source in self.sources if source.operator == "check"), *self.values)


def overlap(one: Pattern, two: Pattern) -> bool:
    """Whether some key may fit both patterns, as far as the server looks."""
    return len(one.segments) == len(two.segments) and all(map(_may_agree, one.segments, two.segments))


def _may_agree(one: Segment, two: Segment) -> bool:
    if isinstance(one, Literal) and isinstance(two, Literal):
        return one.text == two.text
    widths = {_width(one), _width(two)} - {None}
    return len(widths) <= 1


def _width(segment: Segment) -> Optional[int]:
    return len(segment.text.encode()) if isinstance(segment, Literal) else segment.width


def read_join(text: str) -> Join:
    """The join of a text. It raises `NoJoin` where the text is none."""
    size = len(text.encode())
    if size > MAX_TEXT_BYTES:
        raise NoJoin(f"it has more than {MAX_TEXT_BYTES:,} bytes", MAX_TEXT_BYTES)
    return _Reading(text, size).join()


class _Reading:
    """The tokens of a text, and how far they are read."""

    def __init__(self, text: str, size: int) -> None:
        self._text = text
        self._tokens = [(len(text[:word.start()].encode()), word.group()) for word in re.finditer("[^ ]+", text)]
        self._end = size
        self._names: set[str] = set()

    def join(self) -> Join:
        output = self._pattern("the output's pattern, as t|<user>")
        self._word(("=",), "an = behind the output")
        word = self._peek()
        is_pull = word == "pull"
        if word in ("push", "pull"):
            self._tokens.pop(0)
        sources = [self._source()]
        while self._tokens:
            sources.append(self._source())
        return Join(self._text, output, is_pull, tuple(sources))

    def _source(self) -> Source:
        byte = self._tokens[0][0] if self._tokens else self._end
        operator = self._word(OPERATORS, f"one of the operators {', '.join(OPERATORS[:-1])} and {OPERATORS[-1]}")
        return Source(operator, self._pattern(f"a pattern behind {operator}"), byte)

    def _peek(self) -> Optional[str]:
        return self._tokens[0][1] if self._tokens else None

    def _take(self, wanted: str) -> tuple[int, str]:
        if not self._tokens:
            raise NoJoin(f"it ends too early: {wanted} is wanted", self._end)
        return self._tokens.pop(0)

    def _word(self, words: Sequence[str], wanted: str) -> str:
        byte, token = self._take(wanted)
        if token not in words:
            raise NoJoin(f"{_short(token)} is not wanted here, but {wanted}", byte)
        return token

    def _pattern(self, wanted: str) -> Pattern:
        byte, token = self._take(wanted)
        if "|" not in token:
            raise NoJoin(f"{_short(token)} is not wanted here, but {wanted}: segments with | between them", byte)
        pattern = read_pattern(token, byte)
        for slot in pattern.slots:
            if slot.name not in self._names and len(self._names) == MAX_NAMES:
                raise NoJoin(f"a join has at most {MAX_NAMES} names of slots", byte, slot.byte)
            self._names.add(slot.name)
        return pattern


def read_pattern(token: str, byte: int = 0) -> Pattern:
    """The pattern of a token that begins at a byte of its text. It raises `NoJoin` where the token is none."""
    if len(token.encode()) > MAX_PATTERN_BYTES:
        raise NoJoin(f"a pattern has at most {MAX_PATTERN_BYTES} bytes", byte)
    segments: list[Segment] = []
    at = byte
    for text in token.split("|"):
        if len(segments) == MAX_SEGMENTS:
            raise NoJoin(f"a pattern has at most {MAX_SEGMENTS} segments", byte, at)
        try:
            segments.append(_slot(text, at) if text.startswith("<") else _literal(text, at))
        except NoJoin as fault:
            raise NoJoin(fault.sentence, byte, fault.at) from None
        at += len(text.encode()) + 1
    if isinstance(segments[0], Slot):
        raise NoJoin("a pattern begins with the table's name, which is no slot", byte)
    if len(segments[0].text.encode()) > MAX_TABLE_BYTES:
        raise NoJoin(f"a table's name has at most {MAX_TABLE_BYTES} bytes", byte)
    if len(segments) == 1:
        raise NoJoin("a pattern has two segments or more, as t|<user>", byte)
    return Pattern(tuple(segments), byte)


def _literal(text: str, at: int) -> Literal:
    if text == "":
        raise NoJoin("a segment is not empty", at)
    wrong = NOT_IN_LITERAL.search(text)
    if wrong is not None:
        what = "control character" if wrong.group() < " " else wrong.group()
        hint = ": a slot is a whole segment, as <user>" if wrong.group() in "<>" else ""
        raise NoJoin(f"a literal has no {what}{hint}", at + len(text[:wrong.start()].encode()))
    return Literal(text, at)


def _slot(text: str, at: int) -> Slot:
    end = len(text.encode())
    if not text.endswith(">"):
        place = text.find(">")
        if place >= 0:
            raise NoJoin("a slot is a whole segment, and nothing stands behind its >", at + len(text[:place + 1].encode()))
        raise NoJoin("a slot ends with >", at + end)
    name, colon, width = text[1:-1].partition(":")
    wrong = NOT_IN_NAME.search(name)
    if wrong is not None:
        raise NoJoin("the name of a slot has the letters a to z and A to Z, digits and _ alone", at + 1 + wrong.start())
    if not 1 <= len(name) <= MAX_NAME_CHARACTERS:
        raise NoJoin(f"the name of a slot has 1 to {MAX_NAME_CHARACTERS} characters", at + 1)
    if not colon:
        return Slot(name, None, at)
    byte = at + 2 + len(name)
    if width.startswith("0") and len(width) > 1:
        raise NoJoin("a width has no zero in front", byte)
    if re.fullmatch("[0-9]+", width) is None or len(width) > 2 or not 1 <= int(width) <= MAX_WIDTH:
        raise NoJoin(f"a width is a number from 1 to {MAX_WIDTH}", byte)
    return Slot(name, int(width), at)


def _short(token: str) -> str:
    return token if len(token) <= 40 else token[:39] + "\u2026"
