"""Why a request was refused, in a sentence for a person."""

from __future__ import annotations

import unicodedata
from dataclasses import dataclass
from typing import Optional

from .errors import Refused
from .joins import NoJoin, read_join

REASONS = {
    "json": "the line is no JSON",
    "form": "this is no request",
    "long": "the line has more than 1,048,576 bytes",
    "key": "this is no key: it is TABLE| and more, with a table's name of 1 to 64 bytes, and has at most 512 bytes",
    "value": "the value has more than 65,536 bytes",
    "range": "these are no bounds: both lie in one table, the last may be TABLE}, and the first is not above the last",
    "syntax": "this is no text of a join",
    "full": "the history has as many entries as it can have",
    "nojoin": "no join stands that was declared there",
    "computed": "a join makes the values of this key",
    "slots": "the slots of the join do not go together",
    "sources": "a join has one value source, at most 7 checks, and none beside count, sum, min or max",
    "clash": "its output overlaps that of another join",
    "cycle": "the joins would read one another in a circle",
    "deep": "a join would stand on more than 7 others, one above another",
    "many": "64 joins stand, and no more may",
    "gone": "the position is more than 65,536 entries back",
    "ahead": "the history has not come to the position yet",
}


def reason(refused: Refused) -> str:
    """The name of a refusal and why, with the place or the joins that it names."""
    text = f"{refused.name}: {REASONS.get(refused.name, 'refused')}"
    if refused.name == "syntax":
        return f"{text} from byte {refused.details[0]} on"
    if refused.name in ("computed", "clash") and refused.details:
        return f"{text}, the one at position {refused.details[0]}"
    if refused.name == "cycle":
        return f"{text}: positions {', '.join(map(str, refused.details))}"
    return text


@dataclass(frozen=True)
class Note:
    """What is to be said of a text: a sentence, and the byte that it is about, where there is one."""

    sentence: str
    text: str
    byte: Optional[int] = None


def syntax_fault(text: str, byte: int) -> tuple[int, str]:
    """What is wrong with a text of which the server says that it is no join from a byte on: the byte within that token, and a
    sentence that says what is wanted there."""
    try:
        read_join(text)
    except NoJoin as fault:
        if fault.byte == byte:
            return fault.at, fault.sentence
    return byte, f"byte {byte} is not wanted there"


def place(text: str, byte: int) -> tuple[str, str]:
    """The text around a byte, and for the line below it a caret that stands under the byte."""
    before = text.encode()[:byte].decode("utf-8", "ignore")
    after = text[len(before):]
    left = shown(before if len(before) <= 90 else "\u2026" + before[-89:])
    room = 130 - len(left)
    right = shown(after if len(after) <= room else after[:room - 1] + "\u2026")
    return left + right, " " * width(left) + "^"


def shown(text: str) -> str:
    """The text with a mark in the place of each character that is not printed in a place of its own."""
    return "".join(each if each.isprintable() else "\ufffd" for each in text)


def width(text: str) -> int:
    """How many columns a text takes in a terminal."""
    return sum(_columns(each) for each in text)


def _columns(character: str) -> int:
    if unicodedata.combining(character):
        return 0
    return 2 if unicodedata.east_asian_width(character) in "WF" else 1
