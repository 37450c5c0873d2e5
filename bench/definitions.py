#!/usr/bin/env python3
"""Prints where a word of the contracts is defined, and the sentence that stands above its definition: the definitions of each
crate's specs/, and the laws, which are the public functions with an empty body, by the sentence above them.

Usage: bench/definitions.py [WORD..]
For each word it prints what has just this name, or else each name that contains it, in capitals or not. Without words it prints all
that have a sentence. It ends with status 1 where it finds nothing.
"""

import re
import sys
from pathlib import Path
from typing import Iterator, NamedTuple

ROOT = Path(__file__).resolve().parent.parent
DEFINITION = re.compile(r"^((?:-- .*\n)*)(?:abbrev |unfoldable )?pub (?!mod )(?:record |data )?(\S+)", re.MULTILINE)
LAW = re.compile(r"^((?:/// .*\n)*)pub fn (\w+).*\n(?:[ )].*\n)*\{\}$", re.MULTILINE)


class Word(NamedTuple):
    name: str
    place: str
    sentence: str


def words_of(file: Path, form: "re.Pattern[str]") -> Iterator[Word]:
    """Gives the words that a file defines in a form of two groups, a comment and a name."""
    text = file.read_text(encoding="utf-8")
    for found in form.finditer(text):
        line = text.count("\n", 0, found.start(2)) + 1
        sentence = " ".join(part.lstrip("-/").strip() for part in found[1].splitlines())
        yield Word(found[2], f"{file.relative_to(ROOT)}:{line}", sentence)


def all_words() -> Iterator[Word]:
    """Gives each definition and each law, crate by crate."""
    for crate in sorted(ROOT.glob("crates/*")):
        for file in sorted(crate.glob("specs/**/*.antt")):
            yield from words_of(file, DEFINITION)
        for file in sorted(crate.glob("src/**/*.rt")):
            yield from words_of(file, LAW)


def found_for(asked: str, words: "list[Word]") -> "list[Word]":
    """Returns the words of this name, or else those whose name contains it."""
    exact = [word for word in words if word.name == asked]
    return exact or [word for word in words if asked.lower() in word.name.lower()]


def main() -> None:
    words = list(all_words())
    if len(sys.argv) > 1:
        shown = [word for asked in sys.argv[1:] for word in found_for(asked, words)]
    else:
        shown = [word for word in words if word.sentence]
    for word in shown:
        print(f"{word.name} ({word.place}): {word.sentence or 'no sentence'}")
    sys.exit(not shown)


if __name__ == "__main__":
    main()
