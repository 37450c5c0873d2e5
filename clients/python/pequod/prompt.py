"""A prompt for a person, over one connection."""

from __future__ import annotations

import json
import os
import pathlib
import re
import shutil
import sys
from typing import Optional, Union

from .answers import Absent, Answer, Changes, Done, Found, Pairs
from .client import Client, connect
from .errors import OutOfMemory, PequodError, Refused, Restarted
from .reasons import place, reason, syntax_fault, width
from .wire import prefix_bounds

HELP = """\
get KEY              the value of a key, as: get k|a
put KEY TEXT         sets it, as: put k|a some text
remove KEY           removes the pair
scan PREFIX          the pairs whose keys begin with a text that ends with |, as: scan k|
scan FIRST LAST      the pairs with FIRST <= key < LAST, as: scan k|a k}
scan ... POSITION    these pairs after the first so many entries, as: scan k| 3
changes ... POSITION what changed in such a range since then, as: changes k| 3
join TEXT            declares a join, as: join b|<x> = copy a|<x>
drop POSITION        drops the join that was declared at a position, as: drop 3
help, quit
A key or text in double quotes is read as JSON reads it, as: put "k|a b" "two\\nlines"
"""
COMMANDS = ("get", "put", "remove", "scan", "changes", "join", "drop", "help", "quit")
POSITION = re.compile("[0-9]{1,15}")
WORD = re.compile(r'\s*(?:("(?:[^"\\]|\\.)*")(?=\s|$)|(\S+))')
MARGIN = 2


class Unclear(Exception):
    """A line that is none of the commands."""


class Prompt:
    """What a person asks of a server, line by line."""

    def __init__(self, client: Client) -> None:
        self._client = client
        self.keys: set[str] = set()
        """The keys that were named and seen, for completion."""

    def do(self, line: str) -> Optional[bool]:
        """Does what a line says, and prints the answer. True where it was done, False where it was not, None to quit."""
        try:
            command, rest = _first_word(line)
            if command == "":
                return True
            if command in ("quit", "exit"):
                return None
            if command == "help":
                print(HELP, end="")
                return True
            if not self._client.is_open:
                self._reconnect()
            self._print(self._ask(command, rest))
            return True
        except Unclear as error:
            print(f"{error}; `help` says what there is")
        except Refused as refused:
            self._print_refusal(refused)
        except OutOfMemory:
            print("memory: the server found no memory, and did nothing")
        except (PequodError, OSError, ValueError) as error:
            print(f"error: {error}")
        return False

    def _ask(self, command: str, rest: str) -> Answer:
        client = self._client
        if command in ("get", "remove"):
            (key,) = self._keys(_all_words(rest), 1, f"{command} takes a key")
            return client.get(key) if command == "get" else client.remove(key)
        if command == "put":
            key, text = _first_word(rest)
            self._keys([key], 1, "put takes a key and a text")
            return client.put(key, _whole_text(text, "put takes a key and a text"))
        if command == "join":
            return client.join(_whole_text(rest, "join takes the text of a join"))
        if command == "drop":
            words = _all_words(rest)
            if len(words) != 1 or POSITION.fullmatch(words[0]) is None:
                raise Unclear("drop takes the position of a join's declaration")
            return client.drop(int(words[0]))
        if command in ("scan", "changes"):
            bounds = _all_words(rest)
            position = int(bounds.pop()) if bounds and POSITION.fullmatch(bounds[-1]) else None
            wanted = f"{command} takes a prefix that ends with |, or two bounds{', and a position' if command == 'changes' else ''}"
            if len(bounds) == 1 and bounds[0].endswith("|"):
                first, last = prefix_bounds(bounds[0])
            else:
                first, last = self._keys(bounds, 2, wanted)
            if command == "scan":
                return client.scan(first, last, position)
            if position is None:
                raise Unclear(wanted)
            return client.changes(first, last, position)
        raise Unclear(f"{command!r} is no command")

    def _keys(self, words: list[str], count: int, wanted: str) -> list[str]:
        if len(words) != count or "" in words:
            raise Unclear(wanted)
        self.keys.update(words)
        return words

    def _reconnect(self) -> None:
        try:
            self._client.reconnect()
        except Restarted as restarted:
            print(f"note: {restarted}")

    def _print(self, answer: Answer) -> None:
        if isinstance(answer, Pairs):
            self.keys.update(key for key, _ in answer.pairs[:1_000])
            for line in _table(answer):
                print(line)
        elif isinstance(answer, Changes):
            self.keys.update(key for key, _ in answer.changes[:1_000])
            for line in _feed(answer):
                print(line)
        elif isinstance(answer, Found):
            print(f"{_cell(answer.value)}\n(at position {answer.position})")
        else:
            print(_told(answer))

    def _print_refusal(self, refused: Refused) -> None:
        if refused.name == "syntax" and refused.details:
            byte, sentence = syntax_fault(refused.key, refused.details[0])
            print("\n".join(place(refused.key, byte)))
            print(f"refused, syntax: {sentence}")
            return
        at = "" if refused.position is None else f" (at position {refused.position})"
        print(f"refused, {reason(refused)}{at}")


def _told(answer: Union[Done, Absent]) -> str:
    return f"ok, at position {answer.position}" if isinstance(answer, Done) else f"none (at position {answer.position})"


def _first_word(line: str) -> tuple[str, str]:
    """The first word of a line, and what follows. A word in quotes is one of JSON."""
    found = WORD.match(line)
    if found is None:
        return "", ""
    quoted, plain = found.groups()
    if quoted is None and plain.startswith('"'):
        raise Unclear("a quote is not closed, or something stands right behind it")
    return (_unquoted(quoted) if quoted is not None else plain), line[found.end():]


def _all_words(rest: str) -> list[str]:
    words = []
    while rest.strip():
        word, rest = _first_word(rest)
        words.append(word)
    return words


def _whole_text(rest: str, wanted: str) -> str:
    """The rest of a line as one text: in quotes as JSON reads it, and otherwise as it stands."""
    rest = rest.strip()
    if not rest:
        raise Unclear(wanted)
    return _unquoted(rest) if rest.startswith('"') else rest


def _unquoted(text: str) -> str:
    try:
        value = json.loads(text)
    except ValueError as error:
        raise Unclear(f"this is no JSON text: {error}") from None
    return str(value)


def _cell(text: str) -> str:
    """A text as it is shown: in quotes where it would not be seen what it is."""
    plain = text.isprintable() and text == text.strip() and text != "" and not text.startswith('"')
    return text if plain else json.dumps(text, ensure_ascii=not text.isprintable())


def _table(answer: Pairs) -> list[str]:
    """The pairs in two columns."""
    lines = _columns([(_cell(key), _cell(value)) for key, value in answer])
    count = f"{len(answer)} pair" if len(answer) == 1 else f"{len(answer)} pairs"
    return [*lines, f"({count}, at position {answer.position})"]


def _feed(answer: Changes) -> list[str]:
    """The changes in two columns: a key that has gone stands alone."""
    lines = _columns([(_cell(key), "" if value is None else _cell(value)) for key, value in answer])
    count = f"{len(answer)} change" if len(answer) == 1 else f"{len(answer)} changes"
    return [*lines, f"({count} from position {answer.since} to {answer.position})"]


def _columns(rows: list[tuple[str, str]]) -> list[str]:
    """Two columns. What goes beyond the terminal in the second is cut."""
    left = max((width(key) for key, _ in rows), default=0)
    room = max(shutil.get_terminal_size().columns - left - MARGIN, 20) if sys.stdout.isatty() else None
    return [f"{key}{' ' * (left - width(key) + MARGIN)}{_cut(value, room)}".rstrip() for key, value in rows]


def _cut(text: str, room: Optional[int]) -> str:
    """As much of the text as there is room for."""
    if room is None or width(text) <= room:
        return text
    taken = 0
    for place, each in enumerate(text):
        taken += width(each)
        if taken >= room:
            return text[:place] + "\u2026"
    return text


def run_prompt(host: str, port: int, timeout: Optional[float]) -> int:
    """Asks for lines and does them, until one says `quit` or they end. With a terminal it has a history and completes words.

    It gives the status: 0; 1 where the lines came from no terminal and one was not done, or where no connection was made.
    """
    try:
        client = connect(host, port, timeout)
    except OSError as error:
        print(f"no connection to {host}:{port}: {error}", file=sys.stderr)
        return 1
    is_person = sys.stdin.isatty()
    with client:
        prompt = Prompt(client)
        if is_person:
            print(f"{host}:{port}; `help` says what there is")
            _use_readline(prompt)
        all_done = True
        while True:
            try:
                done = prompt.do(input("> " if is_person else ""))
            except EOFError:
                print(end="\n" if is_person else "")
                break
            except KeyboardInterrupt:
                print()
                continue
            if done is None:
                break
            all_done = all_done and done
    return 0 if is_person or all_done else 1


def _use_readline(prompt: Prompt) -> None:
    """A history in a file of the home folder, or the one that $PEQUOD_HISTORY names, and completion with the tabulator."""
    try:
        import atexit
        import readline
    except ImportError:
        return
    file = pathlib.Path(os.environ.get("PEQUOD_HISTORY") or pathlib.Path.home() / ".pequod_history")
    try:
        file.touch(0o600)
        readline.read_history_file(file)
        atexit.register(readline.write_history_file, file)
    except OSError:
        pass

    def complete(text: str, state: int) -> Optional[str]:
        is_first = not readline.get_line_buffer()[:readline.get_begidx()].strip()
        found = completions(text, prompt.keys, is_first)
        return found[state] if state < len(found) else None

    readline.set_history_length(1_000)
    readline.set_completer_delims(" \t")
    readline.set_completer(complete)
    readline.parse_and_bind("bind ^I rl_complete" if "libedit" in (readline.__doc__ or "") else "tab: complete")


def completions(text: str, keys: set[str], is_first: bool) -> list[str]:
    """What a word may go on as: a command at first, then the keys that were named or seen, up to their next `|`."""
    if is_first:
        return [command + " " for command in COMMANDS if command.startswith(text)]
    found = {key[:key.find("|", len(text)) + 1 or None] for key in keys if key.startswith(text)}
    return sorted(found)
