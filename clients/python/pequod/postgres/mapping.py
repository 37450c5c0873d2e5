"""The mapping: which rows of PostgreSQL become which pairs of Pequod.

    [postgres]
    dsn = "host=127.0.0.1 dbname=forum"     # as of libpq; unless given, its variables PGHOST, PGDATABASE and so on
    publication = "pequod"

    [pequod]
    address = "127.0.0.1:7000"

    [table."public.post"]
    key = "p|{author}|{created:us16}"
    value = "{body}"
"""

from __future__ import annotations

import re
import sys
from dataclasses import dataclass
from typing import Any, Callable, Mapping as Reading, NamedTuple, Optional, TypeVar

from .marks import OWN_TABLE
from .toml_lines import Lines, Path
from .templates import Field, KeyTemplate, ValueTemplate

T = TypeVar("T")

PUBLICATION = "pequod"
SECTIONS = {"postgres": ("dsn", "publication"), "pequod": ("address",)}
TEMPLATES = ("key", "value")
_ADDRESS = re.compile(r"\[?(.+?)\]?:([0-9]{1,5})")
_LINE_OF_ERROR = re.compile(r"(.*) \(at line ([0-9]+), column [0-9]+\)")


class Refusal(NamedTuple):
    """What is wrong with a mapping: the line of the file, and a sentence."""

    line: int
    sentence: str


class MappingRefused(Exception):
    """A mapping cannot be used. `refusals` say why, in the order of lines."""

    def __init__(self, refusals: list[Refusal]) -> None:
        super().__init__(refusals)
        self.refusals = sorted(refusals)


@dataclass(frozen=True)
class TableMapping:
    """How the rows of one table become pairs of one table of Pequod."""

    schema: str
    table: str
    key: KeyTemplate
    value: ValueTemplate

    @property
    def name(self) -> str:
        """The table's name in PostgreSQL, as `public.post`."""
        return f"{self.schema}.{self.table}"

    @property
    def fields(self) -> list[Field]:
        """The columns of both templates."""
        return [*self.key.fields, *self.value.fields]

    @property
    def columns(self) -> tuple[str, ...]:
        """The names of the columns that the templates have, in order, each once."""
        return tuple(dict.fromkeys(field.column for field in self.fields))

    @property
    def key_columns(self) -> frozenset[str]:
        """The names of the columns that make the key."""
        return frozenset(field.column for field in self.key.fields)

    @property
    def bounds(self) -> tuple[str, str]:
        """The bounds of all keys of its table in Pequod."""
        return f"{self.key.table}|", f"{self.key.table}}}"


@dataclass(frozen=True)
class Mapping:
    """A whole mapping, as its file has it."""

    dsn: str
    publication: str
    host: str
    port: int
    tables: tuple[TableMapping, ...]
    lines: Lines

    def refusal(self, path: Path, sentence: str) -> Refusal:
        """Makes a refusal of what stands at a path of the file."""
        return Refusal(self.lines.of(path), sentence)

    def table_of_key(self, key: str) -> Optional[TableMapping]:
        """Finds the table whose rows have such keys."""
        return next((table for table in self.tables if table.key.table == key.partition("|")[0]), None)


def read_mapping(text: str) -> Mapping:
    """Reads the text of a mapping. `MappingRefused`, with all that is wrong with it, where it is none."""
    if sys.version_info < (3, 11):
        raise RuntimeError("a mapping is read by tomllib, which Python has from 3.11 on")
    import tomllib

    try:
        content = tomllib.loads(text)
    except tomllib.TOMLDecodeError as error:
        found = _LINE_OF_ERROR.fullmatch(str(error))
        last = text.count("\n") + 1
        raise MappingRefused([Refusal(int(found[2]), found[1]) if found else Refusal(last, str(error))]) from error
    return _Reader(content, Lines(text, tomllib.loads)).read()


class _Reader:
    """Reads what the file has, and collects what is wrong with it."""

    def __init__(self, content: Reading[str, Any], lines: Lines) -> None:
        self._content = content
        self._lines = lines
        self._refusals: list[Refusal] = []

    def read(self) -> Mapping:
        self._look_for_other_names()
        dsn = self._text(("postgres", "dsn"), "") or ""
        publication = self._text(("postgres", "publication"), PUBLICATION) or PUBLICATION
        host, port = self._made(("pequod", "address"), self._text(("pequod", "address"), None), _read_address) or ("", 0)
        tables = self._tables()
        if self._refusals:
            raise MappingRefused(self._refusals)
        return Mapping(dsn, publication, host, port, tables, self._lines)

    def _refuse(self, path: Path, sentence: str) -> None:
        self._refusals.append(Refusal(self._lines.of(path), sentence))

    def _look_for_other_names(self) -> None:
        for name, section in self._content.items():
            if name not in SECTIONS and name != "table":
                self._refuse((name,), f"there is no section {name!r}: those are postgres, pequod and table")
            elif not isinstance(section, dict):
                self._refuse((name,), f"{name} has to be a section")
            for inner in section if name in SECTIONS and isinstance(section, dict) else ():
                if inner not in SECTIONS[name]:
                    self._refuse((name, inner), f"{name} has no {inner!r}: it has {' and '.join(SECTIONS[name])}")

    def _at(self, path: Path) -> Any:
        found: Any = self._content
        for name in path:
            found = found.get(name) if isinstance(found, dict) else None
        return found

    def _text(self, path: Path, otherwise: Optional[str]) -> Optional[str]:
        """The text at a path, and None, with a refusal, where it has to be there and is not."""
        found = self._at(path)
        if found is None and otherwise is None:
            self._refuse(path, f"{path[-1]} is missing")
        elif found is not None and not isinstance(found, str):
            self._refuse(path, f"{path[-1]} has to be a text")
            return None
        return otherwise if found is None else str(found)

    def _made(self, path: Path, text: Optional[str], make: Callable[[str], T]) -> Optional[T]:
        """What is made of a text, and None, with a refusal, where it raises a ValueError."""
        try:
            return None if text is None else make(text)
        except ValueError as error:
            self._refuse(path, str(error))
            return None

    def _tables(self) -> tuple[TableMapping, ...]:
        given = self._at(("table",))
        if not given or not isinstance(given, dict):
            self._refuse(("table",), "there is no table to map: write [table.\"public.NAME\"]")
            return ()
        tables: dict[str, TableMapping] = {}
        for name, content in given.items():
            table = self._table(name, content)
            if table is None:
                continue
            other = tables.setdefault(table.key.table, table)
            if other is not table:
                self._refuse(
                    ("table", name, "key"),
                    f"{other.name} has Pequod's table {table.key.table!r} already: a table of rows is a whole table there",
                )
        return tuple(tables.values())

    def _table(self, name: str, content: Any) -> Optional[TableMapping]:
        path = ("table", name)
        schema, dot, table = name.partition(".")
        if not (schema and dot and table):
            self._refuse(path, f"{name!r} has to be a schema and a table, as [table.\"public.post\"]")
        for inner in content if isinstance(content, dict) else ():
            if inner not in TEMPLATES:
                self._refuse((*path, inner), f"a table has a key and a value, and no {inner!r}")
        key = self._made((*path, "key"), self._text((*path, "key"), None), KeyTemplate)
        value = self._made((*path, "value"), self._text((*path, "value"), None), ValueTemplate)
        if key is not None and key.table == OWN_TABLE:
            self._refuse((*path, "key"), f"the table {OWN_TABLE!r} is the bridge's own, for its marker")
        if key is None or value is None:
            return None
        return TableMapping(schema, table, key, value)


def _read_address(text: str) -> tuple[str, int]:
    found = _ADDRESS.fullmatch(text)
    if found is None or not 1 <= int(found[2]) <= 65_535:
        raise ValueError(f"{text!r} is no HOST:PORT")
    return found[1], int(found[2])
