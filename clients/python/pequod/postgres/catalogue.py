"""What PostgreSQL's catalogue says of the mapped tables, as it is now."""

from __future__ import annotations

from dataclasses import dataclass
from typing import Any, Callable, Optional, Sequence

from .formats import Kind
from .mapping import Mapping, TableMapping

Ask = Callable[[str, Sequence[object]], list[Any]]
"""Asks a query with its parameters, and gives the rows."""

WITH_FILTERS = 150_000
"""From this version on a publication may have filters of rows and lists of columns."""

_TABLE = """select c.oid::int8, c.relkind::text, c.relreplident::text, pg_relation_filenode(c.oid)::int8,
    exists (select from pg_inherits where inhparent = c.oid)
    from pg_class c join pg_namespace n on n.oid = c.relnamespace where n.nspname = %s and c.relname = %s"""
_COLUMNS = """select a.attname::text, a.attnum, coalesce(nullif(t.typbasetype, 0), t.oid)::regtype::text, a.atttypid::int8,
    a.atttypmod, a.attgenerated::text <> '', a.attstorage::text <> 'p', a.xmin::text
    from pg_attribute a join pg_type t on t.oid = a.atttypid
    where a.attrelid = %s and a.attnum > 0 and not a.attisdropped and a.attname::text = any(%s) order by a.attnum"""
_INDEXES = """select i.indisprimary, i.indisreplident, i.indimmediate, array(select a.attname::text from pg_attribute a
    where a.attrelid = i.indrelid and a.attnum = any((i.indkey::int2[])[0:i.indnkeyatts - 1]))
    from pg_index i where i.indrelid = %s and i.indisunique and i.indisvalid and i.indpred is null and i.indexprs is null"""
_LEAVES = """select c.oid::int8, c.relreplident::text, pg_relation_filenode(c.oid)::int8
    from pg_partition_tree(%s::oid) t join pg_class c on c.oid = t.relid where t.isleaf order by 1"""
_PUBLICATION = """select pubinsert and pubupdate and pubdelete and pubtruncate from pg_publication where pubname = %s"""
_PUBLISHED = """select {} from pg_publication_tables where pubname = %s and schemaname = %s and tablename = %s"""
_SERVER = """select current_setting('wal_level'), current_setting('server_encoding'), pg_is_in_recovery(),
    current_setting('server_version_num')::int"""

_KINDS = {
    **dict.fromkeys(("smallint", "integer", "bigint", "numeric"), Kind.NUMBER),
    **dict.fromkeys(("date", "timestamp without time zone", "timestamp with time zone"), Kind.TIME),
}


@dataclass(frozen=True)
class Column:
    """A column: where it stands, its type, whether it is generated, whether its text may be stored apart from the row. `version`
    is another when its definition was changed."""

    name: str
    number: int
    type: str
    type_number: int
    modifier: int
    is_generated: bool
    may_stand_apart: bool
    version: str

    @property
    def kind(self) -> Kind:
        """What a format may make of it."""
        return _KINDS.get(self.type, Kind.OTHER)


@dataclass(frozen=True)
class Index:
    """A unique index over columns alone, which holds for all rows."""

    is_primary: bool
    is_identity: bool
    is_immediate: bool
    columns: frozenset[str]


@dataclass(frozen=True)
class Leaf:
    """A partition with rows of its own: its number, its replica identity, and the file that has it."""

    number: int
    identity: str
    file: int


@dataclass(frozen=True)
class Published:
    """How a table stands in the publication: whether with a filter of rows, and the columns, where they are listed."""

    is_filtered: bool
    columns: Optional[frozenset[str]]


@dataclass(frozen=True)
class Table:
    """All of a mapped table that pairs depend on. Where it is another than before, the pairs may be too, without a change of rows
    that the stream tells."""

    number: int
    kind: str
    identity: str
    has_children: bool
    columns: tuple[Column, ...]
    indexes: frozenset[Index]
    leaves: tuple[Leaf, ...]
    published: Optional[Published]

    @property
    def is_partitioned(self) -> bool:
        """Whether its rows are those of partitions."""
        return self.kind == "p"


@dataclass(frozen=True)
class Server:
    """The server's settings that matter."""

    wal_level: str
    encoding: str
    is_standby: bool


@dataclass(frozen=True)
class Catalogue:
    """What the catalogue says: of the server, of the publication (None where there is none, and else whether it has all kinds of
    changes), and of each mapped table, by its name. None stands for a table that there is not."""

    server: Server
    publishes_all: Optional[bool]
    tables: dict[str, Optional[Table]]


def read_catalogue(ask: Ask, mapping: Mapping) -> Catalogue:
    """Reads what the catalogue says by now. It costs some five queries a table, and waits for no lock of a table."""
    wal_level, encoding, is_standby, version = ask(_SERVER, ())[0]
    publication = ask(_PUBLICATION, (mapping.publication,))
    tables = {table.name: _read_table(ask, mapping.publication, table, version) for table in mapping.tables}
    return Catalogue(Server(wal_level, encoding, is_standby), publication[0][0] if publication else None, tables)


def read_files(ask: Ask, mapping: Mapping) -> list[Optional[int]]:
    """Gives the files that have the tables. One is another after a TRUNCATE, and after an ALTER TABLE that wrote all rows anew:
    who reads by an earlier snapshot may find such a table empty."""
    found = [ask(_TABLE, (table.schema, table.table)) for table in mapping.tables]
    return [rows[0][3] if rows else None for rows in found]


def _read_table(ask: Ask, publication: str, table: TableMapping, version: int) -> Optional[Table]:
    found = ask(_TABLE, (table.schema, table.table))
    if not found:
        return None
    number, kind, told, _, has_children = found[0]
    columns = ask(_COLUMNS, (number, list(table.columns)))
    indexes = ask(_INDEXES, (number,))
    leaves = ask(_LEAVES, (number,)) if kind == "p" else []
    return Table(
        number, kind, told, has_children, tuple(Column(*row) for row in columns),
        frozenset(Index(primary, identity, at_once, frozenset(names)) for primary, identity, at_once, names in indexes),
        tuple(Leaf(*row) for row in leaves), _read_published(ask, publication, table, version),
    )


def _read_published(ask: Ask, publication: str, table: TableMapping, version: int) -> Optional[Published]:
    told = "rowfilter is not null, attnames::text[]" if version >= WITH_FILTERS else "false, null::text[]"
    rows = ask(_PUBLISHED.format(told), (publication, table.schema, table.table))
    if not rows:
        return None
    is_filtered, names = rows[0]
    return Published(is_filtered, None if names is None else frozenset(names))
