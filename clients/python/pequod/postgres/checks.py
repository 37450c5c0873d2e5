"""Whether a mapping can be kept over the tables as the catalogue has them, and beside the joins of the server."""

from __future__ import annotations

from typing import Iterator

from ..client import Client
from ..errors import Refused
from .catalogue import Catalogue, Table
from .mapping import Mapping, Refusal, TableMapping
from .marks import OWN_TABLE
from .pgoutput import FULL

BY_PRIMARY_KEY, BY_INDEX = "d", "i"
MOST_SEGMENTS = 16
ENCODING_WITHOUT_RULES = "SQL_ASCII"


def refusals_of(mapping: Mapping, catalogue: Catalogue) -> list[Refusal]:
    """Gives all that the catalogue has against a mapping."""
    found = [mapping.refusal(("postgres", "dsn"), sentence) for sentence in _of_server(catalogue)]
    found += [mapping.refusal(("postgres", "publication"), sentence) for sentence in _of_publication(mapping, catalogue)]
    for table in mapping.tables:
        stands = catalogue.tables[table.name]
        if stands is None:
            found.append(mapping.refusal(("table", table.name), f"there is no table {table.name}"))
            continue
        for name, sentence in _of_table(mapping, table, stands):
            found.append(mapping.refusal(("table", table.name, name), sentence))
    return found


def _of_server(catalogue: Catalogue) -> Iterator[str]:
    server = catalogue.server
    if server.wal_level != "logical":
        yield f"the server has wal_level={server.wal_level}: set wal_level=logical, and restart it"
    if server.encoding == ENCODING_WITHOUT_RULES:
        yield f"the database has the encoding {server.encoding}, by which a text may be none"
    if server.is_standby:
        yield "the server is a standby, which has no LSN of a next commit"


def _of_publication(mapping: Mapping, catalogue: Catalogue) -> Iterator[str]:
    name = mapping.publication
    if catalogue.publishes_all is None:
        tables = ", ".join(table.name for table in mapping.tables)
        yield f"there is no publication {name}: create publication {name} for table {tables}"
    elif not catalogue.publishes_all:
        yield f"the publication leaves out changes: alter publication {name} set (publish = 'insert, update, delete, truncate')"


def _of_table(mapping: Mapping, table: TableMapping, stands: Table) -> Iterator[tuple[str, str]]:
    """Gives what is against the mapping of a table, each with the name of what it is against."""
    if stands.kind not in "rp" or stands.has_children and not stands.is_partitioned:
        yield "", f"{table.name} is no table with all its rows: views, and tables that others inherit from, cannot be mapped"
        return
    missing = set(table.columns) - {column.name for column in stands.columns}
    for template, fields in ("key", table.key.fields), ("value", table.value.fields):
        for name in dict.fromkeys(field.column for field in fields):
            if name in missing:
                yield template, f"{table.name} has no column {name}"
    yield from _of_columns(table, stands)
    yield from _of_published(mapping, table, stands)
    if not missing:
        yield from _of_key(table, stands)


def _of_columns(table: TableMapping, stands: Table) -> Iterator[tuple[str, str]]:
    columns = {column.name: column for column in stands.columns}
    for template, fields in ("key", table.key.fields), ("value", table.value.fields):
        for field in fields:
            column = columns.get(field.column)
            if column is None:
                continue
            if column.is_generated:
                yield template, f"{column.name} is a generated column, which the stream of changes leaves out"
            if field.format is not None and column.kind not in field.format.kinds:
                wanted = " or ".join(sorted(kind.value for kind in field.format.kinds))
                yield template, f"{column.name} is of type {column.type}, and {field.format.name} takes {wanted}"
    names = dict.fromkeys(field.column for field in table.value.fields)
    apart = [name for name in names if name in columns and columns[name].may_stand_apart]
    if len(names) > 1 and apart and stands.identity != FULL:
        yield "value", (
            f"{apart[0]} is not told where a change leaves it as it is, so a value of several columns cannot be made: "
            f"alter table {table.name} replica identity full"
        )


def _of_published(mapping: Mapping, table: TableMapping, stands: Table) -> Iterator[tuple[str, str]]:
    published = stands.published
    if published is None:
        yield "", f"it is not published: alter publication {mapping.publication} add table {table.name}" + (
            f"; alter publication {mapping.publication} set (publish_via_partition_root = true)" if stands.is_partitioned else ""
        )
        return
    if published.is_filtered:
        yield "", "it is published with a filter of rows, which a copy of the table would not heed"
    told = [column.name for column in stands.columns if not column.is_generated]
    left = [name for name in told if published.columns is not None and name not in published.columns]
    if left:
        yield "", f"it is published without its column {', '.join(left)}"


def _of_key(table: TableMapping, stands: Table) -> Iterator[tuple[str, str]]:
    key = table.key_columns
    told = " and ".join(sorted(key))
    if not any(index.columns <= key and index.is_immediate for index in stands.indexes):
        yield "key", f"two rows may have one key: {told} hold no unique index that is valid, not partial and not deferrable"
    if any(not _tells_as_much(leaf.identity, stands.identity) for leaf in stands.leaves):
        yield "key", "a partition has another replica identity than the table, so the old key of a row may not be told"
    elif stands.identity != FULL and not key <= _told_columns(stands):
        yield "key", f"a change does not tell the old {told}: alter table {table.name} replica identity full"


def _tells_as_much(leaf: str, root: str) -> bool:
    """Whether a partition with this replica identity tells of old rows what the whole table's identity promises. A primary key is
    that of all partitions, and an index need not be."""
    return leaf == FULL or leaf == root == BY_PRIMARY_KEY


def _told_columns(stands: Table) -> frozenset[str]:
    """Gives the columns of the old row that a change of them tells."""
    for index in stands.indexes:
        is_told = index.is_primary if stands.identity == BY_PRIMARY_KEY else index.is_identity
        if is_told and stands.identity in (BY_PRIMARY_KEY, BY_INDEX):
            return index.columns
    return frozenset()


def joins_in_the_way(client: Client, mapping: Mapping) -> list[Refusal]:
    """Gives a refusal for each table of Pequod into which a join writes, as it stands now.

    It asks for joins that no server accepts, since each reads its own output, and that overlap each output in the table: what is
    refused as a clash has the position of the join in the way, and all others are refused as a circle. So nothing is declared."""
    found = []
    for table in mapping.tables:
        for position in _joins_into(client, table.key.table):
            sentence = f"the join at position {position} writes into Pequod's table {table.key.table!r} too"
            found.append(mapping.refusal(("table", table.name, "key"), sentence))
    for position in _joins_into(client, OWN_TABLE):
        found.append(mapping.refusal(("pequod", "address"), f"the join at position {position} writes into the table {OWN_TABLE!r}"))
    return found


def _joins_into(client: Client, table: str) -> list[int]:
    """Gives the positions of joins with outputs in the table, at least one where there are some."""
    patterns = ["|".join([table, *(f"<s{number}>" for number in range(count))]) for count in range(1, MOST_SEGMENTS)]
    with client.pipeline(check=False) as pipeline:
        answers = [pipeline.join(f"{pattern} = copy {pattern}") for pattern in patterns]
    refused = [answer.error() for answer in answers]
    return sorted({error.details[0] for error in refused if isinstance(error, Refused) and error.name == "clash"})
