"""The truth: users, posts and follows in an SQLite file. The cache holds a copy of it as pairs.

Each change gives the pairs that it makes other, as `(key, value)`, with None for one that goes.
"""

import contextlib
import fcntl
import sqlite3

SCHEMA = """
create table if not exists users (number integer primary key, name text not null unique);
create table if not exists posts (
    poster text not null, moment integer not null, text text not null, primary key (poster, moment)
);
create table if not exists follows (user text not null, poster text not null, primary key (user, poster));
"""
PAIRS = """
select printf('user|%08d|', number) || name, '1' from users
union all select 's|' || user || '|' || poster, '1' from follows
union all select 'p|' || poster || printf('|%016d', moment), text from posts
"""


class Truth:
    """The tables of one file, which is made where there is none. Any thread and any process may use it."""

    def __init__(self, path):
        self._path = path
        with self._open() as tables:
            tables.executescript(SCHEMA)

    @contextlib.contextmanager
    def lock(self):
        """Holds the one lock for changes of truth and cache, over all processes that use the file."""
        with open(f"{self._path}.lock", "w", encoding="ascii") as file:
            fcntl.flock(file, fcntl.LOCK_EX)
            yield

    def post(self, user, moment, text):
        """Saves a post, at a time in microseconds at which the user has none."""
        with self._open() as tables:
            entered = self._enter(tables, user)
            tables.execute("insert into posts values (?, ?, ?)", (user, moment, text))
        return [*entered, (f"p|{user}|{moment:016}", text)]

    def follow(self, user, poster):
        """Saves that the user follows the poster."""
        with self._open() as tables:
            entered = self._enter(tables, user)
            tables.execute("insert or ignore into follows values (?, ?)", (user, poster))
        return [*entered, (f"s|{user}|{poster}", "1")]

    def unfollow(self, user, poster):
        """Saves that the user follows the poster no more."""
        with self._open() as tables:
            tables.execute("delete from follows where user = ? and poster = ?", (user, poster))
        return [(f"s|{user}|{poster}", None)]

    def latest(self, user, count):
        """Returns the user's last posts, newest first, as `(moment, text)`."""
        with self._open() as tables:
            rows = tables.execute("select moment, text from posts where poster = ? order by moment desc limit ?", (user, count))
            return rows.fetchall()

    def pairs(self):
        """Returns all pairs that the cache has to hold."""
        with self._open() as tables:
            return dict(tables.execute(PAIRS))

    def _enter(self, tables, user):
        """Gives a new user the next number."""
        if tables.execute("insert or ignore into users (name) values (?)", (user,)).rowcount == 0:
            return []
        (number,) = tables.execute("select number from users where name = ?", (user,)).fetchone()
        return [(f"user|{number:08}|{user}", "1")]

    @contextlib.contextmanager
    def _open(self):
        """A transaction: committed at the end of the `with`, and undone where that ends by an exception."""
        tables = sqlite3.connect(self._path, timeout=2)
        try:
            with tables:
                yield tables
        finally:
            tables.close()
