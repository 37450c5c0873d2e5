"""The forum's changes, which go to PostgreSQL alone, and what its pages show, which comes from Pequod alone.

After a change its writer waits until it stands in Pequod, so the page that follows has it. All that one page shows is of one
position, at which whole transactions stand: a new thread never shows without its first message.
"""

import contextlib
import pathlib
import sys
from typing import NamedTuple

import psycopg2

sys.path.insert(0, str(pathlib.Path(__file__).resolve().parent.parent.parent / "clients" / "python"))
import pequod  # noqa: E402
from pequod import postgres  # noqa: E402

# What a read, or the wait after a change, ends with where Pequod or the bridge is not there.
Unavailable = (pequod.PequodError, postgres.NotCopied, OSError)

START = """with begun as (insert into thread (author, title) values (%(me)s, %(title)s) returning id),
    said as (insert into message select id, 1, %(me)s, %(text)s from begun)
    insert into watch select %(me)s, id, 1 from begun returning thread"""
HOLD = "select from thread where id = %(thread)s for update"
REPLY = "insert into message select %(thread)s, max(number) + 1, %(me)s, %(text)s from message where thread = %(thread)s"
FOLLOW = """insert into watch select %(me)s, thread, max(number) from message where thread = %(thread)s group by thread
    on conflict (member, thread) do update set seen = excluded.seen"""
SEE = """insert into watch select %(me)s, thread, number from message where thread = %(thread)s and number = %(number)s
    on conflict (member, thread) do update set seen = greatest(watch.seen, excluded.seen)"""
VOTE = """insert into vote select author, thread, number, %(me)s, %(amount)s from message
    where thread = %(thread)s and number = %(number)s and author <> %(me)s
    on conflict (author, thread, number, voter) do update set amount = excluded.amount"""
BEFRIEND = "insert into friend values (%(me)s, %(other)s), (%(other)s, %(me)s) on conflict do nothing"


class Message(NamedTuple):
    """A message as its thread's page shows it."""

    number: int
    author: str
    text: str
    votes: str
    karma: str


class Thread(NamedTuple):
    """A thread in a list, with how many messages it has, or how many of them are not read."""

    number: int
    author: str
    title: str
    count: str


class Forum:
    """The forum. Threads of the program share it."""

    def __init__(self, dsn, host, port, size=4):
        """`dsn` names the database, as libpq reads it, and `size` is how many connections to Pequod there are at most."""
        self._dsn = dsn
        # When Pequod was started anew the bridge fills it, so nothing is to be done here.
        self._pool = pequod.Pool(host, port, size, timeout=5, on_restart=lambda client: None)

    def start(self, me, title, text):
        """Begins a thread, and gives its number."""
        return self._change([START], me=me, title=title, text=text)[0]

    def reply(self, me, thread, text):
        """Adds a message to a thread, and notes that its author watches the thread, and has read it up to there."""
        self._change([HOLD, REPLY, FOLLOW], me=me, thread=thread, text=text)

    def see(self, me, thread, number):
        """Notes that a member has read a thread up to a message."""
        self._change([SEE], me=me, thread=thread, number=number)

    def vote(self, me, thread, number, amount):
        """Votes for a message, or against it. The last vote counts, and none for one's own."""
        self._change([VOTE], me=me, thread=thread, number=number, amount=amount)

    def befriend(self, me, other):
        """Makes two members friends."""
        self._change([BEFRIEND], me=me, other=other)

    def _change(self, statements, **words):
        """Does the statements in one transaction, waits until it stands in Pequod, and gives the row of the last statement, if it
        gives one. `psycopg2.Error` where nothing is changed, and one of `Unavailable` where all is saved and does not stand yet."""
        with contextlib.closing(psycopg2.connect(self._dsn)) as connection:
            with connection, connection.cursor() as cursor:
                for statement in statements:
                    cursor.execute(statement, words)
                row = cursor.fetchone() if cursor.description else None
            with connection.cursor() as cursor, self._pool.client() as client:
                postgres.wait_for(client, cursor)
        return row

    def latest(self):
        """The threads, the newest first, each with how many messages it has."""
        (found,) = self._read("latest|")
        return threads_of((thread, part, author, text) for key, text in found for _, _, thread, author, part in [key.split("|")])

    def home(self, me):
        """What a member sees first: how many messages are not read in all, the threads that the member watches, each with how many
        are not, and what friends began, the newest first."""
        badge, mine, feed = self._read(f"badge|{me}", f"mine|{me}|", f"feed|{me}|")
        # The key of a title has the author behind the part's name, and that of a count has nothing there.
        parts = [(*key.split("|"), "")[2:5] + (text,) for key, text in mine]
        watched = threads_of(parts)
        began = [Thread(int(thread), author, title, "") for key, title in feed for _, _, _, author, thread in [key.split("|")]]
        return dict(badge).get(f"badge|{me}", "0"), watched, began

    def thread(self, me, number):
        """How many messages are not read in all, the title of a thread, which is None where there is no such thread, and its
        messages, in order."""
        badge, titles, page = self._read(f"badge|{me}", f"thread|{number:08}|", f"page|{number:08}|")
        messages = {}
        for key, text in page:
            _, _, place, part, author = key.split("|")
            messages.setdefault(int(place), {"author": author})[part] = text
        shown = [Message(place, found["author"], found["1text"], found.get("2votes", "0"), found.get("3karma", "0"))
                 for place, found in messages.items()]
        return dict(badge).get(f"badge|{me}", "0"), titles[0][1] if titles else None, shown

    def _read(self, *wanted):
        """The pairs of some keys, and of all keys that begin with a prefix where one ends with `|`, all at one position."""
        bounds = [(text, text[:-1] + "}" if text.endswith("|") else text + "\0") for text in wanted]
        with self._pool.client() as client:
            for at in postgres.read_at(client), None:
                try:
                    with client.pipeline() as pipeline:
                        asked = [pipeline.scan(*each, at) for each in bounds]
                    return [answer.result().pairs for answer in asked]
                except pequod.Gone:
                    continue    # a huge transaction is under way: rather a part of it than no page


def threads_of(parts):
    """The threads of which there are these parts: each a number, the part's name, the author, and a text."""
    found = {}
    for number, part, author, text in parts:
        thread = found.setdefault(int(number), {"count": "0"})
        thread.update({"author": author, "title": text} if part == "1title" else {"count": text})
    return [Thread(number, **thread) for number, thread in found.items()]
