#!/usr/bin/env python3
"""Pages with timelines, posts and follows, which an SQLite file has. A Pequod server with timeline.joins is its cache.

    python3 app.py [--port 8000] [--pequod 127.0.0.1:7000] [--data timeline.sqlite]

Every page is some ranges of the cache, and each of them is bounded. It is an example: whoever opens it is whoever they say, so it
listens on loopback alone.
"""

import argparse
import http.server
import json
import pathlib
import re
import sqlite3
import sys
import time
import urllib.parse

import pages
from cache import SENTINEL, Cache, Unavailable, pequod
from truth import Truth

FOLDER = pathlib.Path(__file__).resolve().parent
KINDS = {"style.css": "text/css", "live.js": "text/javascript"}
POLICY = "default-src 'none'; style-src 'self'; script-src 'self'; connect-src 'self'; form-action 'self'"
NAME = re.compile(r"[a-z][a-z0-9_]{0,19}")
MOMENT = re.compile(r"[0-9]{16}")

# How many users a page of everybody has, how many of the newest are proposed, and of how many own posts the page without a cache.
USERS, NEWEST, OWN = 20, 10, 20
# A timeline shows the posts of so many hours. Where that is few posts the next page has twice the hours, where many half.
HOURS, MOST_HOURS, FEW, MANY = 7 * 24, 2 * 365 * 24, 20, 100
HOUR = 3_600_000_000
# The year 2000: nothing older is offered.
FIRST = 946_684_800_000_000


def people_page(client, first):
    """So many users from this number on, with their counts."""
    bounds = f"{first:08}", f"{first + USERS:08}"
    with client.pipeline() as pipeline:
        users = pipeline.scan(*(f"user|{bound}" for bound in bounds))
        counts = pipeline.scan(*(f"who|{bound}" for bound in bounds))
        total = pipeline.get("users|all")
    counts = dict(counts.result())
    rows = []
    for key, _ in users.result():
        who = key.replace("user|", "who|", 1)
        rows.append((key.rpartition("|")[2], counts.get(f"{who}|posts", "0"), counts.get(f"{who}|follows", "0")))
    return pages.people(rows, first + USERS if first + USERS <= int(total.result().value or 0) else None)


def user_page(client, user, before, hours):
    """A user's timeline of some hours with the own posts, whom the user follows, and who is new: all of it at one position, so
    that the parts agree. The page of the newest posts is one that goes on."""
    with client.pipeline() as pipeline:
        run, total = pipeline.get(SENTINEL), pipeline.get("users|all")
    position, total = total.result().position, int(total.result().value or 0)
    since = f"{max((before or now()) - hours * HOUR, 0):016}"
    until = f"|{before:016}" if before else "}"
    with client.pipeline() as pipeline:
        read = pipeline.scan(f"t|{user}|{since}", f"t|{user}{until}", at=position)
        own = pipeline.scan(f"p|{user}|{since}", f"p|{user}{until}", at=position)
        follows = pipeline.scan_prefix(f"s|{user}|", at=position)
        newest = pipeline.scan(f"user|{max(total - NEWEST + 1, 1):08}", "user}", at=position)
    posts = posts_of(user, [*read.result(), *own.result()])
    posts.sort(key=lambda post: post[1], reverse=True)
    followed = [key.split("|")[2] for key, _ in follows.result()]
    names = [key.rpartition("|")[2] for key, _ in reversed(newest.result().pairs)]
    others = [name for name in names if name not in (user, *followed)]
    older = older_words(int(since), hours, len(posts))
    live = None if before else (run.result().value or "", position, since)
    return pages.timeline(user, posts, older, followed, others, position, live)


def posts_of(user, pairs):
    """The posts in a user's timeline and among the own ones, as `(poster, moment, text)`. Other clients may have put keys with
    other times, which are not shown."""
    posts = []
    for key, text in pairs:
        table, _, third, *fourth = key.split("|")
        poster, moment = (fourth[0], third) if table == "t" else (user, third)
        if MOMENT.fullmatch(moment):
            posts.append((poster, int(moment), text))
    return posts


def user_changes(client, user, run, position, since):
    """What is new on a user's page since a position of a run of the cache, of posts since a moment, and the position to ask from
    next. None where the page has to be loaded again."""
    try:
        with client.pipeline() as pipeline:
            ready = pipeline.get(SENTINEL)
            read = pipeline.changes(f"t|{user}|", f"t|{user}}}", since=position)
            own = pipeline.changes(f"p|{user}|", f"p|{user}}}", since=position)
    except (pequod.Gone, pequod.Ahead):
        return None
    if ready.result().value != run:
        return None
    posts = posts_of(user, [*read.result(), *own.result()])
    # The second may have seen more than the first, and then the next answer lists that once more, which makes no difference. A
    # pair that only the second has seen, and that goes before the next question, would stay on the page, since no answer lists it
    # as gone. That does no harm here: own posts never go.
    return pages.changes([post for post in posts if post[2] is None or post[1] >= since], read.result().position)


def older_words(since, hours, shown):
    """What the link to the page before asks for: what came before this one's, in hours that fit how much this one shows."""
    hours = min(hours * 2, MOST_HOURS) if shown < FEW else max(hours // 2, 1) if shown > MANY else hours
    return f"before={since:016}&hours={hours}" if since > FIRST else None


def now():
    """The time in microseconds, which has 16 digits, so that the order of keys is the order of times."""
    return time.time_ns() // 1_000


def number(words, name, pattern, otherwise):
    """A number of the query of a page."""
    text = words.get(name, [""])[0]
    return int(text) if re.fullmatch(pattern, text) else otherwise


class Pages(http.server.BaseHTTPRequestHandler):
    truth: Truth
    cache: Cache

    def do_GET(self):
        where = urllib.parse.urlsplit(self.path)
        user, words = where.path[1:], urllib.parse.parse_qs(where.query)
        name, _, rest = user.partition("/")
        if user in KINDS:
            self.answer((FOLDER / user).read_text(encoding="utf-8"), kind=KINDS[user])
        elif rest == "changes" and NAME.fullmatch(name):
            self.tell_changes(name, words)
        elif user == "":
            first = number(words, "from", "[0-9]{1,7}", 1)
            self.show(lambda: self.cache.read(people_page, first), pages.people_without_cache)
        elif NAME.fullmatch(user):
            before = number(words, "before", "[0-9]{16}", None)
            hours = min(max(number(words, "hours", "[0-9]{1,6}", HOURS), 1), MOST_HOURS)
            self.show(
                lambda: self.cache.read(user_page, user, before, hours),
                lambda: pages.timeline_without_cache(user, self.truth.latest(user, OWN)),
            )
        else:
            self.answer(pages.not_here(), 404)

    def tell_changes(self, user, words):
        """What is new on a page that is open, as JSON. The page asks again where there is no cache now."""
        run = words.get("run", [""])[0]
        position, since = number(words, "position", "[0-9]{1,14}", 0), number(words, "since", "[0-9]{1,16}", 0)
        try:
            told = self.cache.read(user_changes, user, run, position, since)
        except (*Unavailable, sqlite3.Error) as error:
            print(f"{type(error).__name__}: {error}", file=sys.stderr)
            self.answer("{}", 503, "application/json")
            return
        self.answer(json.dumps(told), kind="application/json")

    def do_POST(self):
        length = self.headers.get("Content-Length", "")
        body = self.rfile.read(int(length)) if re.fullmatch("[0-9]{1,4}", length) else b""
        fields = {name: values[0] for name, values in urllib.parse.parse_qs(body.decode("utf-8", "replace")).items()}
        user, _, action = self.path[1:].partition("/")
        if user == "":
            name = fields.get("name", "").strip().lower()
            self.go_to(f"/{name}" if NAME.fullmatch(name) else "/")
        elif NAME.fullmatch(user):
            self.change(user, action, fields)
        else:
            self.go_to("/")

    def change(self, user, action, fields):
        """One change, or none where the fields are not what the form has. Then comes the user's page, with or without the cache,
        so that loading it again sends nothing twice."""
        text, poster = fields.get("text", "").strip()[: pages.MAX_POST], fields.get("poster", "")
        try:
            if action == "post" and text:
                self.cache.write(self.truth.post, user, now(), text)
            elif action in ("follow", "unfollow") and NAME.fullmatch(poster) and poster != user:
                self.cache.write(getattr(self.truth, action), user, poster)
        except sqlite3.Error as error:
            print(f"{type(error).__name__}: {error}", file=sys.stderr)
            self.answer(pages.not_saved(user, text), 503)
            return
        self.go_to(f"/{user}")

    def show(self, make, make_without):
        """A page of the cache, or the one that takes its place where there is no cache."""
        for make_page, status in ((make, 200), (make_without, 503)):
            try:
                page = make_page()
                break
            except (*Unavailable, sqlite3.Error) as error:
                print(f"{type(error).__name__}: {error}", file=sys.stderr)
                page = pages.nothing_answers()
        self.answer(page, status)

    def answer(self, text, status=200, kind="text/html"):
        body = text.encode()
        self.send_response(status)
        self.send_header("Content-Type", f"{kind}; charset=utf-8")
        self.send_header("Content-Length", str(len(body)))
        self.send_header("Content-Security-Policy", POLICY)
        self.end_headers()
        self.wfile.write(body)

    def go_to(self, place):
        self.send_response(303)
        self.send_header("Location", place)
        self.send_header("Content-Length", "0")
        self.end_headers()

    def log_message(self, *_):
        """Nothing is logged."""


def reader(about):
    """What reads the words on the command line that name the truth and the cache."""
    words = argparse.ArgumentParser(description=about.splitlines()[0])
    words.add_argument("--pequod", default="127.0.0.1:7000", metavar="HOST:PORT")
    words.add_argument("--data", default="timeline.sqlite", metavar="FILE")
    return words


def site(given):
    """The truth and the cache that the words name."""
    truth = Truth(given.data)
    host, _, port = given.pequod.rpartition(":")
    return truth, Cache(truth, host, int(port))


def main():
    words = reader(__doc__)
    words.add_argument("--port", type=int, default=8000)
    given = words.parse_args()
    Pages.truth, Pages.cache = site(given)
    try:
        # The first read fills the cache.
        Pages.cache.read(lambda client: None)
    except Unavailable as error:
        print(f"No cache yet: {error}", file=sys.stderr)
    with http.server.ThreadingHTTPServer(("127.0.0.1", given.port), Pages) as server:
        print(f"http://127.0.0.1:{server.server_port}/", flush=True)
        try:
            server.serve_forever()
        except KeyboardInterrupt:
            pass


if __name__ == "__main__":
    main()
