#!/usr/bin/env python3
"""The pages of the forum: changes go to PostgreSQL, and what is shown comes from Pequod.

    python3 app.py [--port 8000] [--pequod 127.0.0.1:7000] [--dsn ""]

`start.py` starts all that it wants. It is an example: whoever opens it is whoever they say, so it listens on loopback alone.
"""

import argparse
import http.server
import pathlib
import re
import sys
import urllib.parse

import pages
import psycopg2
from store import Forum, Unavailable

FOLDER = pathlib.Path(__file__).resolve().parent
NAME, NUMBER = re.compile("[a-z][a-z0-9_]{0,19}"), re.compile("[0-9]{1,8}")
POLICY = "default-src 'none'; style-src 'self'; form-action 'self'"
MOST_BYTES = 40_000


class Pages(http.server.BaseHTTPRequestHandler):
    forum: Forum

    def do_GET(self):
        where = urllib.parse.urlsplit(self.path)
        words = dict(urllib.parse.parse_qsl(where.query))
        name, _, number = where.path[1:].partition("/")
        if name == "style.css":
            self.answer((FOLDER / "style.css").read_text(encoding="utf-8"), kind="text/css")
        elif NAME.fullmatch(words.get("me", "")):
            self.go_to(f"/{words['me']}")
        elif name == "":
            self.show(lambda: pages.front(self.forum.latest()))
        elif NAME.fullmatch(name) and number == "":
            self.show(lambda: pages.home(name, *self.forum.home(name), "late" in words))
        elif (NAME.fullmatch(name) or name == "-") and NUMBER.fullmatch(number):
            me = None if name == "-" else name
            self.show(lambda: pages.thread(me, int(number), *self.forum.thread(name, int(number)), "late" in words))
        else:
            self.answer(pages.failed("There is no such page."), 404)

    def do_POST(self):
        length = self.headers.get("Content-Length", "")
        body = self.rfile.read(min(int(length), MOST_BYTES)) if re.fullmatch("[0-9]{1,6}", length) else b""
        fields = {name: text.strip() for name, text in urllib.parse.parse_qsl(body.decode("utf-8", "replace"))}
        me, *rest = self.path[1:].split("/")
        is_right = NAME.fullmatch(me) and (len(rest) == 1 or len(rest) == 2 and NUMBER.fullmatch(rest[0]))
        change = self.change_of(me, rest, fields) if is_right else None
        if change is None:
            self.answer(pages.failed("The form was not filled in as it has to be."), 400)
            return
        self.change(change, "/" + "/".join([me, *rest[:-1]]))

    def change_of(self, me, rest, fields):
        """What a form asks for, and None where its fields are not what they have to be."""
        action, thread = rest[-1], int(rest[0]) if len(rest) == 2 else None
        title, text = fields.get("title", "")[: pages.MAX_TITLE], fields.get("text", "")[: pages.MAX_TEXT]
        number = fields.get("number", "")
        if thread is None and action == "start" and title and text:
            return lambda: self.forum.start(me, title, text)
        if thread is None and action == "befriend" and NAME.fullmatch(fields.get("other", "")) and fields["other"] != me:
            return lambda: self.forum.befriend(me, fields["other"])
        if thread is not None and action == "reply" and text:
            return lambda: self.forum.reply(me, thread, text)
        if thread is not None and action == "see" and NUMBER.fullmatch(number):
            return lambda: self.forum.see(me, thread, int(number))
        if thread is not None and action == "vote" and NUMBER.fullmatch(number) and fields.get("amount") in ("1", "-1"):
            return lambda: self.forum.vote(me, thread, int(number), int(fields["amount"]))
        return None

    def change(self, change, place):
        """Does a change, and sends the browser to a page, which shows it. Where Pequod has not got it yet the page says so."""
        try:
            change()
        except psycopg2.Error as error:
            self.answer(pages.failed(f"It was not saved: {type(error).__name__}."), 503)
        except Unavailable:
            self.go_to(f"{place}?late")
        else:
            self.go_to(place)

    def show(self, make):
        try:
            made, status = make(), 200
        except Unavailable as error:
            print(f"{type(error).__name__}: {error}", file=sys.stderr)
            made, status = pages.failed("There is nothing to show at the moment. What was written is saved."), 503
        self.answer(made, status)

    def answer(self, text, status=200, kind="text/html"):
        body = text.encode()
        self.send_response(status)
        self.send_header("Content-Type", f"{kind}; charset=utf-8")
        self.send_header("Content-Length", str(len(body)))
        self.send_header("Content-Security-Policy", POLICY)
        self.end_headers()
        self.wfile.write(body)

    def go_to(self, place):
        self.send_response(303)
        self.send_header("Location", place)
        self.send_header("Content-Length", "0")
        self.end_headers()

    def log_message(self, *_):
        """Nothing is logged."""


def main():
    words = argparse.ArgumentParser(description=__doc__.splitlines()[0])
    words.add_argument("--port", type=int, default=8000)
    words.add_argument("--pequod", default="127.0.0.1:7000", metavar="HOST:PORT")
    words.add_argument("--dsn", default="", help="the database, as libpq reads it; unless given PGHOST and so on")
    given = words.parse_args()
    host, _, port = given.pequod.rpartition(":")
    Pages.forum = Forum(given.dsn, host, int(port))
    with http.server.ThreadingHTTPServer(("127.0.0.1", given.port), Pages) as server:
        print(f"http://127.0.0.1:{server.server_port}/", flush=True)
        try:
            server.serve_forever()
        except KeyboardInterrupt:
            pass


if __name__ == "__main__":
    main()
