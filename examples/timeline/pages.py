"""The pages as text. All that a user typed is escaped here."""

import datetime
import html
import time
import urllib.parse

MAX_POST = 500

FRAME = """<!doctype html>
<html lang="en"><head><meta charset="utf-8"><meta name="viewport" content="width=device-width, initial-scale=1">
<title>{title}</title><link rel="stylesheet" href="/style.css"><script src="/live.js" defer></script></head><body>
<header><a href="/">Pequod timeline</a></header><main>
{body}</main></body></html>
"""
ENTER = (
    '<h1>Who are you?</h1><form class="enter" method="post" action="/"><label for="name">Your name: small letters, digits and _'
    '</label><span><input id="name" name="name" required maxlength="20" pattern="[a-z][a-z0-9_]*" autocomplete="username" '
    'autocapitalize="none"><button>Go in</button></span></form>'
)
# The script of a page says something here.
NEWS = '<p id="news" role="status"></p>'
NO_CACHE = (
    '<p class="notice" data-without-cache>The cache does not answer, so no {what} can be shown now.{more}</p>' + NEWS
)


def frame(title, body):
    return FRAME.format(title=html.escape(title), body=body)


def link(name):
    return f'<a class="name" href="/{urllib.parse.quote(name, safe="")}">{html.escape(name)}</a>'


def button(user, action, label, poster):
    name = html.escape(poster)
    return (
        f'<form method="post" action="/{html.escape(user)}/{action}"><input type="hidden" name="poster" value="{name}">'
        f'<button aria-label="{label} {name}">{label}</button></form>'
    )


def post_form(user, typed=""):
    return (
        f'<form class="post" method="post" action="/{user}/post"><label for="text">What is new?</label><textarea id="text" '
        f'name="text" rows="3" maxlength="{MAX_POST}" required>\n{html.escape(typed)}</textarea><button>Post</button></form>'
    )


def name_of(poster, moment):
    """What a post is called on a page."""
    return f"post {poster} {moment}".replace(" ", "-")


def changes(posts, position):
    """What changed on a page: each post with its text, or with none where it has gone, and the position to ask from next."""
    told = [
        {"name": name_of(poster, moment), "text": None if text is None else post_text(poster, moment, text)}
        for poster, moment, text in posts
    ]
    return {"position": position, "posts": told}


def age(seconds, when):
    """How long ago something was, as '2 min', and its date from a week on. `age` of live.js says the same."""
    minutes = max(0, int(seconds // 60))
    if minutes < 1:
        return "now"
    if minutes < 60:
        return f"{minutes} min"
    if minutes < 24 * 60:
        return f"{minutes // 60} h"
    return f"{minutes // (24 * 60)} d" if minutes < 7 * 24 * 60 else f"{when.day} {when:%B %Y}"


def post_text(poster, moment, text):
    when = datetime.datetime.fromtimestamp(moment / 1e6, datetime.timezone.utc)
    told = age(time.time() - moment / 1e6, when)
    return (
        f'<article id="{html.escape(name_of(poster, moment))}" data-moment="{moment}">'
        f'<p class="who">{link(poster)} <time datetime="{when:%Y-%m-%dT%H:%M:%SZ}">{told}</time></p>'
        f'<p class="text">{html.escape(text)}</p></article>'
    )


def people(rows, after):
    """Users with their counts, as `(name, posts, follows)`, and where the next page begins, if there is one."""
    table = "".join(
        f"<tr><td>{link(name)}</td><td>{html.escape(posts)}</td><td>{html.escape(follows)}</td></tr>"
        for name, posts, follows in rows
    )
    table = f'<table><tr><th scope="col">Name</th><th scope="col">Posts</th><th scope="col">Follows</th></tr>{table}</table>' if rows else "<p>Nobody yet.</p>"
    more = f'<p><a href="/?from={after}">More</a></p>' if after else ""
    return frame("Pequod timeline", f"{ENTER}<h2>Everybody</h2>{table}{more}")


def people_without_cache():
    return frame("No cache", ENTER + NO_CACHE.format(what="list of users", more=""))


def timeline(user, posts, older, followed, others, position, live=None):
    """A user's page. `older` is what the link to older posts asks for, if there is one. A page that goes on has, in `live`, the run
    of the cache, the position and the moment from which it asks for what is new."""
    # The script of the page shows this line and hides it as posts come and go.
    shown = "".join([f'<p id="nothing"{" hidden" if posts else ""}>Nothing here.</p>', *(post_text(*post) for post in posts)])
    goes_on = "" if live is None else ' id="live" data-user="{}" data-run="{}" data-position="{}" data-since="{}"'.format(
        user, html.escape(live[0]), live[1], live[2]
    )
    older = f'<p><a href="/{user}?{html.escape(older)}">Older posts</a></p>' if older else ""
    left = "".join(f"<li>{link(name)}{button(user, 'unfollow', 'Unfollow', name)}</li>" for name in followed)
    more = "".join(f"<li>{link(name)}{button(user, 'follow', 'Follow', name)}</li>" for name in others)
    return frame(
        f"{user} - Pequod timeline",
        f'<h1>{user}</h1>{post_form(user)}<div class="columns">'
        f'<section><h2>Timeline</h2>{NEWS}<div{goes_on}>{shown}</div>{older}</section>'
        f'<aside><h2>You follow</h2><ul>{left or "<li>Nobody yet.</li>"}</ul>'
        f'<h2>New here</h2><ul>{more or "<li>Nobody.</li>"}</ul>'
        f'<p class="position">at position {position}</p></aside></div>',
    )


def timeline_without_cache(user, posts):
    """A user's page with the own posts alone, which are those of the truth."""
    more = " What you post is saved all the same, and appears to others when the cache is back."
    saved = "".join(post_text(user, *post) for post in posts) or "<p>Nothing yet.</p>"
    notice = NO_CACHE.format(what="timeline", more=more)
    return frame("No cache", f"<h1>{user}</h1>{notice}{post_form(user)}<h2>Your last posts, as saved</h2>{saved}")


def not_saved(user, typed):
    """What follows a change that was not saved, with what was typed."""
    return frame(
        "Not saved",
        f'<h1>{user}</h1><p class="notice">This was not saved. Please send it again.</p>{post_form(user, typed)}',
    )


def nothing_answers():
    return frame("No answer", '<p class="notice">Neither the cache nor the database answers.</p>')


def not_here():
    return frame("Not here", "<h1>Nothing is here</h1>")
