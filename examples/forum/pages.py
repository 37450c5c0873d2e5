"""The text of pages. All that members wrote is escaped."""

import html

MAX_TITLE, MAX_TEXT = 100, 5_000
LATE = "<p class=late>It is saved, and shows in a moment.</p>"


def page(title, *parts, me=None, badge="0", is_late=False):
    """A whole page."""
    home = f'<a href="/{me}">{me}</a> <b id=badge>{html.escape(badge)}</b>' if me else ""
    body = "\n".join([LATE if is_late else "", *parts])
    return (f'<!doctype html><html lang=en><meta charset=utf-8><title>{html.escape(title)}</title>'
            f'<link rel=stylesheet href="/style.css"><header><a href="/">Forum</a> {home}</header>'
            f"<main><h1>{html.escape(title)}</h1>\n{body}\n</main></html>")


def field(name, limit, rows=0):
    """A field of a form, of one line or of several."""
    label = f"name={name} aria-label={name} placeholder={name.capitalize()} maxlength={limit} required"
    return f"<textarea {label} rows={rows}></textarea>" if rows else f"<input {label}>"


def form(action, label, *fields, **hidden):
    """A form with a button."""
    kept = "".join(f'<input type=hidden name={name} value="{html.escape(str(value))}">' for name, value in hidden.items())
    return f'<form method=post action="{action}">{"".join(fields)}{kept}<button>{label}</button></form>'


def threads(title, found, me, what):
    """A list of threads, each with what its count says."""
    if not found:
        return f"<h2>{title}</h2><p>None yet.</p>"
    rows = "".join(
        f'<li><a href="/{me or "-"}/{thread.number}">{html.escape(thread.title)}</a> by {html.escape(thread.author)}'
        + (f" <b>{html.escape(thread.count)}</b> {what}" if thread.count else "") for thread in found
    )
    return f"<h2>{title}</h2><ul>{rows}</ul>"


def front(latest):
    """The page for everybody."""
    name = '<input name=me aria-label=name placeholder=Name pattern="[a-z][a-z0-9_]*" maxlength=20 required>'
    enter = f'<form action="/" method=get>{name}<button>Enter</button></form>'
    return page("Forum", enter, threads("Latest", latest, None, "messages"))


def home(me, badge, watched, began, is_late):
    """What a member sees first."""
    return page(
        f"Hello {me}", threads("Your threads", watched, me, "unread"), threads("Begun by friends", began, me, ""),
        "<h2>Begin a thread</h2>", form(f"/{me}/start", "Begin", field("title", MAX_TITLE), field("text", MAX_TEXT, 4)),
        "<h2>Make friends</h2>", form(f"/{me}/befriend", "Befriend", field("other", 20)), me=me, badge=badge, is_late=is_late,
    )


def thread(me, number, badge, title, messages, is_late):
    """The messages of a thread. Who only looks has no forms."""
    parts = []
    for message in messages:
        votes = "".join(form(f"/{me}/{number}/vote", sign, number=message.number, amount=amount)
                        for sign, amount in (("+", 1), ("\u2212", -1)) if me and me != message.author)
        parts.append(
            f"<article><p><b>{html.escape(message.author)}</b> <small>karma {html.escape(message.karma)}</small></p>"
            f"<p>{html.escape(message.text)}</p><footer><b class=votes>{html.escape(message.votes)}</b> {votes}</footer></article>"
        )
    if me and messages:
        parts.append(form(f"/{me}/{number}/reply", "Reply", field("text", MAX_TEXT, 4)))
        parts.append(form(f"/{me}/{number}/see", "Mark as read", number=messages[-1].number))
    return page("There is no such thread" if title is None else title, *parts, me=me, badge=badge, is_late=is_late)


def failed(sentence):
    """What is shown where there is no page."""
    return page("Not now", f"<p>{html.escape(sentence)}</p>")
