"""A client of a Pequod server, for Python 3.9 or later, with nothing but its standard library.

    import pequod

    with pequod.connect("127.0.0.1", 7000) as client:
        client.put("p|bob|100", "Hi")
        print(client.get("p|bob|100").value)
        for key, value in client.scan("p|bob|", "p|bob}"):
            print(key, value)

Each answer has a position, which is the length of the write history that it speaks of. A write that was acknowledged at a
position stands in every answer with that position or a greater one, whichever client asked. So compare positions to know
whether an answer has seen a write.

A `Client` is one connection. Threads that share one take turns; threads that want to ask at once share a `Pool`. A forked child
uses no connection of its parent's. As long as a connection is open it holds one worker of the server, also while it asks nothing;
the server's `--workers` says how many it has. `pequod.aio` has the same calls for asyncio.

`python3 -m pequod HOST:PORT` is a prompt. `python3 -m pequod check FILE` looks at a file of joins, and `explain FILE KEY` says what
they have to do with a key; `dump HOST:PORT TABLE..` and `load HOST:PORT FILE` write and put pairs, `metrics HOST:PORT` shows how
a server is, `postgres MAPPING.toml` keeps tables equal to those of PostgreSQL, and `relay` has many clients share a few
connections.
"""

from .answers import Absent, Changes, Done, Found, Pairs
from .client import Client, Pipeline, connect
from .errors import Ahead, BadReply, Gone, LinkLost, NotServed, OutOfMemory, PequodError, Refused, Restarted, Unread
from .exchange import Pending
from .feeding import Joins
from .keys import key, parts
from .pool import Pool

__version__ = "1.0.0"

__all__ = [
    "Absent", "Ahead", "BadReply", "Changes", "Client", "Done", "Found", "Gone", "Joins", "LinkLost", "NotServed", "OutOfMemory",
    "Pairs", "Pending", "PequodError", "Pipeline", "Pool", "Refused", "Restarted", "Unread", "connect", "key", "parts",
]
