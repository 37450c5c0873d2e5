"""The truth in PostgreSQL, and derived data in Pequod: no write goes to two places, and nothing is invalidated by hand.

`python3 -m pequod postgres MAPPING.toml` copies the mapped tables and then follows them; `command` says how it is called. An
application that reads what it wrote asks here:

    from pequod import postgres

    connection.commit()
    at = postgres.wait_for(client, cursor)                  # what this connection committed stands, as do whole transactions
    page = client.scan_prefix("feed|ann|", at=at)

    at = postgres.read_at(client)                           # whole transactions, without waiting

Nothing of it is proved. It is tested.
"""

from .marks import NotCopied
from .waiting import read_at, wait_for

__all__ = ["NotCopied", "read_at", "wait_for"]
