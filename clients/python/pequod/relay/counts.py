"""What the relay counts, and its text for Prometheus."""

from __future__ import annotations

import enum
import re

from ..exposition import Counter, Gauge, Histogram, page

__all__ = ["Cause", "Counts"]

SECONDS = (0.0001, 0.00025, 0.0005, 0.001, 0.0025, 0.005, 0.01, 0.025, 0.05, 0.1, 0.25, 1.0, 10.0)
REFUSAL = re.compile(rb'^\["error","([a-z]+)"', re.MULTILINE)
REFUSAL_HEAD = b'["error"'


class Cause(enum.Enum):
    """Why a client's connection was reset."""

    LINK_LOST = "link_lost"
    NO_LINK = "no_link"
    TOO_MANY = "too_many"
    TOO_SLOW = "too_slow"
    RELAY_ENDED = "relay_ended"
    FAILED = "failed"


class Counts:
    """Counts what goes through a relay, in the thread of its loop alone."""

    def __init__(self) -> None:
        """Begins at nothing, with each cause of a reset shown as 0."""
        self.requests = Counter("pequod_requests_total", "Lines that clients sent, by how they begin.", ("kind",))
        self.refusals = Counter("pequod_refusals_total", "Replies that refuse, by the name of the refusal.", ("name",))
        self.latency = Histogram(
            "pequod_latency_seconds", "From the moment a line went on to the server until its reply had come.", SECONDS
        )
        self.resets = Counter("pequod_clients_reset_total", "Connections of clients that the relay reset, by cause.", ("cause",))
        self.links_lost = Counter("pequod_links_lost_total", "Links to the server that were lost while they served.")
        self._clients = Gauge("pequod_clients", "Connections of clients that are open.")
        self._waiting = Gauge("pequod_waiting_reply_bytes", "Bytes of replies that wait for clients that read slowly.")
        self._links = Gauge("pequod_links", "Links to the server that serve.")
        self._position = Gauge("pequod_position", "The greatest position that was told over the links that serve.")
        for cause in Cause:
            self.resets.add(0, cause.value)

    def note_refusals(self, replies: bytes, start: int) -> None:
        """Counts the refusals among whole replies, from the line that begins at `start` on. Where there is none, it costs one
        search for their first bytes."""
        if replies.find(REFUSAL_HEAD, start) != -1:
            for found in REFUSAL.finditer(replies, start):
                self.refusals.add(1, found.group(1).decode())

    def text(self, clients: int, waiting: int, links: int, position: int) -> str:
        """Gives the text of all of it, with how things are now."""
        self._clients.set(clients)
        self._waiting.set(waiting)
        self._links.set(links)
        if links:
            self._position.set(position)
        else:
            self._position.clear()
        return page([
            self.requests, self.refusals, self.latency, self._clients, self.resets, self._waiting,
            self._links, self.links_lost, self._position,
        ])
