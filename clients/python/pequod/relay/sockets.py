"""What the relay sets on the sockets of its connections."""

from __future__ import annotations

import asyncio
import socket
import struct

__all__ = ["has_ended", "keep_alive", "reset_on_close"]

PROBES = (("TCP_KEEPIDLE", 30), ("TCP_KEEPINTVL", 10), ("TCP_KEEPCNT", 3))
NO_LINGERING = struct.pack("ii", 1, 0)


def keep_alive(transport: asyncio.BaseTransport) -> None:
    """Has the system look after half a minute of silence whether the other machine is still there, and end the connection half a
    minute later where it is not."""
    link = transport.get_extra_info("socket")
    link.setsockopt(socket.SOL_SOCKET, socket.SO_KEEPALIVE, 1)
    for name, value in PROBES:
        option = getattr(socket, name, None)
        if option is not None:
            link.setsockopt(socket.IPPROTO_TCP, option, value)


def has_ended(transport: asyncio.BaseTransport) -> bool:
    """Whether there is no socket beneath it any more."""
    return transport.get_extra_info("socket") is None


def reset_on_close(transport: asyncio.BaseTransport) -> None:
    """Has the end of the connection be a reset, which the other side cannot take for an orderly end. What waits to be sent is
    thrown away."""
    transport.get_extra_info("socket").setsockopt(socket.SOL_SOCKET, socket.SO_LINGER, NO_LINGERING)
