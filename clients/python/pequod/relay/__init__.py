"""A relay: any number of connections of clients over a few of the server's, of which each holds one of its workers.

    python3 -m pequod relay 127.0.0.1:7100 --server 127.0.0.1:7000 --links 2

A client is bound to one link for as long as its connection lasts, and its lines go on in order. So it is promised what a connection
of its own is promised, but that the clients of one link share its number: positions do not fall, its own writes are seen, and each
write that is acknowledged to it stands once. That was tested, and nothing of it is proved.

What is dangerous here: whatever ends a link ends the connections of all that are bound to it. So no line may reach the server that
ends a link (`lines`), replies have to be taken off a link whether or not they are read (`client_link`), and each reply has to go to
the one whose turn it is (`server_link`). `hub` has the links and the bounds, `counts` what Prometheus reads, `command` the words.
"""

from .hub import Address, Bounds, Relay

__all__ = ["Address", "Bounds", "Relay"]
