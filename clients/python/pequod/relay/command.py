"""`python3 -m pequod relay`: its words, and how it runs until it is ended."""

from __future__ import annotations

import argparse
import asyncio
import signal
import ssl
import sys
from typing import NamedTuple, Optional, Sequence

from ..exposition import Listener
from .hub import Address, Bounds, Relay

__all__ = ["run"]

ENDED, NO_FILES, NO_ADDRESS, NO_CERTIFICATES = 0, 6, 8, 9
MOST_LINKS = 64
OTHER_FILES = 32
"""How many files it has open beside those of its clients and links, at most."""
METRICS_HOST = "127.0.0.1"
METRICS_SECONDS = 5.0
MEGABYTE = 1 << 20
FILES = {
    "cert": "the certificate that is shown to clients", "key": "its key", "ca": "the authority of clients' certificates",
    "server-cert": "the certificate that is shown to a relay in the server's place", "server-key": "its key",
    "server-ca": "the authority of that relay's certificate",
}
EPILOG = """\
Each link holds a worker of the server, and clients that connect to the server itself hold further ones: give it as many --workers.
With --cert, --key and --ca clients speak TLS 1.3 and show a certificate that the authority signed. Whoever has one may do
everything. With --server-cert, --server-key and --server-ca the relay is such a client itself, of another relay. Status 0: a signal ended it. 2: the words. 6: the system gives too few files. 8: an address cannot be had. 9: the
certificates cannot be used.
"""


def run(words: Sequence[str]) -> int:
    """Does what the words say until a signal ends it, and gives the status."""
    options = _options(words)
    try:
        tls = _TLS(_tls_of_clients(options), _tls_of_server(options))
    except (OSError, ValueError) as error:
        return _fail(NO_CERTIFICATES, f"the certificates cannot be used: {error}")
    bounds = Bounds(clients=options.clients, held=options.held * MEGABYTE, held_by_all=max(4, options.held) * 4 * MEGABYTE)
    files = bounds.clients + options.links + OTHER_FILES
    given = _raise_files(files)
    if given < files:
        return _fail(NO_FILES, f"--clients {bounds.clients} wants {files} open files, and the system gives {given}")
    return asyncio.run(_serve(options, bounds, tls))


async def _serve(options: argparse.Namespace, bounds: Bounds, tls: _TLS) -> int:
    """Relays until a signal comes."""
    loop, ended = asyncio.get_running_loop(), asyncio.Event()
    for number in signal.SIGTERM, signal.SIGINT:
        loop.add_signal_handler(number, ended.set)
    relay = Relay(options.server, options.links, bounds, tls.server)
    listener = None
    try:
        await relay.start(options.listen, tls.clients)
        if options.metrics is not None:
            listener = Listener(METRICS_HOST, options.metrics, lambda: _text_of(relay, loop))
    except OSError as error:
        await relay.close()
        return _fail(NO_ADDRESS, f"an address for clients or --metrics cannot be had: {error}")
    await ended.wait()
    await relay.close()
    if listener is not None:
        await loop.run_in_executor(None, listener.close)
    return ENDED


def _text_of(relay: Relay, loop: asyncio.AbstractEventLoop) -> str:
    """Has the loop make the text, since it counts meanwhile."""

    async def text() -> str:
        return relay.text()

    return asyncio.run_coroutine_threadsafe(text(), loop).result(METRICS_SECONDS)


def _options(words: Sequence[str]) -> argparse.Namespace:
    parser = argparse.ArgumentParser(
        prog="python3 -m pequod relay", description="Relays any number of clients over a few links to a server.", epilog=EPILOG
    )
    parser.add_argument("listen", type=_address, metavar="LISTEN", help="HOST:PORT at which clients connect")
    parser.add_argument("--server", type=_address, required=True, metavar="HOST:PORT", help="where the server is")
    parser.add_argument("--links", type=_number(1, MOST_LINKS), default=2, metavar="N", help="links to the server; 2 unless given")
    parser.add_argument(
        "--clients", type=_number(1, 1_000_000), default=Bounds.clients, metavar="N",
        help="connections of clients at one time; 1000 unless given. Further ones are reset",
    )
    parser.add_argument(
        "--held", type=_number(1, 1_000_000), default=Bounds.held // MEGABYTE, metavar="MEGABYTES",
        help="replies that wait for a client, beyond which it is reset; 64 unless given, and of all clients four times as much",
    )
    parser.add_argument("--metrics", type=_number(0, 65_535), metavar="PORT", help="for Prometheus, at 127.0.0.1")
    for name, what in FILES.items():
        parser.add_argument(f"--{name}", metavar="FILE", help=f"{what}, in PEM form")
    options = parser.parse_args(words)
    for prefix in "", "server_":
        given = {getattr(options, prefix + name) is None for name in ("cert", "key", "ca")}
        if len(given) > 1:
            names = [f"--{prefix}{name}".replace("_", "-") for name in ("cert", "key", "ca")]
            parser.error(f"{names[0]}, {names[1]} and {names[2]} are given together, or none of them")
    return options


def _address(text: str) -> Address:
    host, _, port = text.rpartition(":")
    if not host or not (port.isascii() and port.isdigit()) or int(port) > 65_535:
        raise argparse.ArgumentTypeError(f"{text!r} is no HOST:PORT")
    return host.strip("[]"), int(port)


class _TLS(NamedTuple):
    """What clients speak, and what the server speaks; None for no TLS."""

    clients: Optional[ssl.SSLContext]
    server: Optional[ssl.SSLContext]


class _number:
    """Reads a whole number within limits."""

    def __init__(self, least: int, most: int) -> None:
        self._least, self._most = least, most

    def __call__(self, text: str) -> int:
        if not (text.isascii() and text.isdigit()) or not self._least <= int(text) <= self._most:
            raise argparse.ArgumentTypeError(f"{text!r} is no number from {self._least} to {self._most}")
        return int(text)


def _tls_of_clients(options: argparse.Namespace) -> Optional[ssl.SSLContext]:
    """Gives TLS 1.3 that wants a certificate of each client, or None where no certificate was given."""
    if options.cert is None:
        return None
    context = ssl.create_default_context(ssl.Purpose.CLIENT_AUTH, cafile=options.ca)
    context.minimum_version = ssl.TLSVersion.TLSv1_3
    context.verify_mode = ssl.CERT_REQUIRED
    context.load_cert_chain(options.cert, options.key)
    return context


def _tls_of_server(options: argparse.Namespace) -> Optional[ssl.SSLContext]:
    """Gives TLS 1.3 that shows a certificate and wants one for the host's name, or None where no certificate was given."""
    if options.server_cert is None:
        return None
    context = ssl.create_default_context(ssl.Purpose.SERVER_AUTH, cafile=options.server_ca)
    context.minimum_version = ssl.TLSVersion.TLSv1_3
    context.load_cert_chain(options.server_cert, options.server_key)
    return context


def _raise_files(wanted: int) -> int:
    """Has the system give the process so many open files, as far as it may, and gives how many these are."""
    try:
        import resource
    except ImportError:
        return wanted
    soft, hard = resource.getrlimit(resource.RLIMIT_NOFILE)
    if soft == resource.RLIM_INFINITY or soft >= wanted:
        return wanted
    most = wanted if hard == resource.RLIM_INFINITY else min(wanted, hard)
    resource.setrlimit(resource.RLIMIT_NOFILE, (most, hard))
    return most


def _fail(status: int, text: str) -> int:
    print(f"pequod relay: {text}", file=sys.stderr)
    return status
