"""Tries haproxy.cfg and stunnel.conf between a client and a server, with certificates of its own. It wants haproxy, stunnel and
openssl, as Debian has them, and is skipped where they are not: PEQUOD=/path/of/pequod python3 -m unittest test_tls"""

import os
import pathlib
import shutil
import socket
import ssl
import subprocess
import sys
import tempfile
import time
import unittest

FOLDER = pathlib.Path(__file__).resolve().parent
sys.path[:0] = [str(FOLDER.parent.parent / "clients" / "python")]
import pequod  # noqa: E402
from serving import HOST, Server, free_port, want_program as setUpModule  # noqa: E402, F401

PATH = os.pathsep.join((os.environ.get("PATH", ""), "/usr/sbin"))
HAPROXY, STUNNEL, OPENSSL = (shutil.which(name, path=PATH) for name in ("haproxy", "stunnel", "openssl"))
ASK = b'["get","k|a"]\n'


@unittest.skipUnless(HAPROXY and STUNNEL and OPENSSL, "haproxy, stunnel and openssl are not all here")
class Tls(unittest.TestCase):
    """haproxy before a server with two workers, one of them for the check."""

    def setUp(self):
        folder = tempfile.TemporaryDirectory()
        self.addCleanup(folder.cleanup)
        self.folder = pathlib.Path(folder.name)
        self.make_certificate("authority", "-x509")
        for name in "cache.example", "application":
            self.make_certificate(name, "-CA", "authority.crt", "-CAkey", "authority.key", "-x509")
            self.path(f"{name}.pem").write_text(self.path(f"{name}.crt").read_text() + self.path(f"{name}.key").read_text())
        self.make_certificate("stranger", "-x509")
        self.server = Server("--workers", "2")
        self.addCleanup(self.server.stop)
        self.port = free_port()
        self.run_haproxy()

    def path(self, name):
        return self.folder / name

    def make_certificate(self, name, *words):
        """A key and a certificate, signed by itself or by the authority that the words name."""
        asked = ("req", "-newkey", "ec", "-pkeyopt", "ec_paramgen_curve:prime256v1", "-nodes", "-subj", f"/CN={name}")
        files = ("-addext", f"subjectAltName=DNS:{name}", "-keyout", f"{name}.key", "-out", f"{name}.crt")
        subprocess.run([OPENSSL, *asked, *files, *words], cwd=self.folder, check=True, capture_output=True)

    def configure(self, name, changes):
        """A file of this folder with other paths, ports and times."""
        text = (FOLDER / name).read_text(encoding="utf-8")
        for old, new in changes:
            self.assertIn(old, text)
            text = text.replace(old, str(new))
        self.path(name).write_text(text, encoding="utf-8")
        return self.path(name)

    def start(self, *words):
        process = subprocess.Popen(words, stderr=subprocess.DEVNULL, stdout=subprocess.DEVNULL)
        self.addCleanup(process.wait)
        self.addCleanup(process.terminate)

    def run_haproxy(self):
        file = self.configure(
            "haproxy.cfg",
            [
                ("0.0.0.0:7443", f"{HOST}:{self.port}"),
                ("127.0.0.1:7000", f"{HOST}:{self.server.port}"),
                ("/etc/haproxy/pequod.pem", self.path("cache.example.pem")),
                ("/etc/haproxy/clients.pem", self.path("authority.crt")),
                ("timeout client 60s", "timeout client 2s"),
                ("timeout server 60s", "timeout server 2s"),
                ("inter 2s", "inter 100ms"),
                ("maxconn 15", "maxconn 1"),
            ],
        )
        subprocess.run([HAPROXY, "-c", "-f", str(file)], check=True, capture_output=True)
        self.start(HAPROXY, "-f", str(file))
        self.wait_for(self.port)

    def wait_for(self, port):
        end = time.monotonic() + 20
        while True:
            try:
                return socket.create_connection((HOST, port), 1).close()
            except OSError:
                self.assertLess(time.monotonic(), end)
                time.sleep(0.05)

    def ask(self, certificate=None):
        """The reply to a get over TLS, with nothing where the link ends before."""
        context = ssl.create_default_context(cafile=str(self.path("authority.crt")))
        if certificate:
            context.load_cert_chain(self.path(f"{certificate}.crt"), self.path(f"{certificate}.key"))
        try:
            with socket.create_connection((HOST, self.port), 10) as plain:
                with context.wrap_socket(plain, server_hostname="cache.example") as link:
                    link.sendall(ASK)
                    return link.recv(100)
        except (ssl.SSLError, ConnectionError):
            return b""

    def is_refused_at_once(self):
        """Whether a request ends without a reply before a silent server would have ended it."""
        begun = time.monotonic()
        return self.ask("application") == b"" and time.monotonic() - begun < 1

    def test_a_certificate_is_asked_for(self):
        self.assertEqual(self.ask("application"), b'["none",0]\n')
        self.assertEqual(self.ask("stranger"), b"")
        self.assertEqual(self.ask(), b"")

    def test_a_client_goes_through_stunnel(self):
        port = free_port()
        file = self.configure(
            "stunnel.conf",
            [
                ("127.0.0.1:7000", f"{HOST}:{port}"),
                ("connect = cache.example:7443", f"connect = {HOST}:{self.port}"),
                ("/etc/stunnel/application.pem", self.path("application.pem")),
                ("/etc/stunnel/cache.pem", self.path("authority.crt")),
            ],
        )
        self.start(STUNNEL, str(file))
        self.wait_for(port)
        with pequod.connect(HOST, port) as client:
            self.assertEqual(client.put("k|a", "Hi").position, 1)
            self.assertEqual(client.get("k|a").value, "Hi")

    def test_a_silent_connection_frees_its_worker(self):
        """The one place is held by a client that asks nothing more; the next one waits for it at haproxy."""
        context = ssl.create_default_context(cafile=str(self.path("authority.crt")))
        context.load_cert_chain(self.path("application.crt"), self.path("application.key"))
        with socket.create_connection((HOST, self.port), 10) as plain:
            with context.wrap_socket(plain, server_hostname="cache.example") as silent:
                silent.sendall(ASK)
                self.assertEqual(silent.recv(100), b'["none",0]\n')
                self.assertEqual(self.ask("application"), b'["none",0]\n')
                self.assertEqual(silent.recv(100), b"")

    def test_a_server_that_does_not_answer_gets_no_connection(self):
        self.assertEqual(self.ask("application"), b'["none",0]\n')
        held = [self.server.connect() for _ in range(2)]
        for client in held:
            client.get("k|a")
        # Both workers are taken, so the check is not answered, and then a connection is not even handed on: it ends at once.
        end = time.monotonic() + 30
        self.assertTrue(any(self.is_refused_at_once() for _ in iter(lambda: time.monotonic() < end, False)))
        for client in held:
            client.close()
        while not self.ask("application") and time.monotonic() < end:
            time.sleep(0.1)
        self.assertEqual(self.ask("application"), b'["none",0]\n')


if __name__ == "__main__":
    unittest.main()
