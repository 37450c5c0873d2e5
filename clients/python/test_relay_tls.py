"""Tests of the relay over TLS: PEQUOD=path/of/the/built/program python3 -m unittest test_relay_tls. Certificates are made by the
program `openssl`, and without it all but the words are skipped."""

import contextlib
import os
import pathlib
import shutil
import socket
import ssl
import subprocess
import tempfile
import unittest
import warnings

import pequod
from relaying import PATIENCE, Relay, clean_end, connected, talk, wait_for
from serving import HOST, Server, want_program

GET = b'["get","a|1"]\n'
STREAM = b'["put","a|1","x"]\n' + GET + b'["scan","a|","a}"]\n["quit"]\n' + GET * 200
ANSWERS = b'["ok",1]\n["value",1,"x"]\n["pairs",1,[["a|1","x"]]]\n["bye"]\n'


def setUpModule():
    want_program()
    if shutil.which("openssl") is None:
        raise unittest.SkipTest("there is no openssl to make certificates with")


def make_certificates(folder):
    """Two authorities, with the relay's certificate and a client's by the first, and a client's by the second. All have a key of
    their own, and end a day later."""

    def openssl(*words):
        subprocess.run(["openssl", *words], cwd=folder, check=True, capture_output=True)

    def key(name):
        return "-newkey", "ec", "-pkeyopt", "ec_paramgen_curve:prime256v1", "-nodes", "-keyout", f"{name}.key"

    for authority in "ca", "other_ca":
        openssl(
            "req", "-x509", *key(authority), "-out", f"{authority}.pem", "-days", "1", "-subj", f"/CN={authority}",
            "-addext", "keyUsage=critical,keyCertSign,cRLSign",
        )
    pathlib.Path(folder, "names").write_text(
        "subjectAltName=DNS:localhost,IP:127.0.0.1\nauthorityKeyIdentifier=keyid\nsubjectKeyIdentifier=hash\n", encoding="ascii"
    )
    for name, authority in ("relay", "ca"), ("client", "ca"), ("stranger", "other_ca"):
        openssl("req", *key(name), "-out", f"{name}.csr", "-subj", f"/CN={name}")
        openssl(
            "x509", "-req", "-in", f"{name}.csr", "-CA", f"{authority}.pem", "-CAkey", f"{authority}.key", "-CAcreateserial",
            "-out", f"{name}.pem", "-days", "1", "-extfile", "names",
        )


class Certificates(unittest.TestCase):
    maxDiff = None

    @classmethod
    def setUpClass(cls):
        folder = tempfile.TemporaryDirectory()
        cls.addClassCleanup(folder.cleanup)
        cls.folder = folder.name
        make_certificates(cls.folder)

    def file(self, name):
        return str(pathlib.Path(self.folder, name))

    def setUp(self):
        self.server = Server("--workers", "4")
        self.addCleanup(self.server.stop)
        self.relay = Relay(
            self.server.port, "--cert", self.file("relay.pem"), "--key", self.file("relay.key"), "--ca", self.file("ca.pem")
        )
        self.addCleanup(clean_end, self, self.relay)

    def context(self, certificate="client", authority="ca"):
        context = ssl.create_default_context(cafile=self.file(f"{authority}.pem"))
        if certificate is not None:
            context.load_cert_chain(self.file(f"{certificate}.pem"), self.file(f"{certificate}.key"))
        return context

    def connect(self, context=None):
        link = socket.create_connection((HOST, self.relay.port), PATIENCE)
        self.addCleanup(link.close)
        if context is not None:
            link = context.wrap_socket(link, server_hostname="localhost")
            self.addCleanup(link.close)
        return link

    def answered(self, context, stream=STREAM):
        """All that comes back, and whether an error ended it."""
        came = b""
        try:
            link = self.connect(context)
            link.sendall(stream)
            while True:
                piece = link.recv(1 << 16)
                if not piece:
                    return came, False
                came += piece
        except OSError:
            return came, True

    def test_with_a_certificate(self):
        link = self.connect(self.context())
        self.assertEqual(link.version(), "TLSv1.3")
        link.close()
        self.assertEqual(self.answered(self.context()), (ANSWERS, False))
        self.assertTrue(wait_for(lambda: self.relay.counted("pequod_clients") == 0))

    def test_a_relay_before_the_relay(self):
        """Clients that speak no TLS, by a relay beside them that does."""
        from test_relay_streams import STREAMS
        words = [word for name, file in (("cert", "client.pem"), ("key", "client.key"), ("ca", "ca.pem"))
                 for word in (f"--server-{name}", self.file(file))]
        near, alone = Relay(self.relay.port, *words), Server("--workers", "4")
        self.addCleanup(clean_end, self, near)
        self.addCleanup(alone.stop)
        for name, stream in STREAMS:
            with self.subTest(name):
                wanted, is_reset = talk(connected(alone.port), stream)
                came, _ = talk(connected(near.port), stream)
                self.assertEqual(came[:len(wanted)] if is_reset else came, wanted)
        for relay in near, self.relay:
            self.assertEqual(relay.counted("pequod_links_lost_total"), 0)
        with near.connect() as client:
            client.put("k|a", "x")
            self.server.restart()
            with self.assertRaises(pequod.LinkLost):
                client.get("k|a")
            self.assertTrue(wait_for(lambda: self.relay.is_anew(2) and near.is_anew(2)))
            with self.assertRaises(pequod.Restarted):
                client.reconnect()

    def test_many_lines_and_long_replies(self):
        link = self.connect(self.context())
        with link.makefile("rwb") as file:
            for number in range(100):
                file.write(b'["put","big|%03d","%s"]\n' % (number, b"v" * 60_000))
            file.flush()
            self.assertEqual([file.readline() for _ in range(100)], [b'["ok",%d]\n' % number for number in range(1, 101)])
            file.write(b'["scan","big|","big}"]\n' + GET)
            file.flush()
            self.assertGreater(len(file.readline()), 6_000_000)
            self.assertEqual(file.readline(), b'["none",100]\n')

    def test_who_has_no_answer(self):
        with warnings.catch_warnings():
            warnings.simplefilter("ignore", DeprecationWarning)
            old = self.context()
            old.maximum_version = ssl.TLSVersion.TLSv1_2
        rows = (
            ("no certificate", self.context(None)),
            ("one that another authority signed", self.context("stranger")),
            ("an older TLS", old),
            ("no TLS", None),
        )
        for name, context in rows:
            with self.subTest(name):
                self.assertEqual(self.answered(context)[0], b"")
        self.assertEqual(self.answered(self.context()), (ANSWERS, False))
        counts = self.relay.counts()
        self.assertEqual(counts['pequod_requests_total{kind="put"}'], 1)
        self.assertEqual(counts["pequod_links_lost_total"], 0)

    def test_a_relay_that_is_none(self):
        with self.assertRaises(ssl.SSLCertVerificationError):
            self.connect(self.context(authority="other_ca"))

    def test_clients_that_leave(self):
        stays = self.connect(self.context())
        for lines in b"", b'["put","k|a"', GET * 500, b'["scan","k|","k}"]\n' * 20:
            with self.subTest(lines[:20]):
                left = self.connect(self.context())
                left.sendall(lines)
                with contextlib.suppress(OSError):
                    left.settimeout(1)
                    left.unwrap()
                left.close()
                stays.sendall(GET)
                self.assertEqual(stays.recv(100), b'["none",0]\n')
        self.assertTrue(wait_for(lambda: self.relay.counted("pequod_clients") == 1))
        self.assertEqual(self.relay.counted("pequod_links_lost_total"), 0)

    def test_a_server_that_is_gone(self):
        link = self.connect(self.context())
        link.sendall(GET)
        self.assertEqual(link.recv(100), b'["none",0]\n')
        self.server.end()
        # Seen beneath TLS: some versions of `ssl` take a reset for an end.
        with socket.socket(fileno=os.dup(link.fileno())) as beneath, self.assertRaises(ConnectionResetError):
            beneath.settimeout(PATIENCE)
            beneath.recv(100)
        self.server.start()


if __name__ == "__main__":
    unittest.main()
