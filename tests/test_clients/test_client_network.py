"""The Python client over TLS and TCP: what it receives, how it ends, and what it says of certificates."""

import asyncio
import os
import socket
import ssl
import threading
from contextlib import suppress
from unittest import mock

import metad
from metad import aio

from tests.support.lines import text_of

from .certificates import Authority
from .fronts import PATIENCE, Client
from .networked import ANY_PORT, NetworkCases, port_of

THREADS, EACH = 8, 300
TEXT = "n" * 4_000


class OverTls(NetworkCases):
    """Clients over TLS."""

    def tls(self, name="anna", authority=None):
        """The files of a client: whom it trusts, and its certificate."""
        certificate, key = (authority or self.authority).client(name)
        return metad.Tls(ca=self.authority.certificate, certificate=certificate, key=key)

    def test_session(self):
        """A client with a certificate has a live session, and hears another one over the socket."""
        with self.tls_front(clients=self.authority) as (port, path, process):
            with metad.connect(f"tls://localhost:{port}", tls=self.tls()) as far, metad.connect(path) as near:
                host, guest = near.session("host"), far.session("guest")
                cell, ear = host.new("Cell"), guest.new("Cell")
                host.publish(cell, "xChanged(int)", "level")
                guest.join(host.known_as, "level", ["int"], ear, "seen(int)")
                self.assertIs(far.is_live, True)
                host.set(cell, "x", 7)
                call = next(guest.calls(timeout=PATIENCE))
                self.assertEqual((call.method, call.args), ("seen(int)", [7]), "what it hears")
                self.assertEqual(host.known_as, "c2", "each connection is a client")
            self.said_of(process, "c1 has come over TLS from .* as CN=anna")

    def test_threads(self):
        """Threads that write and read at once, lines and answers that are long, and answers to all that was given before the end."""
        faults = []

        def work(session, number):
            try:
                for at in range(EACH):
                    session.set(number, "objectName", f"{TEXT}{at}")
                    if session.get(number, "objectName") != f"{TEXT}{at}":
                        raise AssertionError(f"an answer to {number}")
            except BaseException as fault:
                faults.append(fault)

        with self.tls_front() as (port, _, _):
            with metad.connect(f"tls://localhost:{port}", tls=metad.Tls(ca=self.authority.certificate)) as client:
                session = client.session("one")
                threads = [threading.Thread(target=work, args=(session, session.new("Probe"))) for _ in range(THREADS)]
                for thread in threads:
                    thread.start()
                for thread in threads:
                    thread.join(PATIENCE)
                self.assertEqual((faults, [it for it in threads if it.is_alive()]), ([], []))
                last = [session.send("new", **{"class": "Probe"}) for _ in range(2_000)]
            self.assertEqual([it.result() for it in last], list(range(THREADS + 1, THREADS + 2_001)), "what was given before the end")

    def test_aio(self):
        """The client for asyncio, and a connection that is given up within its handshake."""

        async def asked(port):
            async with await aio.connect(f"tls://localhost:{port}", tls=self.tls()) as client:
                return await client.session("one").new("Probe")

        async def given_up(port):
            await asyncio.wait_for(aio.connect(f"tls://127.0.0.1:{port}", tls=self.tls()), 0.2)

        with self.tls_front(clients=self.authority) as (port, _, _):
            self.assertEqual(asyncio.run(asked(port)), 1)
        with socket.create_server(("127.0.0.1", 0)) as silent:
            with self.assertRaises((asyncio.TimeoutError, TimeoutError)):
                asyncio.run(given_up(silent.getsockname()[1]))

    def test_refused(self):
        """Whose certificate is not accepted learns it when it connects; so does one that does not accept the front's."""
        stranger = Authority(self.room, "stranger")
        with self.tls_front(clients=self.authority) as (port, path, _):
            place = f"tls://localhost:{port}"
            alone = metad.Tls(ca=self.authority.certificate)
            self.assertIn("certificate required", str(self.raised("no certificate", ssl.SSLError, metad.connect, place, tls=alone)))
            self.raised("one of another CA", ssl.SSLError, metad.connect, place, tls=self.tls("eve", stranger))
            self.raised("no trust", ssl.SSLCertVerificationError, metad.connect, place, tls=metad.Tls(ca=stranger.certificate))
            wrong = metad.Tls(ca=self.authority.certificate, name="elsewhere")
            self.raised("another name", ssl.SSLCertVerificationError, metad.connect, place, tls=wrong)
            missing = metad.Tls(ca="nowhere.pem")
            self.raised("a file that is not there", FileNotFoundError, metad.connect, place, tls=missing)
            with Client(path) as client:
                self.assertEqual(client.name(), "c1", "nobody was let in before")

    def test_monitor(self):
        """A monitor reads lines over TLS, from whatever passes on those of a front, up to their end."""
        told = [{"reply": 1, "session": "one"}, {"reply": TEXT, "session": "two"}]
        context = ssl.SSLContext(ssl.PROTOCOL_TLS_SERVER)
        context.load_cert_chain(*self.authority.server())

        def write():
            with listener.accept()[0] as link, context.wrap_socket(link, server_side=True) as sealed:
                sealed.sendall("".join(f"{text_of(it)}\n" for it in told).encode())
                with suppress(OSError):  # the client closes without TLS's own answer to the end
                    sealed.unwrap()

        with socket.create_server(("127.0.0.1", 0)) as listener:
            listener.settimeout(PATIENCE)
            thread = threading.Thread(target=write, daemon=True)
            thread.start()
            with mock.patch.dict(os.environ, SSL_CERT_FILE=str(self.authority.certificate)):
                with metad.monitor(f"tls://localhost:{listener.getsockname()[1]}") as monitor:
                    self.assertEqual(list(monitor), told)
            thread.join(PATIENCE)

    def test_cut(self):
        """A front that ends cuts connections, and commands raise that at once."""
        with self.tls_front() as (port, _, process):
            client = metad.connect(f"tls://localhost:{port}", tls=metad.Tls(ca=self.authority.certificate))
            session = client.session("one")
            self.assertEqual(session.new("Probe"), 1)
            process.terminate()
            process.wait(PATIENCE)
            self.raised("a command to nobody", metad.ConnectionClosed, session.new, "Probe")
            client.close()


class OverTcp(NetworkCases):
    """Clients over TCP, and addresses."""

    def test_tcp(self):
        """A client over TCP, and what is no address."""
        with self.front(options=("--tcp", ANY_PORT)) as (_, process):
            with metad.connect(f"tcp://127.0.0.1:{port_of(process.log, 'TCP')}") as client:
                self.assertEqual(client.session("one").new("Probe"), 1)
        with socket.socket() as taken:  # by nobody who listens, and so by nobody else
            taken.bind(("127.0.0.1", 0))
            place = f"tls://127.0.0.1:{taken.getsockname()[1]}"
            refused = self.raised("nobody listens", ConnectionRefusedError, metad.connect, place)
        self.assertIn("is a front running that listens there?", str(refused))
        for place in ("tls://localhost", "tcp://:1", "tls://host:port", "tls://[::1:5"):
            self.assertIn("HOST:PORT", str(self.raised(place, ValueError, metad.connect, place)))
        self.raised("TLS where it is not spoken", ValueError, metad.connect, "tcp://localhost:1", tls=metad.Tls())
