"""Clients of a front over TLS, and over TCP on the same machine: their sessions, their certificates, and handshakes that fail.

What clients have to receive is what a client of the Unix-domain socket receives, and what docs/PROTOCOL.md says.
"""

import json
import os
import re
import signal
import socket
import ssl
import subprocess
import time
from pathlib import Path

from tests.support.closing import give, rest_of
from tests.support.documents import BLOCK, WEB_PAGE
from tests.support.pages import check_page

from .certificates import Authority, openssl, subject_of
from .fronts import FRONT, NEW, PATIENCE, STATUS, Client, error, front_help, reply
from .networked import ANY_PORT, HERE, NetworkCases, NetworkClient, context_of, port_of
from .stand_servers import wait_until_true
from .test_front_logs import LogCases

HANDSHAKE_SECONDS = 10
VERSIONS = (ssl.TLSVersion.TLSv1_2, ssl.TLSVersion.TLSv1_3)
LINE_MOST = 65_536
CROWD = 30  # certificates, between which there are 427,518,000 ways of six
CONSOLE = re.compile(rf"^```console\n{BLOCK}```$", re.MULTILINE)
TWISTED = "/O=Example, Limited/OU=Desk+UID=7/CN=Zo\u00eb <z>"  # a subject with signs that are escaped


class Sessions(NetworkCases):
    """What a client receives does not depend on how it has come."""

    def test_versions(self):
        """Clients of TLS 1.2 and of 1.3, and one of the Unix-domain socket, have a session each, and join each other."""
        publish = '{"do":"publish","name":"level","object":1,"signal":"xChanged(int)"}'
        with self.tls_front() as (port, path, process), Client(path) as local:
            name = json.loads(local.ask('{"class":"Cell","do":"new"}'))["session"]
            self.assertEqual(local.ask(publish), reply(True, name), "a publication")
            for number, version in enumerate(VERSIONS, 1):
                with NetworkClient(port, context_of(self.authority, least=version, most=version)) as client:
                    self.assertEqual(client.link.version().replace("v1.", "v1_"), version.name, "the version")
                    own = json.loads(client.ask('{"class":"Cell","do":"new"}'))["session"]
                    self.assertNotEqual(own, name, "its session")
                    join = {"do": "join", "from": name, "method": "seen(int)", "name": "level", "object": 1, "types": ["int"]}
                    self.assertEqual(client.ask(json.dumps(join)), reply(True, own), "a join")
                    local.ask('{"do":"set","object":1,"property":"x","value":%d}' % number)
                    client.say('{"do":"spin"}')
                    self.assertEqual(json.loads(client.hear())["args"], [number], "what it receives")
                    client.hear()
            self.assertRegex(self.said_of(process, "over TLS"), r"c2 has come over TLS from 127\.0\.0\.1:\d+$")

    def test_long_lines(self):
        """The longest line, one that is too long, lines cut anywhere, and more answers than a client reads at once."""
        with self.tls_front() as (port, _, _), NetworkClient(port, context_of(self.authority)) as client:
            name = client.name()
            line = NEW[:-1].ljust(LINE_MOST - len(f',"session":"{name}"') - 1) + "}"
            self.assertEqual(client.ask(line), reply(1, name), "the longest line")
            self.assertEqual(client.ask(line[:-1] + " }"), error("E01", "-"), "a line that is longer")
            for byte in f"{NEW}\n".encode():
                client.link.sendall(bytes([byte]))
            self.assertEqual(client.hear(), reply(2, name), "a line byte by byte")
            value = "n" * 4_096
            client.say('{"do":"set","object":1,"property":"objectName","value":"%s"}' % value)
            self.assertEqual(client.hear(), reply(True, name))
            client.say(*['{"do":"get","object":1,"property":"objectName"}'] * 1_000)
            self.assertEqual({client.hear() for _ in range(1_000)}, {reply(value, name)}, "4 MiB of answers")

    def test_closed_side(self):
        """A client that closes its sending side still gets all answers, and then the end."""
        with self.tls_front() as (port, _, _), NetworkClient(port, context_of(self.authority)) as client:
            client.say(*[NEW] * 500)
            socket.socket.shutdown(client.link, socket.SHUT_WR)  # that of the connection below, and TLS can still be read
            told = [json.loads(line)["reply"] for line in client.reader.read().decode().splitlines()]
            self.assertEqual(told, list(range(1, 501)), "the answers")

    def test_refused_first_line(self):
        """The refusal of a first line arrives, though more lines were sent after it."""
        asked = '{"front":"share","session":"team"}'
        with self.tls_front() as (port, _, _):
            for _ in range(20):
                with NetworkClient(port, context_of(self.authority)) as client:
                    client.offer(asked, *[STATUS] * 2_000)
                    self.assertEqual(client.told(), [error("F02", "-")])

    def test_unread(self):
        """A client that does not read is disconnected at 16 MiB, and keeps nobody waiting."""
        with self.tls_front() as (port, path, process), NetworkClient(port, context_of(self.authority)) as client:
            client.ask(NEW)
            client.ask('{"do":"set","object":1,"property":"objectName","value":"%s"}' % ("n" * 4_096))
            client.link.settimeout(1)
            sent = 0
            try:
                while sent < 64 * 1024 * 1024:
                    sent += client.link.send(b'{"do":"get","object":1,"property":"objectName"}\n' * 200)
            except (OSError, ssl.SSLError):
                pass
            self.assertLess(sent, 32 * 1024 * 1024, "what a client could write that reads nothing")
            with Client(path) as other:
                self.assertEqual(json.loads(other.ask(NEW))["reply"], 1, "another client")

    def test_clear(self):
        """A client over TCP on the same machine; its session is reset when it leaves."""
        with self.front(options=("--tcp", ANY_PORT)) as (path, process):
            port = port_of(process.log, "TCP")
            with NetworkClient(port) as client, Client(path) as other:
                self.assertEqual(json.loads(client.ask(NEW))["reply"], 1)
                self.assertEqual(json.loads(other.ask(NEW))["reply"], 1)
                client.say(NEW)
                self.assertEqual([json.loads(line)["reply"] for line in client.rest()], [2], "what comes after its last line")
            self.assertRegex(self.said_of(process, "over TCP"), r"c1 has come over TCP from 127\.0\.0\.1:\d+$")
            self.said_of(process, "^metad-front: c1 has gone$")


class Page(NetworkCases):
    """The page of clients over the network."""

    def test_page(self):
        """Its commands make certificates, by which its program is let in with the name that the page says."""
        text = WEB_PAGE.read_text()
        (commands,) = CONSOLE.findall(text)
        made = subprocess.run(["sh", "-e", "-c", commands], cwd=self.room, capture_output=True, text=True, timeout=PATIENCE)
        self.assertEqual(made.returncode, 0, made.stderr)
        files = {name: str(Path(self.room, name)) for name in ("localhost.pem", "localhost.key", "ca.pem")}
        (words,) = re.findall(r"^bin/metad-front (.*) metad\.sock bin/metad$", text, re.MULTILINE)
        own = [files.get(word, word).replace("0.0.0.0:7443", ANY_PORT) for word in words.split()]
        with self.front(options=own) as (_, process):
            page = Path(self.room, "page.md")
            page.write_text(text.replace("localhost:7443", f"localhost:{port_of(process.log, 'TLS')}"))
            self.assertEqual(check_page(self, page, self.room), 1, "programs of the page")
            self.assertRegex(self.said_of(process, "c1 has come"), "^metad-front: c1 has come over TLS from .* as CN=anna$")

    def test_options(self):
        """The page has the options of the help that are for the network."""
        found = re.findall(r"^- `(--t\S+)", WEB_PAGE.read_text(), re.MULTILINE)
        self.assertEqual(sorted(found), sorted(word for word in front_help().split() if re.fullmatch(r"--t(ls\S*|cp)", word)))


class Certificates(NetworkCases):
    """Certificates of clients, and those that the front reads again."""

    def test_subject(self):
        """With --tls-clients the log has the subject of a client's certificate, as openssl writes it."""
        plain, twisted = self.authority.client("anna"), self.authority.client("twisted", TWISTED)
        with self.tls_front(clients=self.authority) as (port, _, process):
            for own in (plain, twisted):
                with NetworkClient(port, context_of(self.authority, own)) as client:
                    client.name()
            for number, own in enumerate((plain, twisted), 1):
                said = self.said_of(process, f"c{number} has come")
                self.assertEqual(said.partition(" as ")[2], subject_of(own[0]), "the name of a client")
            self.assertIn("CN=anna", process.log.path.read_text())

    def failure(self, port, context, version):
        """What a client receives whose handshake fails: an error of TLS, at the latest when it reads."""
        try:
            with NetworkClient(port, context) as client:
                client.say(STATUS)
                client.link.recv(1)
        except OSError as fault:
            return str(fault)
        return self.fail(f"a client of {version.name} was let in")

    def failures_in(self, process):
        """How many handshakes have failed, as the log says."""
        return len([line for line in process.log.lines() if re.search(r"a handshake from 127\.0\.0\.1:\d+ has failed: ", line)])

    def test_refused(self):
        """No certificate, one of another CA, an expired one, and one of a server: none is let in, and the log says why."""
        stranger = Authority(self.room, "stranger").client("eve")
        cases = {"none": None, "stranger": stranger, "expired": self.authority.expired("old"), "server": self.authority.server("other")}
        count = 0
        with self.tls_front(clients=self.authority) as (port, path, process):
            for what, own in cases.items():
                for version in VERSIONS:
                    self.failure(port, context_of(self.authority, own, version, version), version)
                    count += 1
                    wait_until_true(self, lambda: self.failures_in(process) == count, f"the log says why {what} was refused")
            with Client(path) as client:
                self.assertEqual(client.name(), "c1", "no number was given to those that were not let in")

    def test_many_certificates(self):
        """Certificates that are not signed by each other, and could be by their names, keep nobody waiting."""
        crowd = [Authority(Path(self.room), f"crowd{number}", "crowd") for number in range(CROWD)]
        own, key = crowd[0].client("eve")
        own.write_text("".join(path.read_text() for path in (own, *(one.certificate for one in crowd))))
        with self.tls_front(clients=self.authority) as (port, path, process), Client(path) as other:
            for version in VERSIONS:
                self.failure(port, context_of(self.authority, (own, key), version, version), version)
                self.assertEqual(other.name(), "c1", "another client")
            self.said_of(process, "has failed: .*the client has sent more than 4 further certificates")

    def test_wrong_server(self):
        """A client that does not trust the front's certificate says so, and the front serves others."""
        stranger = Authority(self.room, "stranger")
        with self.tls_front() as (port, _, process):
            for version in VERSIONS:
                with self.assertRaises(ssl.SSLCertVerificationError):
                    NetworkClient(port, context_of(stranger, None, version, version))
            self.said_of(process, "has failed: received fatal alert: UnknownCA")
            with NetworkClient(port, context_of(self.authority)) as client:
                self.assertEqual(client.name(), "c1")

    def test_keys(self):
        """Keys of each usual kind, in each of the forms that openssl writes."""
        for kind, new, old in (("rsa", ["-newkey", "rsa:2048"], ["rsa", "-traditional"]), ("ec", None, ["ec"]), ("ed25519", ["-newkey", "ed25519"], None)):
            certificate, key = self.authority.client(kind, section="server", kind=new)
            keys = [key]
            if old is not None:
                keys.append(key.with_suffix(".old"))
                openssl(old[0], "-in", key, *old[1:], "-out", keys[1])
            for path in keys:
                words = ["--tls", ANY_PORT, "--tls-cert", certificate, "--tls-key", path]
                with self.subTest(key=path.name, begins=path.read_text().splitlines()[0]), self.front(options=words) as (_, process):
                    with NetworkClient(port_of(process.log, "TLS"), context_of(self.authority)) as client:
                        self.assertEqual(client.name(), "c1")

    def shown_at(self, port):
        """The certificate that a front shows."""
        return ssl.get_server_certificate((HERE, port), timeout=PATIENCE)

    def test_read_again(self):
        """SIGHUP has the certificates read again; connections stay, and files that cannot be read change nothing."""
        shown, key = self.authority.server("shown")
        words = ["--tls", ANY_PORT, "--tls-cert", shown, "--tls-key", key]
        with self.front(options=words) as (_, process):
            port = port_of(process.log, "TLS")
            first = self.shown_at(port)
            self.assertEqual(first, shown.read_text())
            with NetworkClient(port, context_of(self.authority)) as client:
                name = client.name()
                self.authority.server("shown")  # in place of the other
                self.assertEqual(self.shown_at(port), first, "what is shown before the signal")
                process.send_signal(signal.SIGHUP)
                self.said_of(process, "hangup: the certificates were read again")
                second = self.shown_at(port)
                self.assertEqual((second == first, second), (False, shown.read_text()))
                key.write_text("nonsense")
                process.send_signal(signal.SIGHUP)
                self.said_of(process, "hangup: .*shown.key has no private key .*; the certificates from before are used")
                self.assertEqual((self.shown_at(port), client.name()), (second, name))


class Logged(LogCases, NetworkCases):
    """The log as JSON."""

    def test_events(self):
        """It has how a client has come, from where, and as whom; and why a handshake has failed."""
        with self.logged(*self.tls_words(clients=self.authority)) as (path, process, log):
            (at,) = [it["at"] for it in log.of("listening") if it["for"] == "TLS"]
            port = int(at.rpartition(":")[2])
            with NetworkClient(port, context_of(self.authority, self.authority.client("anna"))) as client:
                self.assertEqual(client.name(), "c1", "the first that is let in")
                wanted = {"client": 1, "over": "TLS", "address": f"{HERE}:{client.link.getsockname()[1]}", "subject": "CN=anna"}
                log.wait_for_event(self, "client_came", **wanted)
                with Client(path):
                    log.wait_for_event(self, "client_came", client=2)
            with socket.create_connection((HERE, port), PATIENCE) as link:
                address = f"{HERE}:{link.getsockname()[1]}"
                link.sendall(b"nonsense, and not TLS\n")
                log.wait_for_event(self, "handshake_failed", address=address, reason="received corrupt message")
            process.send_signal(signal.SIGHUP)
            log.wait_for_event(self, "certificates_read")


class Handshakes(NetworkCases):
    """Handshakes that are not TLS, that do not end, and that are many."""

    def test_plain_bytes(self):
        """Bytes that are no TLS are refused by an alert, and the connection is closed."""
        with self.tls_front() as (port, _, process):
            for data in (b'{"do":"status"}\n', b"GET / HTTP/1.1\r\n\r\n", os.urandom(4_096), b"\x16\x03\x01\xff\xff" + b"x" * 70_000):
                with socket.create_connection((HERE, port), PATIENCE) as link:
                    link.settimeout(PATIENCE)
                    give(link, data)
                    told = rest_of(link.makefile("rb"))
                self.assertNotIn(b"reply", told)
            self.assertIn("corrupt", self.said_of(process, "handshake .* has failed"))
            with NetworkClient(port, context_of(self.authority)) as client:
                self.assertEqual(client.name(), "c1", "who comes then")

    def test_half(self):
        """Handshakes that do not go on keep nobody waiting, and are closed after ten seconds."""
        with self.tls_front() as (port, path, process):
            links = [socket.create_connection((HERE, port), PATIENCE) for _ in range(50)]
            begun = time.monotonic()
            links[0].sendall(b"\x16\x03\x01\x02\x00\x01")  # the beginning of a hello
            with NetworkClient(port, context_of(self.authority)) as client, Client(path) as other:
                name = client.name()
                self.assertEqual({name, other.name()}, {"c1", "c2"})
                self.assertLess(time.monotonic() - begun, HANDSHAKE_SECONDS / 2, "how long others waited")
                for link in links:
                    link.settimeout(PATIENCE)
                    link.makefile("rb").read()
                    link.close()
                took = time.monotonic() - begun
                self.assertGreater(took, HANDSHAKE_SECONDS - 1)
                self.said_of(process, "has failed: it has taken more than 10 seconds")
                self.assertEqual(client.name(), name, "one whose handshake was done")

    def test_gone(self):
        """Those that go within a handshake leave nothing open."""
        with self.tls_front() as (port, _, process):
            files = f"/proc/{process.pid}/fd"
            before = len(os.listdir(files))
            for _ in range(100):
                with socket.create_connection((HERE, port), PATIENCE) as link:
                    link.sendall(b"\x16\x03\x01")
            wait_until_true(self, lambda: len(os.listdir(files)) <= before, "files that are closed")


class Words(NetworkCases):
    """The words of the command line."""

    def said(self, *words):
        ran = subprocess.run([FRONT, *words, "socket", self.program], capture_output=True, text=True, timeout=PATIENCE, cwd=self.room)
        return ran.returncode, ran.stderr.splitlines()[-1]

    def test_words(self):
        """What is not there, or does not fit, is said in a line."""
        certificate, key = self.authority.server()
        other = self.authority.client("other")[1]
        tls = ["--tls", ANY_PORT, "--tls-cert", certificate, "--tls-key"]
        unsafe = "could read and change what is sent in the clear, so use --tls"
        for words, status, text in (
            (["--tls", ANY_PORT], 2, "--tls needs --tls-cert and --tls-key"),
            (["--tls-cert", certificate], 2, "--tls-cert, --tls-key and --tls-clients need --tls"),
            (["--tls", "7443", "--tls-cert", "a", "--tls-key", "b"], 2, "such as 127.0.0.1:7443 or [::1]:7443"),
            (["--tcp", "0.0.0.0:0"], 2, unsafe),
            (["--tcp", "[::]:0"], 2, unsafe),
            ([*tls, "nowhere"], 1, "nowhere cannot be read: No such file or directory"),
            ([*tls, certificate], 1, "has no private key in PEM form"),
            ([*tls, other], 1, "is no key for"),
            ([*tls, key, "--tls-clients", key], 1, "has no certificate in PEM form"),
        ):
            found = self.said(*words)
            self.assertEqual((found[0], text in found[1]), (status, True), f"{words}: {found}")
