"""Rights of clients over TLS by their certificates (docs/LIMITS.md): by its subject, and by its fingerprint."""

import json
import signal
from contextlib import contextmanager
from pathlib import Path

from tests.support.lines import text_of

from .certificates import Authority, openssl, subject_of
from .fronts import NEW, Client, error, reply
from .grouped import hello
from .networked import NetworkCases, NetworkClient, context_of, port_of
from .stand_servers import wait_until_true
from .test_front_rights import TOKEN, hash_of, rules

NO_RIGHT, NO_GROUP = error("F20", "-"), error("F03", "-")
DESK = "/O=Example, Limited/OU=Desk/CN=anna"  # has a sign that is escaped


def fingerprint_of(certificate):
    """The fingerprint of a certificate as openssl writes it."""
    return openssl("x509", "-in", certificate, "-noout", "-fingerprint", "-sha256").partition("=")[2].strip()


class Certificates(NetworkCases):
    """Fronts whose rules name certificates."""

    def setUp(self):
        super().setUp()
        self.anna, self.ben = self.authority.client("anna", DESK), self.authority.client("ben")
        self.limits = Path(self.room, "limits.toml")

    @contextmanager
    def ruled(self, text, *options, clients=None):
        """A front with these rules: the port for clients with certificates, the path of its socket, and its process."""
        self.limits.write_text(text)
        words = [*self.tls_words(clients=clients or self.authority), "--limits", self.limits, *options]
        with self.front(options=words) as (path, process):
            yield port_of(process.log, "TLS"), path, process

    def first_answer(self, port, own, line=NEW, authority=None):
        """What a client with a certificate receives first."""
        with NetworkClient(port, context_of(authority or self.authority, own)) as client:
            client.say(line)
            return client.hear()

    def is_let_in(self, port, own):
        """Whether a client with a certificate may connect; otherwise it has to receive that it may not."""
        answer = self.first_answer(port, own)
        self.assertTrue(answer == NO_RIGHT or json.loads(answer)["reply"] == 1, answer)
        return answer != NO_RIGHT

    def test_subject(self):
        """A rule for a subject is for clients whose certificates have just this one, and for no client without a certificate."""
        subject = subject_of(self.anna[0])
        self.assertIn("\\,", subject, "it is escaped")
        other = self.authority.client("another", DESK + "/CN=more")
        with self.ruled(rules("refuse", f"subject = ['CN=nobody', '{subject}']\nconnect = true")) as (port, path, _):
            self.assertEqual([self.is_let_in(port, it) for it in (self.anna, self.ben, other)], [True, False, False])
            with Client(path) as local:
                self.assertEqual(local.told(), [NO_RIGHT], "one of the same machine")

    def test_fingerprint(self):
        """A rule for a fingerprint is for one certificate, and not for another one with the same subject. It is written with
        colons or without, in either case."""
        again = self.authority.client("again", "/CN=ben")
        self.assertEqual(subject_of(again[0]), subject_of(self.ben[0]))
        with_colons = fingerprint_of(self.ben[0])
        for shown in (with_colons, with_colons.replace(":", "").lower()):
            with self.ruled(rules("refuse", f"fingerprint = ['{shown}']\nconnect = true")) as (port, _, _):
                self.assertEqual([self.is_let_in(port, it) for it in (self.ben, again, self.anna)], [True, False, False], shown)

    def test_both(self):
        """If a rule has a subject, a fingerprint and a token, all have to apply."""
        subject, shown = subject_of(self.anna[0]), fingerprint_of(self.anna[0])
        token = f"token = '{hash_of(TOKEN)}'"
        for text, wanted in (
            (f"subject = ['{subject}']\nfingerprint = ['{shown}']", [True, False]),
            (f"subject = ['CN=ben']\nfingerprint = ['{shown}']", [False, False]),
        ):
            with self.ruled(rules("refuse", f"{text}\nconnect = true")) as (port, _, _):
                self.assertEqual([self.is_let_in(port, it) for it in (self.anna, self.ben)], wanted, text)
        with self.ruled(rules("refuse", f"subject = ['{subject}']\n{token}\nconnect = true")) as (port, _, _):
            line = text_of({"front": "hello", "token": TOKEN})
            told = [self.first_answer(port, own, line) for own in (self.anna, self.ben)]
            self.assertEqual([json.loads(told[0])["reply"], told[1]], [True, NO_RIGHT], "with a token")
            self.assertFalse(self.is_let_in(port, self.anna), "without it")

    def test_names(self):
        """Rights to names depend on the certificate too, and follow the file after SIGHUP."""
        text = rules("allow", f"subject = ['{subject_of(self.anna[0])}']\nhello = ['desk']", "hello = false")
        with self.ruled(text, "--workers", "2") as (port, _, process):
            for own, group, wanted in ((self.anna, "desk", True), (self.anna, "lamp", False), (self.ben, "desk", False)):
                answer = self.first_answer(port, own, hello(group))
                self.assertEqual(answer == NO_GROUP, not wanted, (own, group, answer))
            self.limits.write_text(rules("allow", f"fingerprint = ['{fingerprint_of(self.ben[0])}']\nhello = true", "hello = false"))
            process.send_signal(signal.SIGHUP)
            wait_until_true(self, lambda: any(line.endswith("is read again") for line in process.log.lines()), "the file is read")
            told = [self.first_answer(port, own, hello("desk")) for own in (self.anna, self.ben)]
            self.assertEqual((told[0], json.loads(told[1])["reply"]), (NO_GROUP, True), "after SIGHUP")

    def test_not_asked_for(self):
        """Where the front asks for no certificates, nobody has one."""
        self.limits.write_text(rules("refuse", f"subject = ['{subject_of(self.anna[0])}']\nconnect = true"))
        with self.front(options=[*self.tls_words(), "--limits", self.limits]) as (_, process):
            self.assertFalse(self.is_let_in(port_of(process.log, "TLS"), self.anna))

    def test_another_authority(self):
        """A certificate with the right subject that another authority has signed does not come through the handshake."""
        other = Authority(self.room, "other")
        with self.ruled(rules("refuse", "subject = ['CN=ben']\nconnect = true")) as (port, _, process):
            self.assertEqual(self.first_answer(port, self.ben), reply(1, "c1"))
            with self.assertRaises((OSError, EOFError, ValueError)):
                answer = self.first_answer(port, other.client("ben"))
                raise EOFError if not answer else AssertionError(answer)
            self.said_of(process, "a handshake from .* has failed")
