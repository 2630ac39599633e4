"""Fronts that listen over the network, and clients that talk with them by lines as they are."""

import re
import socket
import ssl
import unittest
from contextlib import contextmanager

from tests.support.closing import rest_of

from .certificates import HAS_OPENSSL, Authority
from .fronts import PATIENCE, Client, FrontCases
from .stand_servers import wait_until_true

ANY_PORT = "127.0.0.1:0"
HERE = "127.0.0.1"


def port_of(log, word):
    """The port at which a front says that it listens, for a word such as `TLS`."""
    (port,) = [int(found[1]) for line in log.lines() if (found := re.fullmatch(rf"metad-front: {word} at \S+:(\d+)", line))]
    return port


def context_of(authority=None, own=None, least=ssl.TLSVersion.TLSv1_2, most=ssl.TLSVersion.TLSv1_3):
    """What a client trusts, the certificate and key that it has, and the versions that it speaks."""
    made = ssl.SSLContext(ssl.PROTOCOL_TLS_CLIENT)
    made.minimum_version, made.maximum_version = least, most
    if authority is not None:
        made.load_verify_locations(authority.certificate)
    if own is not None:
        made.load_cert_chain(*own)
    return made


class NetworkClient(Client):
    """A client that comes over the network: over TLS, or in the clear without a context."""

    def __init__(self, port, context=None):
        link = socket.create_connection((HERE, port), PATIENCE)
        try:
            self.link = link if context is None else context.wrap_socket(link, server_hostname="localhost")
        except BaseException:
            link.close()
            raise
        self.link.settimeout(PATIENCE)
        self.reader = self.link.makefile("rb")

    def until_closed(self):
        return rest_of(self.reader, ssl.SSLError)


@unittest.skipUnless(HAS_OPENSSL, "openssl makes the certificates")
class NetworkCases(FrontCases):
    """Tests of fronts with clients over the network."""

    def setUp(self):
        super().setUp()
        self.authority = Authority(self.room)

    def tls_words(self, certificate=None, clients=None):
        """The words by which a front listens over TLS, with a certificate and its key, and with who signs those of clients."""
        certificate, key = certificate or self.authority.server()
        asked = [] if clients is None else ["--tls-clients", clients.certificate]
        return ["--tls", ANY_PORT, "--tls-cert", certificate, "--tls-key", key, *asked]

    @contextmanager
    def tls_front(self, *options, clients=None):
        """The port of a front that listens over TLS, the path of its socket, and its process."""
        with self.front(options=(*self.tls_words(clients=clients), *options)) as (path, process):
            yield port_of(process.log, "TLS"), path, process

    def said_of(self, process, pattern):
        """What the log says first that matches a pattern, once it does."""
        found = []

        def is_said():
            found[:] = [line for line in process.log.lines() if re.search(pattern, line)]
            return bool(found)

        wait_until_true(self, is_said, f"a line like {pattern!r}, but only {process.log.lines()}")
        return found[0]
