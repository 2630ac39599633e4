"""Clients that come in all ways at once, and streams of random bytes: what is written does not depend on the way it takes.

Each client of the first test is compared with a server of its own.
"""

import json
import random
import socket
import ssl
from concurrent.futures import ThreadPoolExecutor

from tests.generators.sessions import CLASSES, life_of
from tests.support.lines import text_of
from tests.support.seeds import seed_of

from .fronts import STATUS, Client, classes_in
from .networked import ANY_PORT, NetworkCases, NetworkClient, context_of, port_of
from .test_front import alone
from .test_front_rubbish import FORGERIES, hard_lines

CLIENTS, AT_ONCE = 200, 200
LIVES = 40  # that are different
STREAMS, LINES = 2, 600


class WholeClient(NetworkClient):
    """A client over the network that writes no more, and reads on."""

    def rest(self):
        socket.socket.shutdown(self.link, socket.SHUT_WR)  # that of the connection below: TLS can still be read
        return self.reader.read().decode().splitlines()


class Mixed(NetworkCases):
    """Clients of a Unix-domain socket, of TCP and of TLS side by side."""

    def ways(self, path, process):
        """What makes a client, for each way to come."""
        tls, tcp = port_of(process.log, "TLS"), port_of(process.log, "TCP")
        own = self.authority.client("anna")
        versions = (ssl.TLSVersion.TLSv1_2, ssl.TLSVersion.TLSv1_3)
        contexts = [context_of(self.authority, own, version, version) for version in versions]
        sealed = [lambda context=context: WholeClient(tls, context) for context in contexts]
        return [lambda: Client(path), lambda: WholeClient(tcp), *sealed]

    def test_many(self):
        """200 clients at once, a quarter of them each way, receive what each of them receives alone."""
        classes = classes_in(self.room, CLASSES)
        lives = [list(life_of(number)) for number in range(LIVES)]

        def lived(at):
            with ways[at % len(ways)]() as client:
                name = json.loads(client.ask(STATUS))["session"]
                client.say(*map(text_of, lives[at % LIVES]))
                return name, client.rest()

        options = ("--quiet", "--tcp", ANY_PORT, *self.tls_words(clients=self.authority))
        with self.front(classes, options=options) as (path, process), ThreadPoolExecutor(AT_ONCE) as pool:
            ways = self.ways(path, process)
            told = list(pool.map(lived, range(CLIENTS)))
        self.assertEqual(len({name for name, _ in told}), CLIENTS, "how many names")
        wanted = [alone([self.program, classes], "NAME", life) for life in lives]
        for at, (name, lines) in enumerate(told):
            self.assertEqual(lines, [line.replace('"NAME"', f'"{name}"') for line in wanted[at % LIVES]], f"what {name} receives")

    def stream(self, chance):
        """Random lines, among them blank ones, long ones, and those that ask for a session of others. The first is a command: a
        refused greeting would end the client at once."""
        lines = [text_of({"do": "status"}).encode()]
        for _ in range(LINES):
            kind = chance.random()
            if kind < 0.5:
                lines.append(text_of(chance.choice(self.commands)).encode())
            elif kind < 0.8:
                lines.append("".join(chance.choices(hard_lines.PIECES, k=chance.randint(0, 12))).encode())
            elif kind < 0.99:
                lines.append(chance.choice(FORGERIES).replace('"reset"', '"status"').encode())
            else:
                lines.append(b"x" * chance.choice((65_535, 65_536, 65_537, 200_000)))
        return b"\n".join(lines) + chance.choice((b"", b"\n"))

    def told_in(self, way, data, chance):
        """All that the only client of a front receives, whose bytes are cut anywhere."""
        options = ("--quiet", "--tcp", ANY_PORT, *self.tls_words(clients=self.authority))
        with self.front(classes_in(self.room, CLASSES), options=options) as (path, process):
            with self.ways(path, process)[way]() as client:
                while data:
                    size = chance.choice((1, 7, 100, 20_000))
                    client.link.sendall(data[:size])
                    data = data[size:]
                socket.socket.shutdown(client.link, socket.SHUT_WR)
                return client.reader.read()

    def test_streams(self):
        """Random bytes are answered byte for byte alike, over each way."""
        seed = seed_of(self)
        self.commands = [command for number in range(20) for command in life_of(number)]
        for number in range(STREAMS):
            chance = random.Random(f"{seed} {number}")
            data = self.stream(chance)
            first, *others = [self.told_in(way, data, chance) for way in range(4)]
            self.assertGreater(first.count(b"\n"), LINES / 2, "lines that are answered")
            self.assertTrue(all(it == first for it in others), f"the answers are the same, SEED={seed}")
