"""Several machines behind an edge (examples/machines) for tests: in network namespaces if possible, otherwise on addresses
of this machine."""

import os
import shutil
import subprocess
import sys
import unittest
from pathlib import Path
from tempfile import TemporaryDirectory

from tests.test_clients.fronts import STATUS, Client

from .cases import ProgramCases
from .program import ROOT, SECONDS

FOLDER = ROOT / "examples" / "machines"
sys.path.append(str(FOLDER))
leaves_nothing, sys.dont_write_bytecode = sys.dont_write_bytecode, True  # among the examples, which are installed as they are

import machines as example  # noqa: E402
import places as network  # noqa: E402
from machines import DOWN, PLACES, UP  # noqa: E402

sys.dont_write_bytecode = leaves_nothing

NEEDED = {"haproxy": "apt-get install haproxy (Debian)", "openssl": "apt-get install openssl (Debian)"}
QUICK = {"METAD_CHECK": "100ms", "METAD_ANSWER": "2s"}  # which no machine exceeds that is only slow
# asks one line of each address that it is to come from, by TLS where files are named, and prints the answers
TALK = """
import socket, ssl, sys
host, port, authority, certificate, line, *sources = sys.argv[1:]
for source in sources or [""]:
    try:
        link = socket.create_connection((host, int(port)), 60, (source, 0) if source else None)
        if authority:
            context = ssl.create_default_context(cafile=authority)
            if certificate:
                context.load_cert_chain(certificate)
            link = context.wrap_socket(link, server_hostname="edge")
        link.sendall(line.encode() + b"\\n")
        answer = link.makefile().readline().strip()
        link.close()
    except OSError as fault:
        answer = ""
    print(answer or "refused")
"""


def lacking():
    """What is to be installed for these tests, or None."""
    path = f"{os.environ.get('PATH', os.defpath)}:{example.OF_SYSTEM}"
    return next((f"{it} is not on the path: {how}" for it, how in NEEDED.items() if shutil.which(it, path=path) is None), None)


class OneNamespace(network.Addresses):
    """Addresses of one network namespace, which no other program has."""

    how = "on addresses of one network namespace"

    def __init__(self, places):
        super().__init__(places)
        self.inside = network.Namespaces(["inside"])

    def words(self, place):
        return self.inside.words("inside")

    def close(self):
        self.inside.close()


def addresses(places):
    """Places that are addresses, where nobody else has them if that can be had."""
    try:
        return OneNamespace(places)
    except network.NoPlaces:
        return network.Addresses(places)


class MachineCases(ProgramCases):
    """Tests of machines that are started once for all of them."""

    config = "edge.cfg"
    options = ()  # of the fronts
    kind = staticmethod(network.best)  # of places
    names = ()

    @classmethod
    def setUpClass(cls):
        super().setUpClass()
        if lacking():
            raise unittest.SkipTest(lacking())
        cls.room = Path(cls.enterClassContext(TemporaryDirectory(prefix="metad-machines-")))
        cls.places = cls.kind(PLACES)
        cls.addClassCleanup(cls.places.close)
        cls.all = example.Machines([cls.program], cls.room, cls.places, cls.options, **QUICK)
        cls.all.config = cls.config
        cls.addClassCleanup(cls.all.close)
        cls.all.start_all()
        for name in cls.names:
            cls.all.open(name)

    def setUp(self):
        self.enterContext(self.within(3 * SECONDS))
        self.tell(self.places.how)

    def visit(self, name):
        """A client with the certificate of a name, which was answered, and the machine that it is on."""
        before = len(self.all.homes(name))
        client = self.enterContext(Client(self.room / f"{name}.sock"))
        client.ask(STATUS)
        self.all.wait_until(f"the home of {name}", lambda: len(self.all.homes(name)) > before)
        return client, self.all.homes(name)[-1]

    def bring_back(self, name):
        """Starts a machine again that was killed, once the edge has seen that it has gone."""
        self.all.wait_for(name, DOWN)
        self.all.start_machine(name)
        self.all.wait_for(name, UP)

    def said(self, place, host, port, line, *sources, authority="", certificate=""):
        """What programs at a place are answered."""
        words = [*self.places.words(place), sys.executable, "-c", TALK, host, str(port), str(authority), str(certificate), line]
        ran = subprocess.run([*words, *sources], capture_output=True, text=True, timeout=SECONDS)
        self.assertEqual((ran.returncode, ran.stderr), (0, ""))
        return ran.stdout.splitlines()
