"""Several machines behind an edge (examples/machines): what its page says of them. The tests say where the machines are."""

import json
import os
import re
import shutil
import signal
import subprocess
import sys
import unittest
from pathlib import Path

from tests.test_clients import CLIENTS
from tests.test_clients.fronts import NEW, STATUS, Client, error, reply, front_help


from .support.closing import CLOSED
from .support.lines import text_of
from .support.machines import FOLDER, MachineCases, addresses, example
from .support.program import SECONDS

PAGE = FOLDER / "README.md"
EDGE, CLIENTS_PLACE, MACHINES = example.EDGE, example.CLIENTS, example.MACHINES
PORT, INNER_PORT, UP, DOWN = example.PORT, example.INNER_PORT, example.UP, example.DOWN
NAMES = ("ann", "eve", "tom")  # which the page says to be on two, one and three
CHILDREN = '{"do":"children"}'
HAS_WORKERS = "--workers" in front_help()
RULE = re.compile(r'^echo "(.*)" \| socat', re.MULTILINE)
SOURCES = [f"127.77.1.{number}" for number in range(1, 61)]


class Machines(MachineCases):
    """Clients with certificates."""

    names = NAMES

    def test_one_machine_for_a_name(self):
        """All clients of a name are on one machine, each time, and names are spread over the machines."""
        homes = {name: {self.visit(name)[1] for _ in range(4)} for name in NAMES}
        self.assertEqual(homes, {"ann": {"two"}, "eve": {"one"}, "tom": {"three"}})

    def test_join(self):
        """Clients of one name can join each other, since they are on one machine; a client on another machine may name
        such a session too, and hears nothing."""
        (first, _), (second, _), (other, _) = self.visit("ann"), self.visit("ann"), self.visit("eve")
        for client in (first, second, other):
            client.ask(NEW)
        name = first.name()
        first.ask('{"do":"publish","object":1,"signal":"ping()","name":"bell"}')
        for client in (second, other):
            join = {"do": "join", "from": name, "name": "bell", "types": [], "object": 1, "method": "note()"}
            self.assertIn("reply", client.ask(text_of(join)), "the answer to the join")
        first.ask('{"do":"invoke","object":1,"method":"ping()","args":[]}')
        spun = [client.ask('{"do":"spin"}') for client in (second, other)]
        self.assertIn('"call":"note()"', spun[0], "what the second client of the name hears")
        self.assertIn('"events":0', spun[1], "what the client on another machine hears")

    def test_killed(self):
        """A machine's clients are closed when it is killed, and reach another one, where they have new sessions; others
        see nothing of it. When it is back, the name's next clients reach it, and those that came meanwhile stay."""
        (ann, home), (eve, _), (tom, _) = map(self.visit, NAMES)
        for client in (ann, eve, tom, eve):
            client.ask(NEW)
        self.all.kill(home)
        self.assertEqual(ann.until_closed(), b"", "what a client of it receives")
        meanwhile, elsewhere = self.visit("ann")
        self.assertNotEqual(elsewhere, home, "where it is served then")
        session = meanwhile.name()
        self.assertEqual(meanwhile.ask(CHILDREN), reply([], session), "what it finds there")
        self.assertEqual(meanwhile.ask(NEW), reply(1, session), "what it makes there")
        self.assertIn('"reply":[1,2]', eve.ask(CHILDREN), "the others' sessions")
        self.assertIn('"reply":[1]', tom.ask(CHILDREN), "the others' sessions")
        self.bring_back(home)
        later, where = self.visit("ann")
        self.assertEqual((where, json_reply(later.ask(CHILDREN))), (home, []), "where its next client is, and what it finds")
        self.assertEqual(json_reply(meanwhile.ask(CHILDREN)), [1], "the one that came meanwhile")
        self.assertIn('"reply":[1,2]', eve.ask(CHILDREN), "the others' sessions")

    def test_cut_off(self):
        """A machine that is cut off counts as gone after three checks; its clients are closed, and reach another one."""
        if not self.places.may_be_cut:
            self.skipTest("a machine on an address of this one cannot be cut off")
        ann, home = self.visit("ann")
        eve, _ = self.visit("eve")
        self.places.cut(home, True)
        try:
            self.assertEqual(ann.until_closed(), b"", "what a client of it receives")
            self.assertEqual(self.all.states()[home][0], "DOWN", "what the edge says of it")
            self.assertNotEqual(self.visit("ann")[1], home, "where it is served then")
            self.assertIn('"reply"', eve.ask(CHILDREN), "the others")
        finally:
            self.places.cut(home, False)
        self.all.wait_for(home, UP)
        self.assertEqual(self.visit("ann")[1], home, "where it is served when the machine is back")

    def test_server_without_answers(self):
        """A machine whose server does not answer counts as gone, though its front is there."""
        ann, home = self.visit("ann")
        front = self.all.running[home][0].pid
        server = int(Path(f"/proc/{front}/task/{front}/children").read_text().split()[0])
        os.kill(server, signal.SIGSTOP)
        try:
            self.assertEqual(ann.until_closed(), b"", "what a client of it receives")
            self.assertNotEqual(self.visit("ann")[1], home, "where it is served then")
        finally:
            os.kill(server, signal.SIGCONT)
        self.all.wait_for(home, UP)

    def test_front_alone(self):
        """Where the front of a machine has ended alone, whoever reaches it is closed, and it counts as gone."""
        ann, home = self.visit("ann")
        address = self.places.addresses[home]
        self.assertIn('{"reply":', self.said(EDGE, address, INNER_PORT, STATUS)[0], "while the front is there")
        front = self.all.running[home].pop(0)
        front.kill()
        front.wait()
        self.assertEqual(ann.until_closed(), b"", "what a client of it receives")
        self.assertEqual(self.said(EDGE, address, INNER_PORT, STATUS), ["refused"], "what a new client receives")
        self.all.wait_for(home, DOWN)
        self.assertNotEqual(self.visit("ann")[1], home, "where it is served then")
        self.all.kill(home)
        self.bring_back(home)

    def test_drained(self):
        """By the page's lines for the edge: a machine that is drained keeps its clients and is given no new ones; clients
        that are shut there reach another one; and when it is ready it is given clients again."""
        drain, shut, ready = RULE.findall(PAGE.read_text())
        ann, home = self.visit("ann")
        self.assertEqual(home, "two", "the machine in the page's example")
        self.all.rule(drain)
        try:
            self.assertNotEqual(self.visit("ann")[1], home, "where a new client is")
            self.assertIn('"reply":[]', ann.ask(CHILDREN), "the client that was there")
            self.all.rule(shut)
            self.assertEqual(ann.until_closed(), b"", "the client that was there, when it is shut")
            self.assertNotEqual(self.visit("ann")[1], home, "where it is then")
        finally:
            self.all.rule(ready)
        self.assertEqual(self.visit("ann")[1], home, "where a new client is at the end")

    def test_checks(self):
        """Checks leave no traces: for all the checks by which the edge finds a machine alive, its server is given no
        line of a session."""
        self.all.kill("two")
        self.bring_back("two")
        self.assertEqual((self.room / "two.record").read_text(), "", "what the server was given")

    def test_other_checks(self):
        """What a connection of another kind leaves: the server is given its name, also where it says nothing but nonsense."""
        record = self.room / "one.record"
        with Client(self.room / "one.front") as client:
            self.assertEqual(client.ask("nonsense"), error("E01", "-"))
            before = record.read_text()
        self.all.wait_until("its reset", lambda: '"do":"reset"' in record.read_text()[len(before) :])

    def test_edge_that_ends(self):
        """All clients are closed where the edge ends; when it is back, each name is where it was."""
        clients = {name: self.visit(name) for name in NAMES}
        self.all.kill(EDGE)
        for name, (client, _) in clients.items():
            self.assertEqual(client.until_closed(), b"", name)
        self.all.start_edge()
        self.assertEqual({it: self.visit(it)[1] for it in NAMES}, {it: home for it, (_, home) in clients.items()})

    def test_refused(self):
        """Without a certificate of the authority nobody is served, nor with one that has no name or is of somebody else."""
        strangers = self.room / "strangers"
        made = subprocess.run(["sh", FOLDER / "certificates.sh", strangers, "ann"], capture_output=True, text=True)
        self.assertEqual(made.returncode, 0, made.stderr)
        self.sign("nameless", "/O=nobody", "extendedKeyUsage=clientAuth")
        address = self.places.addresses[EDGE]
        for certificate, is_served in (
            (self.room / "ann.pem", True),
            ("", False),
            (strangers / "ann.pem", False),
            (self.room / "nameless.pem", False),
        ):
            how = {"authority": self.room / "authority.crt", "certificate": certificate}
            (said,) = self.said(CLIENTS_PLACE, address, PORT, STATUS, **how)
            self.assertEqual(said.startswith('{"reply":'), is_served, f"{certificate}: {said}")
            self.assertTrue(is_served or said == "refused", said)

    def sign(self, name, subject, use):
        """Makes a certificate of the authority, for such a use."""
        request = f"openssl req -new -newkey ec -pkeyopt ec_paramgen_curve:prime256v1 -nodes -subj {subject} -keyout {name}.key"
        made = f"openssl x509 -req -CA authority.crt -CAkey authority.key -CAcreateserial -extfile {name}.ext -out {name}.crt"
        script = f"echo {use} > {name}.ext; {request} | {made} && cat {name}.crt {name}.key > {name}.pem"
        ran = subprocess.run(["sh", "-c", script], cwd=self.room, capture_output=True, text=True)
        self.assertEqual(ran.returncode, 0, ran.stderr)

    def test_other_edges(self):
        """A machine takes connections of the edge alone."""
        if not self.places.may_be_cut:
            self.skipTest("on addresses of one machine all programs have the same one")
        address = self.places.addresses["one"]
        (from_edge,) = self.said(EDGE, address, INNER_PORT, STATUS)
        (from_client,) = self.said(CLIENTS_PLACE, address, INNER_PORT, STATUS)
        self.assertEqual((from_edge.startswith('{"reply":'), from_client), (True, "refused"))

    def test_false_edge(self):
        """A client's machine takes nobody for the edge who has a client's certificate, or that of another program that
        serves, also of the same authority."""
        self.sign("other", "/CN=other", "extendedKeyUsage=serverAuth")
        for port, (certificate, is_served) in enumerate((("edge", True), ("ann", False), ("other", False)), PORT + 1):
            with self.subTest(certificate):
                address = self.edge_with(certificate, port)
                path = self.room / f"to-{certificate}.sock"
                files = {"METAD_CERTIFICATE": f"{self.room}/ann.pem", "METAD_AUTHORITY": f"{self.room}/authority.crt"}
                more = {"METAD_SOCKET": str(path), "METAD_EDGE": address, **files}
                self.all.proxy(CLIENTS_PLACE, FOLDER / "client.cfg", f"{path.name}.log", more)
                self.all.wait_until("the socket", path.exists)
                with Client(path) as client:
                    client.say(STATUS)
                    self.assertEqual(answered(client), is_served)

    def edge_with(self, certificate, port):
        """Starts a second edge that has this certificate; answers where."""
        folder, address = self.room / f"edge-{certificate}", f"{self.places.addresses[EDGE]}:{port}"
        folder.mkdir()
        shutil.copy(self.room / f"{certificate}.pem", folder / "edge.pem")
        shutil.copy(self.room / "authority.crt", folder)
        at = {f"METAD_{name.upper()}": f"{self.places.addresses[name]}:{INNER_PORT}" for name in MACHINES}
        at.update(METAD_AT=address, METAD_ADMIN=str(folder / "admin"), METAD_CERTIFICATES=str(folder))
        self.all.proxy(EDGE, FOLDER / "edge.cfg", f"{folder.name}.log", at)
        self.all.wait_until("the second edge", (folder / "admin").exists)
        return address

    def test_lines(self):
        """What is no command, and what is half a line at the end, is passed to the server and back as with a front alone."""
        client, _ = self.visit("eve")
        session = client.name()
        client.say("nonsense", '{"do":"jump"}')
        self.assertEqual([client.hear(), client.hear()], [error("E01", "-"), error("E02", session)])
        client.link.sendall(NEW.encode())
        self.assertEqual(client.rest(), [reply(1, session)], "the answer to half a line")

    def test_shell(self):
        """The tools use a client's socket as one of a front."""
        words = [sys.executable, CLIENTS / "shell", "--socket", self.room / "tom.sock"]
        ran = subprocess.run(words, input="new Probe as p\n", capture_output=True, text=True, timeout=SECONDS)
        self.assertEqual((ran.returncode, ran.stdout), (0, "object 1 is made, of class Probe, a root; it is p\n"), ran.stderr)


def said_in(log):
    """The clients and their machines that an edge has told of."""
    return [line.split(" is on ") for line in log.read_text().splitlines() if " is on " in line]


def answered(client):
    """Whether a client hears a line, and not the end."""
    try:
        return client.hear() != ""
    except CLOSED:
        return False


def json_reply(line):
    """The value of a reply."""
    return json.loads(line)["reply"]


@unittest.skipUnless(HAS_WORKERS, "this front has no workers")
class WithWorkers(MachineCases):
    """Machines whose fronts have workers."""

    names = ("ann",)
    options = ("--workers", "2")

    def test_groups(self):
        """Clients of one name that say hello for one group hear each other on their machine, and its checks are answered."""
        clients = [self.enterContext(Client(self.room / "ann.sock")) for _ in range(2)]
        names = [json.loads(it.ask('{"front":"hello","group":"desk"}'))["session"] for it in clients]
        for client in clients:
            client.ask(NEW)
        clients[0].ask('{"do":"publish","object":1,"signal":"ping()","name":"bell"}')
        join = {"do": "join", "from": names[0], "name": "bell", "types": [], "object": 1, "method": "note()"}
        clients[1].ask(text_of(join))
        clients[0].ask('{"do":"invoke","object":1,"method":"ping()","args":[]}')
        self.assertIn('"call":"note()"', clients[1].ask('{"do":"spin"}'), names)
        self.assertEqual({self.all.states()[it] for it in MACHINES}, {UP}, "what the edge says of the machines")


class ByAddress(MachineCases):
    """Clients that the edge distinguishes by their addresses."""

    config = "edge_by_address.cfg"
    kind = staticmethod(addresses)

    def homes(self):
        """The machine that a client of each address reaches."""
        before = sum(len(self.all.homes(it)) for it in SOURCES)
        said = self.said(CLIENTS_PLACE, self.places.addresses[EDGE], PORT, STATUS, *SOURCES)
        self.assertEqual(sum(it.startswith('{"reply":') for it in said), len(SOURCES), said)
        self.all.wait_until("homes", lambda: sum(len(self.all.homes(it)) for it in SOURCES) == before + len(SOURCES))
        return {it: self.all.homes(it)[-1] for it in SOURCES}

    def test_edges_agree(self):
        """A second edge, with the machines in another order, has each address on the same machine."""
        homes, path = self.homes(), self.room / "other.cfg"
        lines = (FOLDER / self.config).read_text().splitlines()
        servers = [line for line in lines if line.startswith("    server ")]
        path.write_text("\n".join([line for line in lines if line not in servers] + servers[::-1]) + "\n")
        at = {f"METAD_{name.upper()}": f"{self.places.addresses[name]}:{INNER_PORT}" for name in MACHINES}
        at["METAD_AT"], at["METAD_ADMIN"] = f"{self.places.addresses[EDGE]}:{PORT + 2}", str(self.room / "other.admin")
        self.all.proxy(EDGE, path, "other.log", at)
        self.all.wait_until("the other edge", (self.room / "other.admin").exists)
        self.said(CLIENTS_PLACE, self.places.addresses[EDGE], PORT + 2, STATUS, *SOURCES)
        self.all.wait_until("homes", lambda: len(said_in(self.room / "other.log")) == len(SOURCES))
        self.assertEqual(dict(said_in(self.room / "other.log")), homes)

    def test_one_machine_for_an_address(self):
        """All clients of an address are on one machine, each time. Where one has gone its addresses alone are on others,
        and they come back with it."""
        homes = self.homes()
        self.assertEqual(set(homes.values()), set(MACHINES), "the machines that are used")
        self.assertEqual(self.homes(), homes, "the same once more")
        self.all.kill("two")
        without = self.homes()
        self.assertEqual({it for it in SOURCES if without[it] != homes[it]}, {it for it in SOURCES if homes[it] == "two"})
        self.bring_back("two")
        self.assertEqual(self.homes(), homes, "when it is back")
