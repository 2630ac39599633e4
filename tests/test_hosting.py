"""What starts fronts on hosts: the units for systemd (examples/systemd), and the stateful set for Kubernetes
(examples/kubernetes). They are looked at for their form, and what they start is started."""

import json
import os
import re
import select
import shutil
import signal
import socket
import subprocess
import time
from configparser import ConfigParser
from contextlib import contextmanager
from http.client import HTTPConnection
from pathlib import Path

from tests.test_clients.fronts import FRONT, NEW, PATIENCE, Client, FrontCases, Log, classes_in, front_help, parser

from .support.documents import version
from .support.program import ROOT, SECONDS

SYSTEMD, KUBERNETES, MACHINES = (ROOT / "examples" / name for name in ("systemd", "kubernetes", "machines"))
LIMITS = "/etc/metad/limits.toml"
INSTALLED, PROGRAM = "/usr/local/bin/metad-front", "/usr/local/bin/metad"
TURNS = ["--turns", "100"]
NAME = "desk"
NO_MORE = "\n# what it may not do"  # what the confinement of a service begins with
EXPOSED = 3.0  # how much of 10 `systemd-analyze security` may find at most
EXPOSURE = re.compile(r"Overall exposure level for \S+: ([0-9.]+)")
CALLED = re.compile(r"^\d+ +(\w+)\(", re.MULTILINE)  # system calls that strace reports
OF_SOCKETS = re.compile(r"\bsocket(?:pair)?\((\w+)")
WATCHDOG_MICROSECONDS = 600_000  # in place of the 30 seconds of the units
SECONDS_TO_END = 5  # which the front gives its server
HAS_WORKERS = "--workers" in front_help()
HELD = re.compile(r"^```\n((?:(?!```).*\n)*)```$", re.MULTILINE)  # blocks of a page that are not run


def sections_of(path):
    """A unit as systemd reads it, for the instance NAME."""
    unit = ConfigParser(interpolation=None, comment_prefixes=("#", ";"), delimiters=("=",), strict=False)
    unit.optionxform = str
    unit.read_string(path.read_text().replace("%i", NAME))
    return unit


def words_of(line, variables):
    """A command as systemd makes it: a word `$NAME` becomes as many words as its value has."""
    words = line.split()
    return [it for word in words for it in (variables[word[1:]].split() if word.startswith("$") else [word])]


def variables_of(text):
    """What a file of the environment says."""
    return dict(line.split("=", 1) for line in text.splitlines() if line)


def calls_in(group):
    """The system calls of a group of systemd's, with those of the groups in it."""
    ran = subprocess.run(["systemd-analyze", "syscall-filter", group], capture_output=True, text=True, timeout=SECONDS)
    words = {line.split()[0] for line in ran.stdout.splitlines() if line.startswith("    ") and not line.startswith("    #")}
    return {call for word in words for call in (calls_in(word) if word.startswith("@") else (word,))}


class Units(FrontCases):
    """The units for systemd."""

    def setUp(self):
        super().setUp()
        self.service = sections_of(SYSTEMD / "metad-front@.service")
        self.socket = sections_of(SYSTEMD / "metad-front@.socket")
        self.target = sections_of(SYSTEMD / "metad-fronts.target")
        blocks = HELD.findall((SYSTEMD / "README.md").read_text())
        self.examples = [variables_of(it) for it in blocks if it.startswith("OPTIONS=")]

    def given(self, variables, service=None):
        """The words of what a service starts, the template's front where none is named, where the environment says this."""
        service = self.service["Service"] if service is None else service
        own = dict(word.partition("=")[::2] for word in service.get("Environment", "").split())
        return words_of(service["ExecStart"], {**own, **variables})

    def test_form(self):
        """The service has its socket, and both belong to the target; rights and limits are those of the single front."""
        single = sections_of(SYSTEMD / "metad-front.service")["Service"]
        unit, service = self.service["Unit"], self.service["Service"]
        own = f"metad-front@{NAME}.socket"
        self.assertEqual((unit["Requires"], unit["After"]), (own, own))
        self.assertEqual({self.service["Unit"]["PartOf"], self.socket["Unit"]["PartOf"]}, {"metad-fronts.target"})
        self.assertEqual(self.socket["Install"]["WantedBy"], "metad-fronts.target")
        self.assertEqual(self.target["Install"]["WantedBy"], "multi-user.target")
        same = ("KillMode", "Restart", "DynamicUser", "LimitNOFILE", "LimitAS")
        self.assertEqual({it: service[it] for it in same}, {it: single[it] for it in same})
        self.assertEqual(self.socket["Socket"]["ListenStream"], f"/run/metad-{NAME}.sock")
        self.assertEqual((service["StateDirectory"], service["RuntimeDirectory"]), (f"metad/{NAME}",) * 2)
        self.assertEqual(service["WorkingDirectory"], f"%S/metad/{NAME}")
        self.assertEqual(service["EnvironmentFile"], f"-/etc/metad/{NAME}.env", "a file that may be missing")

    def test_words(self):
        """The front takes the words that it is given, without a file of the environment and with those of the page."""
        health = ["--health", f"/run/metad/{NAME}/health", "--health-mode", "666"]
        limits = ["--limits", LIMITS, "--server-memory", str(768 << 20)]
        self.assertEqual(self.given({}), [INSTALLED, *health, *limits, "-", PROGRAM, *TURNS])
        single = sections_of(SYSTEMD / "metad-front.service")["Service"]
        self.assertEqual(self.given({}, single), [INSTALLED, *limits, "-", PROGRAM, *TURNS])
        self.assertEqual(len(self.examples), 1, "the files of the page")
        taken = parser().parse_args(self.given(self.examples[0])[1:])
        self.assertEqual((taken.socket, taken.program, taken.args), ("-", PROGRAM, [*TURNS, "/etc/metad/classes.json"]))
        self.assertEqual((taken.record, taken.monitor), ("record", f"/run/metad/{NAME}/monitor"))

    def test_workers(self):
        """The front takes the options for workers that the page has."""
        options = re.search(r"`OPTIONS=(--workers [^`]*)`", (SYSTEMD / "README.md").read_text())[1]
        if not HAS_WORKERS:
            self.skipTest("this front has no workers")
        taken = parser().parse_args(self.given({"OPTIONS": options})[1:])
        self.assertEqual((taken.workers, taken.record, taken.control), (4, "records", f"/run/metad/{NAME}/control"))

    def test_started(self):
        """What the service starts serves the clients of the socket that it is passed, and answers the checks of an edge;
        with the page's file of the environment it records, and has the classes. So it does with workers, where there are any."""
        if shutil.which("systemd-socket-activate") is None:
            self.skipTest("systemd-socket-activate is not on the path")
        classes = classes_in(self.room, [{"name": "Lamp", "super": "QObject"}])
        own = {"OPTIONS": self.examples[0]["OPTIONS"].replace(f"/run/metad/{NAME}", self.room), "CLASSES": classes}
        more = [({"OPTIONS": "--workers 2"}, NEW)] if HAS_WORKERS else []
        for variables, wanted in (({}, NEW), (own, '{"class":"Lamp","do":"new"}'), *more):
            with self.activated(variables) as path, Client(path) as client:
                self.assertEqual(json.loads(client.ask(wanted))["reply"], 1, "a client")
                with Client(Path(self.room, "health")) as check:
                    check.say("GET /live HTTP/1.0\r", "\r")
                    self.assertTrue(check.until_closed().startswith(b"HTTP/1.0 200 OK\r\n"), "a check")
        self.assertIn('"class":"Lamp","do":"new"', Path(self.room, "record").read_text(), "the record")

    def test_turns(self):
        """Each service gives its server few turns, so that no command of one client keeps the others waiting for long."""
        services = sorted(SYSTEMD.glob("*.service"))
        self.assertEqual(len(services), 3)
        for path in services:
            words = self.given({}, sections_of(path)["Service"])
            first = words.index(PROGRAM) + 1
            self.assertEqual(words[first : first + len(TURNS)], TURNS, path.name)

    def test_few_turns(self):
        """What the service starts takes no more events at once than it has turns."""
        if shutil.which("systemd-socket-activate") is None:
            self.skipTest("systemd-socket-activate is not on the path")
        with self.activated({}) as path, Client(path) as client:
            client.ask('{"do":"new","class":"Cell"}')
            for _ in range(120):
                client.ask('{"do":"invoke","object":1,"method":"setX(int)","args":[1],"type":"queued"}')
            client.say('{"do":"spin"}')
            lines = [client.hear() for _ in range(100 + 2)]
        self.assertEqual(json.loads(lines[-2])["warning"], "E23")
        self.assertEqual(json.loads(lines[-1])["reply"], {"events": 100, "left": 20, "lost": 0, "mismatched": 0})

    def test_notifies(self):
        """Services that start a front expect it to say when it serves and, often enough, that it is not stuck. It does, and
        one that is stopped says nothing for as long as systemd waits."""
        for name in ("metad-front.service", "metad-front@.service"):
            service = sections_of(SYSTEMD / name)["Service"]
            self.assertEqual((service["Type"], service["WatchdogSec"], service["Restart"]), ("notify", "30", "on-failure"), name)
            self.assertEqual(service["ExecReload"], "/bin/kill -HUP $MAINPID", name)
        if shutil.which("systemd-socket-activate") is None:
            self.skipTest("systemd-socket-activate is not on the path")
        place = str(Path(self.room, "notify"))
        with socket.socket(socket.AF_UNIX, socket.SOCK_DGRAM) as link:
            link.bind(place)
            link.settimeout(PATIENCE)
            with self.activated({}, own=[f"NOTIFY_SOCKET={place}", f"WATCHDOG_USEC={WATCHDOG_MICROSECONDS}"]) as path, Client(path) as client:
                said = link.recv(4_096).decode()
                self.assertIn("READY=1", said.splitlines(), "what it says first")
                self.assertEqual(json.loads(client.ask(NEW))["reply"], 1, "a client")
                while select.select([link], [], [], 0)[0]:  # messages that came while this test waited for a processor
                    link.recv(4_096)
                begun, count = time.monotonic(), 5
                for _ in range(count):
                    self.assertEqual(link.recv(4_096).decode().splitlines(), ["WATCHDOG=1"], "what it says then")
                self.assertGreater(time.monotonic() - begun, (count - 2) * WATCHDOG_MICROSECONDS / 2e6, "it says so too often")
                os.kill(self.activating.pid, signal.SIGSTOP)
                link.settimeout(3 * WATCHDOG_MICROSECONDS / 1e6)
                with self.assertRaises(TimeoutError, msg="where it is stopped"):
                    while link.recv(4_096):
                        pass
                os.kill(self.activating.pid, signal.SIGCONT)

    def test_hardening(self):
        """All services are confined in the same way."""
        (first, *others) = ({it for it in path.read_text().partition(NO_MORE)[2].splitlines()} for path in SYSTEMD.glob("*.service"))
        self.assertIn("SystemCallFilter=~@privileged @resources", first)
        self.assertEqual(others, [first] * 2)

    def test_exposure(self):
        """systemd-analyze finds each service little exposed."""
        if shutil.which("systemd-analyze") is None:
            self.skipTest("systemd-analyze is not on the path")
        for path in sorted(SYSTEMD.glob("*.service")):
            unit = Path(self.room, path.name.replace("@", f"@{NAME}"))
            unit.write_text(path.read_text())
            words = ["systemd-analyze", "security", "--offline=true", "--no-pager", unit]
            ran = subprocess.run(words, capture_output=True, text=True, timeout=SECONDS)
            if ran.returncode and "offline" in ran.stderr:
                self.skipTest("this systemd-analyze looks at no files")
            (found,) = EXPOSURE.findall(ran.stdout)
            self.assertLess(float(found), EXPOSED, path.name)

    def test_system_calls(self):
        """What the service starts makes no system call that its unit forbids, no socket but local ones, and no memory that
        can be both written and executed."""
        lacking = [it for it in ("strace", "systemd-analyze", "systemd-socket-activate") if shutil.which(it) is None]
        if lacking:
            self.skipTest(f"{lacking[0]} is not on the path")
        log = Path(self.room, "calls")
        own = {"OPTIONS": self.examples[0]["OPTIONS"].replace(f"/run/metad/{NAME}", self.room)}
        with self.activated(own, ["strace", "-D", "-f", "-qq", "-o", str(log)]) as path:
            for _ in range(2):
                with Client(path) as client:
                    self.assertEqual(json.loads(client.ask(NEW))["reply"], 1)
        calls = log.read_text()
        self.assertIn(f'execve("{self.program}"', calls, "the server is started")
        allowed = calls_in("@system-service") - calls_in("@privileged") - calls_in("@resources")
        self.assertEqual(set(CALLED.findall(calls)) - allowed, set(), "calls that the unit forbids")
        self.assertEqual(set(OF_SOCKETS.findall(calls)), {"AF_UNIX"})
        self.assertNotIn("PROT_WRITE|PROT_EXEC", calls)

    def test_server_each(self):
        """With metad.socket and metad@.service each client has a server of its own."""
        if shutil.which("systemd-socket-activate") is None:
            self.skipTest("systemd-socket-activate is not on the path")
        service, socket = sections_of(SYSTEMD / "metad@.service")["Service"], sections_of(SYSTEMD / "metad.socket")["Socket"]
        self.assertEqual((socket["Accept"], service["StandardInput"], service["StandardOutput"]), ("yes", "socket", "socket"))
        path, words = Path(self.room, "each"), self.given({}, service)
        given = ["systemd-socket-activate", "--accept", "--inetd", "--listen", path, self.program, *words[1:]]
        with subprocess.Popen(given, stderr=subprocess.DEVNULL) as process:
            try:
                self.wait_for(path, process)
                new = '{"session":"a","do":"new","class":"Probe"}'
                with Client(path) as one, Client(path) as other:
                    answers = [client.ask(new) for client in (one, other, one)]
                self.assertEqual([json.loads(it)["reply"] for it in answers], [1, 1, 2])
            finally:
                process.terminate()

    @contextmanager
    def activated(self, variables, before=(), own=()):
        """The path of a socket that is passed to what the service starts, which these words are put before, with these
        variables of its own. `activating` becomes what is started."""
        path, log = Path(self.room, "socket"), Log(Path(self.room, "log"))
        _, *words = self.given(variables)
        words = [self.program if it == PROGRAM else it.replace(f"/run/metad/{NAME}", self.room) for it in words]
        words = [str(SYSTEMD / "limits.toml") if it == LIMITS else it for it in words]
        words = [*before, str(FRONT), *words]
        path.unlink(missing_ok=True)
        with log.path.open("wb") as stderr:
            given = ["systemd-socket-activate", *(f"--setenv={it}" for it in own), "--listen", str(path), *words]
            with subprocess.Popen(given, stderr=stderr, cwd=self.room) as self.activating:
                process = self.activating
                try:
                    self.wait_for(path, process)
                    yield path
                finally:
                    process.terminate()

    def test_verified(self):
        """systemd-analyze finds no fault in the units, where what they start is there."""
        if shutil.which("systemd-analyze") is None:
            self.skipTest("systemd-analyze is not on the path")
        units = [it for it in SYSTEMD.iterdir() if it.suffix in (".service", ".socket", ".target")]
        names = [it.name.replace("@", f"@{NAME}") for it in units]
        for unit in units:
            text = unit.read_text().replace(INSTALLED, str(FRONT)).replace(f"{PROGRAM} ", f"{self.program} ")
            for name in (unit.name, unit.name.replace("@", f"@{NAME}")):
                Path(self.room, name).write_text(text)
        ran = subprocess.run(
            ["systemd-analyze", "verify", *(f"./{it}" for it in names)],
            cwd=self.room,
            capture_output=True,
            text=True,
            timeout=SECONDS,
            env={**os.environ, "SYSTEMD_UNIT_PATH": f"{self.room}:"},
        )
        self.assertEqual((ran.returncode, ran.stdout, ran.stderr), (0, "", ""), names)


class Cluster(FrontCases):
    """The stateful set for Kubernetes."""

    def setUp(self):
        super().setUp()
        text = (KUBERNETES / "statefulset.yaml").read_text()
        self.service, self.set = json.loads(text)["items"]
        self.pod = self.set["spec"]["template"]["spec"]
        self.front, self.door = self.pod["containers"]

    def test_form(self):
        """The set finds its pods, and the service finds them; ports, volumes and names are those that are there."""
        self.assertEqual((self.service["kind"], self.set["kind"]), ("Service", "StatefulSet"))
        self.assertEqual((self.service["apiVersion"], self.set["apiVersion"]), ("v1", "apps/v1"))
        labels = self.set["spec"]["template"]["metadata"]["labels"]
        self.assertEqual(self.set["spec"]["selector"]["matchLabels"], labels)
        self.assertEqual(self.service["spec"]["selector"], labels)
        self.assertEqual(self.set["spec"]["serviceName"], self.service["metadata"]["name"])
        self.assertEqual(self.service["spec"]["clusterIP"], "None", "a headless service")
        (port, _), (inner,) = self.service["spec"]["ports"], self.door["ports"]
        self.assertEqual((port["targetPort"], port["port"]), (inner["name"], inner["containerPort"]))
        claimed = {it["metadata"]["name"] for it in self.set["spec"]["volumeClaimTemplates"]}
        volumes = {it["name"] for it in self.pod["volumes"]} | claimed
        mounted = {it["name"] for container in self.pod["containers"] for it in container["volumeMounts"]}
        self.assertEqual(mounted, volumes)
        self.assertEqual(self.front["image"], f"metad:{version()[0]}", "the version of the program")
        self.assertGreater(self.pod["terminationGracePeriodSeconds"], SECONDS_TO_END, "what the front needs at its end")
        for container in self.pod["containers"]:
            self.assertLessEqual({"requests", "limits"}, container["resources"].keys(), container["name"])

    def test_page(self):
        """The page says what the file has."""
        page = (KUBERNETES / "README.md").read_text()
        grace, held = self.pod["terminationGracePeriodSeconds"], self.pod["volumes"][1]["configMap"]["name"]
        self.assertIn(f"the front has {grace} seconds, and needs at most {SECONDS_TO_END} ", page)
        self.assertIn(f"configmap {held} --from-file=examples/machines/machine.cfg", page)
        self.assertIn(f"The image `{self.front['image']}`", page)
        self.assertIn("It was never run in a cluster", page)

    def test_door(self):
        """The door reads what the machine's file has, by the names that it has, and finds the front's socket."""
        given = {it["name"]: it["value"] for it in self.door["env"]}
        set_there = dict(re.findall(r"^    presetenv (METAD_\w+) (\S+)", (MACHINES / "machine.cfg").read_text(), re.MULTILINE))
        self.assertEqual(given.keys(), set_there.keys())
        self.assertIn(given["METAD_SOCKET"], self.front["command"])
        self.assertTrue(given["METAD_AT"].endswith(f":{self.door['ports'][0]['containerPort']}"))
        mounts = {it["name"]: it["mountPath"] for it in self.door["volumeMounts"]}
        self.assertEqual(self.door["command"], ["haproxy", "-db", "-f", f"{mounts['machine']}/machine.cfg"])

    def test_probes(self):
        """The probes pass where front and server answer, and fail where the server does not, and where there is no front. The
        front is started by its container's words, at another address."""
        path, log = Path(self.room, "metad.sock"), Log(Path(self.room, "log"))
        words = self.words_here()
        taken = parser().parse_args(words[1:])
        self.assertEqual((taken.socket, taken.args[0]), (str(path), "--turns"))
        probes = [self.front[it]["httpGet"] for it in ("readinessProbe", "livenessProbe")]
        self.assertEqual(probes, [{"path": "/", "port": "health"}, {"path": "/live", "port": "health"}])
        given = [FRONT, *(self.program if it == "/usr/local/bin/metad" else it for it in words[1:])]
        with log.path.open("wb") as stderr, subprocess.Popen(given, stderr=stderr) as process:
            try:
                port = self.port_of("health", log, path)
                self.wait_for_probes(probes, port, [200, 200])
                server = int(Path(f"/proc/{process.pid}/task/{process.pid}/children").read_text())
                os.kill(server, signal.SIGSTOP)
                self.assertEqual([self.probe(it, port) for it in probes], [503, 503], "where its server does not answer")
                os.kill(server, signal.SIGCONT)
                self.wait_for_probes(probes, port, [200, 200])
            finally:
                process.terminate()
        with self.assertRaises(ConnectionRefusedError, msg="where there is no front"):
            self.probe(probes[0], port)
        self.assertEqual(Path(self.room, "record").read_text(), "", "what the server was given by clients")

    def words_here(self):
        """The words of the front's container, with paths and ports of this machine."""
        here = {"/run/metad": self.room, "/var/lib/metad": self.room}
        here.update({f"0.0.0.0:{it['containerPort']}": "127.0.0.1:0" for it in self.front["ports"]})
        return [self.here(it, here) for it in self.front["command"]]

    def port_of(self, what, log, path):
        """The port at which a front says that it answers, once it listens."""
        until = time.monotonic() + PATIENCE
        while not any(it["fields"].get("at") == str(path) for it in map(json.loads, log.lines())):
            self.assertLess(time.monotonic(), until, log.lines())
            time.sleep(0.01)
        (place,) = (it["fields"]["at"] for it in map(json.loads, log.lines()) if it["fields"].get("for") == what)
        return int(place.rpartition(":")[2])

    def test_metrics(self):
        """The annotations and the service monitor lead to the port at which the container's front answers with its metrics."""
        ports = {it["name"]: it["containerPort"] for it in self.front["ports"]}
        self.assertEqual(ports.keys(), {"health", "metrics"})
        told = self.set["spec"]["template"]["metadata"]["annotations"]
        wanted = {"scrape": "true", "port": str(ports["metrics"]), "path": "/metrics"}
        self.assertEqual(told, {f"prometheus.io/{name}": value for name, value in wanted.items()})
        monitor = json.loads((KUBERNETES / "servicemonitor.yaml").read_text())
        self.assertEqual((monitor["apiVersion"], monitor["kind"]), ("monitoring.coreos.com/v1", "ServiceMonitor"))
        self.assertEqual(monitor["spec"]["selector"]["matchLabels"], self.service["metadata"]["labels"])
        (end,) = monitor["spec"]["endpoints"]
        (port,) = (it for it in self.service["spec"]["ports"] if it["name"] == end["port"])
        self.assertEqual((port["targetPort"], port["port"], end["path"]), ("metrics", ports["metrics"], "/metrics"))
        path, log = Path(self.room, "metad.sock"), Log(Path(self.room, "log"))
        given = [FRONT, *(self.program if it == PROGRAM else it for it in self.words_here()[1:])]
        with log.path.open("wb") as stderr, subprocess.Popen(given, stderr=stderr) as process:
            try:
                link = HTTPConnection("127.0.0.1", self.port_of("metrics", log, path), timeout=PATIENCE)
                link.request("GET", end["path"])
                self.assertIn(b"\nmetad_front_clients 0\n", link.getresponse().read())
                link.close()
            finally:
                process.terminate()

    def wait_for_probes(self, probes, port, wanted):
        """Waits until probes are answered so."""
        until = time.monotonic() + PATIENCE
        while [self.probe(it, port) for it in probes] != wanted:
            self.assertLess(time.monotonic(), until, wanted)

    def probe(self, asked, port):
        """The status that a probe is answered."""
        link = HTTPConnection("127.0.0.1", port, timeout=PATIENCE)
        try:
            link.request("GET", asked["path"])
            return link.getresponse().status
        finally:
            link.close()

    def here(self, word, paths):
        for path, own in paths.items():
            word = word.replace(path, own)
        return word

    def test_client(self):
        """The client is where the container's Python looks for it, as packages have it."""
        (path,) = (it["value"] for it in self.front["env"] if it["name"] == "PYTHONPATH")
        self.assertEqual(path, "/usr/local/share/metad/python")
        self.assertEqual(Path(self.front["command"][0]).parents[1], Path(path).parents[2])

    def test_read(self):
        """kubectl reads the file as two objects, and makes the page's map of the machine's file."""
        if shutil.which("kubectl") is None:
            self.skipTest("kubectl is not on the path")
        shutil.copy(KUBERNETES / "statefulset.yaml", self.room)
        Path(self.room, "kustomization.yaml").write_text("resources: [statefulset.yaml]\n")
        ran = subprocess.run(["kubectl", "kustomize", self.room], capture_output=True, text=True, timeout=SECONDS)
        self.assertEqual(ran.returncode, 0, ran.stderr)
        self.assertEqual(re.findall(r"^kind: (\w+)$", ran.stdout, re.MULTILINE), ["Service", "StatefulSet"])
        (words,) = re.findall(r"^kubectl create .*$", (KUBERNETES / "README.md").read_text(), re.MULTILINE)
        words = [*words.split(), "--dry-run=client", "--output=json"]
        ran = subprocess.run(words, cwd=ROOT, capture_output=True, text=True, timeout=SECONDS)
        self.assertEqual(ran.returncode, 0, ran.stderr)
        self.assertEqual(json.loads(ran.stdout)["data"], {"machine.cfg": (MACHINES / "machine.cfg").read_text()})

    def test_edge(self):
        """haproxy takes an edge that asks the cluster for addresses, as the page has it."""
        if shutil.which("haproxy", path=f"{os.environ['PATH']}:/usr/sbin") is None:
            self.skipTest("haproxy is not on the path: apt-get install haproxy (Debian)")
        page = (KUBERNETES / "README.md").read_text()
        (block,) = [it for it in HELD.findall(page) if it.startswith("resolvers")]
        resolvers, server = block.split("\n\n")
        lines = (MACHINES / "edge_by_address.cfg").read_text().splitlines()
        kept = [line for line in lines if not line.startswith("    server ")]
        Path(self.room, "edge.cfg").write_text("\n".join([resolvers, *kept, server]))
        path = f"{os.environ['PATH']}:/usr/sbin"
        words = ["haproxy", "-c", "-f", "edge.cfg"]
        ran = subprocess.run(words, cwd=self.room, capture_output=True, text=True, env={"PATH": path})
        self.assertEqual(ran.returncode, 0, ran.stderr)
