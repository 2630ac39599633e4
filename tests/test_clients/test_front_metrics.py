"""The front's metrics for programs that monitor it (front/src/metrics.rs, front/src/scraping.rs)."""

import json
import os
import re
import shutil
import signal
import socket
import subprocess
from contextlib import contextmanager
from http.client import HTTPConnection
from pathlib import Path

from tests.support.closing import give
from tests.support.documents import OPERATING_PAGE
from tests.support.lines import text_of
from tests.support.markdown import section

from .fronts import FRONT, NEW, PATIENCE, STATUS, Client, error, reply
from .grouped import WorkerCases, by_session, hello, servers_of, wait_until, write_until
from .stand_servers import stopped

GET = "GET /metrics HTTP/1.0\r\n\r\n"
SCRAPES_MOST = 4
SAMPLE = re.compile(r'([a-z_]+)(?:\{([a-z]+)="([^"\\]*)"\})? ([-+0-9.eInf]+)')
SECRET = "hunter2_of_a_client"
CODES_OF_LIMITS = [f"F{number}" for number in range(11, 21)]
LIVE = '{"front":"hello","live":true}'
WORDS_OF_LABELS = {
    "version": r"\d+\.\d+\.\d+",
    "worker": r"\d{1,2}",
    "code": r"[EF]\d\d",
    "reason": "left|refused|unread",
    "purpose": "restart|move|resume",
    "le": r"[0-9.]+|\+Inf",
    "level": "error|warn|info|debug",
    "outcome": "compacted|kept|failed",
}


def samples_of(page):
    """The samples of a page, by name and label."""
    found = [SAMPLE.fullmatch(line) for line in page.splitlines() if not line.startswith("#")]
    return {(it[1], it[3] or ""): float(it[4]) for it in found}


class MetricsCases(WorkerCases):
    """Tests of fronts that are asked for their metrics."""

    def setUp(self):
        super().setUp()
        self.place = Path(self.room, "metrics")

    def asked(self, request=GET):
        """The answer to a request: its head and its text."""
        with Client(self.place) as client:
            client.link.sendall(request.encode())
            head, _, text = client.until_closed().decode().partition("\r\n\r\n")
            return head, text

    def page(self):
        head, text = self.asked()
        self.assertTrue(head.startswith("HTTP/1.0 200 OK\r\n"), head)
        return text

    def samples(self):
        """What the front counts, without the name that all have in common."""
        return {(name.removeprefix("metad_front_"), label): value for (name, label), value in samples_of(self.page()).items()}

    def value(self, name, label=""):
        return self.samples().get((name, label))

    def wait_for_value(self, wanted, name, label=""):
        wait_until(self, lambda: self.value(name, label) == wanted, f"{name} {label} is {wanted}")

    @contextmanager
    def measured(self, *options, workers=None, **how):
        given = ("--metrics", self.place, *options)
        if workers is None:
            with self.front(options=("--quiet", *given), **how) as (path, process):
                yield path, process
        else:
            with self.workers(workers, options=given, **how) as (path, process):
                yield path, process


class Page(MetricsCases):
    """The page and how it is asked for."""

    def test_format(self):
        """The page has help and a type for each metric, its content is of the type that Prometheus reads, and promtool finds no
        fault where it is installed."""
        with self.measured(workers=2) as (path, _), Client(path) as client:
            client.ask(NEW)
            head, text = self.asked()
            self.assertIn("\r\nContent-Type: text/plain; version=0.0.4; charset=utf-8\r\n", head)
            self.assertIn(f"\r\nContent-Length: {len(text)}\r\n", head)
            self.assertEqual(self.asked(GET.replace("GET", "HEAD"))[1], "", "the head alone")
        helped = re.findall(r"^# HELP (\w+) \S.*$", text, re.MULTILINE)
        typed = re.findall(r"^# TYPE (\w+) (?:gauge|counter|histogram)$", text, re.MULTILINE)
        self.assertEqual((helped, len(set(helped))), (typed, len(helped)), "help and types")
        used = {re.sub("_(bucket|sum|count)$", "", name) for name, _ in samples_of(text)}
        self.assertLessEqual(used - {"metad_front_errors_total"}, set(helped), "what has samples")
        self.assertTrue(all(name.startswith("metad_front_") for name in helped), "their names")
        if shutil.which("promtool") is None:
            self.skipTest("promtool is not on the path: apt-get install prometheus (Debian)")
        ran = subprocess.run(["promtool", "check", "metrics"], input=text, capture_output=True, text=True, timeout=PATIENCE)
        self.assertEqual((ran.returncode, ran.stdout, ran.stderr), (0, "", ""), "what promtool finds")

    def test_page(self):
        """The list of the page about operating has the metrics that there are, with their meanings, and says their types."""
        with self.measured():
            text = self.page()
        helped = re.findall(r"^# HELP (\w+) (.*)\n# TYPE \w+ (\w+)$", text, re.MULTILINE)
        said = section(OPERATING_PAGE.read_text(), "Metrics")
        shown = re.findall(r"^- `(metad_front_\w+)`: (.*)$", said, re.MULTILINE)
        self.assertEqual(sorted(shown), sorted((name, meaning) for name, meaning, _ in helped))
        histograms = re.findall(r"`(\w+)`", re.findall(r"are counters, (.*) are histograms, and the others are gauges", said)[0])
        kinds = {name: "counter" if name.endswith("_total") else "histogram" if name in histograms else "gauge" for name, _ in shown}
        self.assertEqual(kinds, {name: kind for name, _, kind in helped})

    def test_requests(self):
        """Other paths and methods are refused, as is a request that does not end. A path, a port and an address are places."""
        with self.measured("--mode", "600", "--metrics-mode", "640") as (path, _):
            self.assertEqual([it.stat().st_mode & 0o777 for it in (path, self.place)], [0o600, 0o640], "the rights")
            for request, wanted in (
                ("GET / HTTP/1.0\r\n\r\n", "404 Not Found"),
                ("GET /metrics/more HTTP/1.0\r\n\r\n", "404 Not Found"),
                ("POST /metrics HTTP/1.0\r\n\r\n", "405 Method Not Allowed"),
                ("x" * 9_000, "400 Bad Request"),
                ("GET /metrics HTTP/1.0\r\n", "408 Request Timeout"),
            ):
                self.assertEqual(self.asked(request)[0].splitlines()[0], f"HTTP/1.0 {wanted}", request[:20])
        for place in ("0", "127.0.0.1:0"):
            with self.front(options=("--quiet", "--mode", "600", "--metrics", place)) as (path, process):
                (line,) = [line for line in process.log.lines() if "metrics at" in line]
                port = int(re.fullmatch(r"metad-front: metrics at 127\.0\.0\.1:(\d+)", line)[1])
                link = HTTPConnection("127.0.0.1", port, timeout=PATIENCE)
                link.request("GET", "/metrics")
                self.assertIn(b"metad_front_clients 0\n", link.getresponse().read(), place)
                link.close()
        ran = subprocess.run([FRONT, "--metrics-mode", "600", "--metrics", "0", "s", "p"], capture_output=True, text=True, timeout=PATIENCE)
        self.assertEqual((ran.returncode, ran.stdout), (2, ""), ran.stderr)
        self.assertIn("--metrics-mode needs --metrics with a path", ran.stderr)

    def test_labels(self):
        """No label has a value of a client, and the labels are of few words each, whatever clients do."""
        with self.measured("--share", "team", workers=2) as (path, _):
            for line in (hello(SECRET), f'{{"front":"share","session":"{SECRET}"}}', f'{{"do":"{SECRET}"}}', f'{{"{SECRET}":1}}', SECRET):
                with Client(path) as client:
                    client.say(line, f'{{"do":"new","class":"{SECRET}"}}', NEW)
                    client.rest()
            page = self.page()
        self.assertNotIn(SECRET, page)
        labels = re.findall(r'\{([a-z]+)="([^"]*)"\}', page)
        self.assertEqual(page.count("{"), len(labels), "a label each")
        for name, value in labels:
            self.assertRegex(value, f"^(?:{WORDS_OF_LABELS[name]})$", name)


class Counts(MetricsCases):
    """The numbers of scripted sessions."""

    def test_session(self):
        """Lines, bytes, commands, errors and times of one client, counted by hand."""
        lines = [NEW, STATUS, "nonsense", '{"do":"jump"}', '{"do":"delete","object":9}', '{"do":"delete","object":9}']
        with self.measured() as (path, process), Client(path) as client:
            answers = [client.ask(line) for line in lines]
            found = self.samples()
            wanted = {
                ("clients", ""): 1,
                ("clients_connected_total", ""): 1,
                ("received_lines_total", ""): len(lines),
                ("received_bytes_total", ""): sum(len(line) + 1 for line in lines),
                ("sent_lines_total", ""): len(answers),
                ("sent_bytes_total", ""): sum(len(line) + 1 for line in answers),
                ("errors_total", "E01"): 1,
                ("errors_total", "E02"): 1,
                ("errors_total", "E04"): 2,
                ("command_wait_seconds_count", ""): len(lines),
                ("commands_waiting", ""): 0,
                ("commands_under_way", "1"): 0,
                ("unread_bytes", ""): 0,
                ("sessions", ""): 1,
                ("workers", ""): 1,
                ("worker_up", "1"): 1,
                ("worker_restarts_total", "1"): 0,
                ("refused_requests_total", ""): 0,
            }
            self.assertEqual({key: found.get(key) for key in wanted}, wanted, "what is counted")
            self.assertEqual({label for name, label in found if name == "errors_total"}, {"E01", "E02", "E04"}, "the codes")
            self.check_memory(found, process)
            self.assertLess(0, found["command_service_seconds_sum", ""])
            self.assertLess(found["command_service_seconds_sum", ""] + found["command_wait_seconds_sum", ""], PATIENCE)
            self.check_histogram(found, "command_wait_seconds")
            self.check_histogram(found, "command_service_seconds")
        self.assertFalse(self.place.exists(), "the socket at the end")

    def check_memory(self, found, process):
        """The memory of the front and of its server is about what the system says."""
        for name, label, number in (("resident_memory_bytes", "", process.pid), ("server_resident_memory_bytes", "1", servers_of(process)[0])):
            status = Path(f"/proc/{number}/status").read_text()
            kilobytes = int(re.search(r"^VmRSS:\s+(\d+) kB$", status, re.MULTILINE)[1])
            self.assertAlmostEqual(found[name, label] / 1024, kilobytes, delta=kilobytes / 4, msg=name)

    def check_histogram(self, found, name):
        """The buckets of a histogram grow up to its count."""
        buckets = {float(label): value for (it, label), value in found.items() if it == f"{name}_bucket"}
        counts = [buckets[bound] for bound in sorted(buckets)]
        self.assertEqual(counts, sorted(counts), name)
        self.assertEqual(counts[-1], found[f"{name}_count", ""], name)
        self.assertGreater(len(counts), 10, name)

    def test_slow_server(self):
        """A command that a server takes long for is counted with its time, and the commands after it have waited as long."""
        seconds = 0.4
        with self.measured() as (path, process), Client(path) as client, Client(path) as other:
            self.assertEqual([client.ask(NEW), other.ask(NEW)], [reply(1, "c1"), reply(1, "c2")], "objects")
            before = self.samples()
            os.kill(servers_of(process)[0], signal.SIGSTOP)
            client.say(*[NEW] * 40)
            wait_until(self, lambda: self.value("commands_under_way", "1") > 0, "commands are under way")
            self.assertGreater(self.value("commands_waiting"), 0, "commands that wait")
            self.assertEqual(self.value("worker_queue_clients", "1"), 1, "who waits")
            subprocess.run(["sleep", str(seconds)], check=True)
            os.kill(servers_of(process)[0], signal.SIGCONT)
            self.assertEqual([client.hear() for _ in range(40)][-1], reply(41, "c1"), "the last one")
            found = self.samples()
        for name in ("command_service_seconds", "command_wait_seconds"):
            self.assertEqual(found[f"{name}_count", ""] - before[f"{name}_count", ""], 40, name)
            self.assertGreaterEqual(found[f"{name}_sum", ""] - before[f"{name}_sum", ""], seconds, name)

    def test_people(self):
        """Clients, monitors, live sessions, refusals and the ways in which clients leave."""
        monitors = Path(self.room, "monitors")
        with self.measured("--share", "team", "--monitor", monitors) as (path, _):
            with Client(path) as live, Client(path) as member, Client(monitors):
                self.assertIn('"live":true', live.ask(LIVE))
                self.assertEqual(member.ask('{"front":"share","session":"team"}'), reply(True, "team"))
                with Client(path) as refused:
                    refused.say('{"front":"share","session":"nobody"}')
                    self.assertEqual(refused.told(), [error("F02", "-")], "a refusal")
                with Client(path) as refused:
                    refused.say('{"front":"nonsense"}')
                    self.assertEqual(refused.told(), [error("F01", "-")], "a refusal")
                self.wait_for_value(1, "monitors")
                live.say(NEW, '{"args":[],"do":"invoke","method":"note()","object":1}')
                wait_until(self, lambda: self.value("spins_total") > 0, "the front gives spin")
                self.wait_for_value(2, "clients_disconnected_total", "refused")
                found = self.samples()
                wanted = {
                    ("clients", ""): 2,
                    ("clients_connected_total", ""): 4,
                    ("live_sessions", ""): 1,
                    ("errors_total", "F01"): 1,
                    ("errors_total", "F02"): 1,
                    ("refused_requests_total", ""): 2,
                    ("clients_disconnected_total", "left"): 0,
                }
                self.assertEqual({key: found.get(key) for key in wanted}, wanted, "what is counted")
            self.wait_for_value(2, "clients_disconnected_total", "left")
            self.wait_for_value(0, "clients")
            self.wait_for_value(0, "monitors")

    @contextmanager
    def bounded(self, text, *options, workers=None, **how):
        """A measured front with limits."""
        limits = Path(self.room, "limits.toml")
        limits.write_text(text)
        with self.measured("--limits", limits, *options, workers=workers, **how) as (path, process):
            yield path, process

    def refusals(self):
        """How often the front has enforced limits and rights, by the codes that it has done so by; all of them are shown."""
        found = {label: value for (name, label), value in self.samples().items() if name == "refusals_total"}
        self.assertEqual(list(found), CODES_OF_LIMITS, "the codes")
        return {code: value for code, value in found.items() if value}

    def test_limits_of_commands(self):
        """Refused commands, sessions and joins are counted by their codes, and among all errors."""
        text = "over = 'refuse'\n[client]\nsessions = 1\njoins = 0\ncommands = { per_second = 1, burst = 3 }\n"
        with self.bounded(text, "--group-from", "name", workers=1) as (path, _), Client(path) as client:
            self.assertEqual(self.refusals(), {}, "at first")
            join = {"do": "join", "from": "other", "name": "level", "object": 1, "method": "note()", "types": [], "session": "desk"}
            made = NEW.replace("{", '{"session":"desk",')
            lines = (made, text_of(join), made.replace("desk", "lamp"), made)
            client.say(*lines)  # at once, since another one is allowed each second
            told = by_session(client.hear() for _ in lines)
            found = {name: [json.loads(line).get("error") for line in own] for name, own in told.items()}
            self.assertEqual(found, {"desk": [None, "F17", "F12"], "lamp": ["F16"]}, "what is refused")
            self.assertEqual(self.refusals(), {"F12": 1, "F16": 1, "F17": 1})
            self.assertEqual([self.value("errors_total", code) for code in ("F12", "F16", "F17")], [1, 1, 1], "among the errors")

    def test_limits_of_connections(self):
        """Connections that are refused or closed are counted by the code of the last line."""
        for text, code, given in (
            ("[uid]\nconnections = 1\n", "F11", b""),
            ("[client]\nhalf_line_bytes = 9\n", "F14", b" " * 10),
            ("[client]\nhalf_line_seconds = 1\n", "F14", b" "),
            ("[client]\nidle_seconds = 1\n", "F15", b""),
            ("[rights]\ndefault = 'refuse'\n", "F20", b""),
        ):
            with self.bounded(text) as (path, _), Client(path) as other, Client(path) as client:
                give(client.link, given)  # which it may have refused already
                self.assertEqual(json.loads(client.told()[-1])["error"], code, text)
                other.told() if code in ("F15", "F20") else other.leave()
                self.assertEqual(set(self.refusals()), {code}, text)
                self.assertGreaterEqual(self.refusals()[code], 1, text)

    def test_limits_of_memory(self):
        """Clients that do not read are closed and counted, for their own limit and for that of the front."""
        for text, code in (("[client]\nunread_bytes = 50000\n", "F13"), ("front_memory = 50000\n", "F19")):
            with self.bounded(text) as (path, _), Client(path) as slow:
                slow.link.setsockopt(socket.SOL_SOCKET, socket.SO_RCVBUF, 4_096)
                write_until(self, slow.link, b'{"do":"classes"}\n' * 100, lambda: self.refusals() == {code: 1}, f"{text!r}: {code} is counted once")

    def test_limit_of_time(self):
        """A command that takes too long is counted."""
        with self.bounded("command_seconds = 1\n", workers=1) as (path, process), Client(path) as client:
            self.assertEqual(client.ask(NEW), reply(1, "c1"))
            os.kill(servers_of(process)[0], signal.SIGSTOP)
            client.say(NEW)
            self.assertEqual([json.loads(line)["error"] for line in client.told()], ["F18", "F04"], "its answers")
            self.assertEqual(self.refusals(), {"F18": 1})

    def test_workers(self):
        """Groups of each worker, their records, restarts, replays and moves; and what is lost."""
        with self.measured("--record", str(self.records), workers=2) as (path, process), Client(path) as client:
            name = json.loads(client.ask(hello("desk")))["session"]
            self.assertEqual(client.ask(NEW), reply(1, name), "an object")
            worker = str(self.places()["desk"])
            other = str(3 - int(worker))
            self.assertEqual([self.value("groups", it) for it in (worker, other)], [1, 0], "groups")
            self.assertEqual(self.value("record_bytes"), (self.records / "desk.lines").stat().st_size, "the size of records")
            os.kill(servers_of(process)[int(worker) - 1], signal.SIGKILL)
            self.assertEqual(client.ask(NEW), reply(2, name), "the next one")
            self.wait_for_value(1, "worker_restarts_total", worker)
            self.assertEqual(self.value("replays_total", "restart"), 1, "replays")
            self.assertTrue(self.ask_front(front="move", group="desk", worker=int(other))["reply"])
            self.assertEqual(self.ask_front(front="move", group="nobody", worker=1)["error"], "F05")
            found = self.samples()
            wanted = {
                ("replays_total", "move"): 1,
                ("groups", worker): 0,
                ("groups", other): 1,
                ("errors_total", "F05"): 1,
                ("replays_failed_total", ""): 0,
                ("worker_up", worker): 1,
                ("worker_up", other): 1,
            }
            self.assertEqual({key: found.get(key) for key in wanted}, wanted, "what is counted")
            with (self.records / "desk.lines").open("r+b") as record:
                record.truncate(10)
            for server in servers_of(process):
                os.kill(server, signal.SIGKILL)
            self.assertEqual(client.told(), [error("F04", name)], "what is lost")
            self.wait_for_value(1, "replays_failed_total")
            self.assertEqual(self.value("errors_total", "F04"), 1, "the error")


class Undisturbed(MetricsCases):
    """Those who ask for metrics, and clients."""

    def test_clients(self):
        """Requests are neither recorded nor seen by monitors nor logged, and change no answer."""
        record, monitors = Path(self.room, "record"), Path(self.room, "monitors")
        with self.measured("--record", record, "--monitor", monitors, "--mode", "600") as (path, process):
            with Client(path) as client, Client(monitors) as monitor:
                self.wait_for_value(1, "monitors")
                said = process.log.lines()
                answers = []
                for _ in range(20):
                    answers.append(client.ask(NEW))
                    self.page()
                self.assertEqual(answers, [reply(number, "c1") for number in range(1, 21)], "the answers")
                self.assertEqual([monitor.hear() for _ in answers], answers, "what a monitor receives")
                self.assertEqual(record.read_text().splitlines(), ['{"class":"Probe","do":"new","session":"c1"}'] * 20, "the record")
                self.assertEqual(process.log.lines(), said, "the log")

    def test_idle(self):
        """Those who connect and ask for nothing, or do not read, keep neither clients nor health checks from their answers,
        and are closed."""
        health = Path(self.room, "health")
        with self.measured("--health", health) as (path, process):
            with stopped(self, process):
                *idle, more = [self.enterContext(Client(self.place)) for _ in range(SCRAPES_MOST + 1)]
            self.assertEqual(more.until_closed(), b"", "one more")
            with Client(path) as client, Client(health) as check:
                check.say("GET / HTTP/1.0\r", "\r")
                self.assertIn(b"alive", check.until_closed(), "a check")
                self.assertEqual(client.ask(NEW), reply(1, "c1"), "a client")
            for link in idle:
                self.assertIn(b"408 Request Timeout", link.until_closed(), "those that ask for nothing")
            self.assertEqual(self.value("clients_connected_total"), 1, "then")

    def test_full(self):
        """A front that has no room for clients answers, and says so."""
        path = Path(self.room, "socket")
        words = ["sh", "-c", 'ulimit -n 40; exec "$@"', "sh", FRONT, "--quiet", "--metrics", self.place, path, self.program]
        with subprocess.Popen(words, stderr=subprocess.DEVNULL) as process:
            try:
                self.wait_for(path, process)
                clients = [self.enterContext(Client(path)) for _ in range(50)]
                self.wait_for_value(1, "clients_refused")
                self.assertLess(self.value("clients"), 50, "clients that were let in")
                for client in clients:
                    client.leave()
                self.wait_for_value(0, "clients_refused")
            finally:
                process.terminate()
            self.assertEqual(process.wait(PATIENCE), 0, "its end")

    def test_words(self):
        """A request in the words of a client finds nothing: the page is at a place of its own."""
        with self.measured() as (path, _), Client(path) as client:
            client.link.sendall(GET.encode())
            self.assertEqual(json.loads(client.hear()), {"error": "E01", "session": "-"}, "at the clients' socket")
            with Client(self.place) as other:
                other.say(text_of({"do": "status"}), "", "")
                self.assertTrue(other.until_closed().startswith(b"HTTP/1.0 405 "), "at that of metrics")
