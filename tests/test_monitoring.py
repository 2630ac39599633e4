"""What monitors fronts (examples/monitoring): a dashboard, alerts, and settings of Prometheus, compared with the metrics of a front."""

import json
import re
import shutil
import subprocess
from pathlib import Path

from tests.test_clients.fronts import NEW, PATIENCE, STATUS, Client, error
from tests.test_clients.grouped import WorkerCases

from .support.program import ROOT

FOLDER = ROOT / "examples" / "monitoring"
MACHINES = ROOT / "examples" / "machines"
METRIC = re.compile(r"\bmetad_front_\w+")
HISTOGRAM = re.compile(r"_(?:bucket|sum|count)$")
LABELS = re.compile(r"\{([^{}]*)\}|\bby \(([^()]*)\)")
OF_PROMETHEUS = {"instance", "job", "le"}
RULE = re.compile(r"^ +expr: (.*)$", re.MULTILINE)
BLOCK = re.compile(r"^```\n((?:frontend)(?:(?!```).*\n)*)```$", re.MULTILINE)


class Monitoring(WorkerCases):
    """The examples for Prometheus and Grafana."""

    def page(self):
        """The metrics of a front that has had errors of server and front."""
        place = Path(self.room, "metrics")
        with self.workers(2, options=("--metrics", place, "--record", str(self.records))) as (path, _):
            with Client(path) as client, Client(path) as other:
                client.ask(NEW)
                self.assertEqual(client.ask("nonsense"), error("E01", "-"))
                other.say('{"front":"nonsense"}')
                other.told()
                client.ask(STATUS)
                with Client(place) as asker:
                    asker.say("GET /metrics HTTP/1.0\r", "\r")
                    return asker.until_closed().decode().partition("\r\n\r\n")[2]

    def queries(self):
        """All queries, each with where it is."""
        board = json.loads((FOLDER / "metad.json").read_text())
        for panel in board["panels"]:
            for target in panel["targets"]:
                yield f"panel {panel['title']!r}", target["expr"]
        for variable in board["templating"]["list"]:
            if variable["type"] == "query":
                yield f"variable {variable['name']}", variable["query"]["query"]
        for query in RULE.findall((FOLDER / "metad.rules.yml").read_text()):
            yield "an alert", query

    def test_metrics(self):
        """Each query names only metrics that a front has, and only labels that these have; and it names some metric."""
        page = self.page()
        there = set(re.findall(r"^# TYPE (\w+) ", page, re.MULTILINE))
        labels = set(re.findall(r'\{(\w+)="', page)) | OF_PROMETHEUS
        queries = list(self.queries())
        self.assertGreater(len(queries), 30)
        for where, query in queries:
            named = {HISTOGRAM.sub("", name) if HISTOGRAM.sub("", name) in there else name for name in METRIC.findall(query)}
            self.assertLessEqual(named, there, f"{where}: {query}")
            self.assertTrue(named or query == 'up{job="metad"}', f"{where}: {query}")
            used = {word.strip() for found in LABELS.findall(query) for word in re.sub(r'[=!]~?"[^"]*"', "", ",".join(found)).split(",")}
            self.assertLessEqual(used - {""}, labels, f"{where}: {query}")

    def test_dashboard(self):
        """The panels of the dashboard have numbers of their own, do not overlap, and each has a query and a unit."""
        board = json.loads((FOLDER / "metad.json").read_text())
        panels, taken = board["panels"], set()
        self.assertEqual(len({it["id"] for it in panels}), len(panels), "their numbers")
        for panel in panels:
            at = panel["gridPos"]
            cells = {(x, y) for x in range(at["x"], at["x"] + at["w"]) for y in range(at["y"], at["y"] + at["h"])}
            self.assertFalse(cells & taken, panel["title"])
            self.assertLessEqual(at["x"] + at["w"], 24, panel["title"])
            taken |= cells
            self.assertTrue(panel["targets"] and panel["fieldConfig"]["defaults"]["unit"], panel["title"])
            letters = [it["refId"] for it in panel["targets"]]
            self.assertEqual(len(set(letters)), len(letters), panel["title"])

    def test_promtool(self):
        """promtool takes the rules and the settings, and finds three alerts."""
        if shutil.which("promtool") is None:
            self.skipTest("promtool is not on the path: apt-get install prometheus (Debian)")
        for words in (("rules", "metad.rules.yml"), ("config", "prometheus.yml")):
            ran = subprocess.run(["promtool", "check", *words], cwd=FOLDER, capture_output=True, text=True, timeout=PATIENCE)
            self.assertEqual((ran.returncode, ran.stderr), (0, ""), ran.stdout)
            self.assertIn("3 rules found", ran.stdout)

    def test_alerts(self):
        """The alerts fire where they should, and only there, as promtool computes it."""
        if shutil.which("promtool") is None:
            self.skipTest("promtool is not on the path: apt-get install prometheus (Debian)")
        shutil.copy(FOLDER / "metad.rules.yml", self.room)
        Path(self.room, "tests.yml").write_text(ALERTS)
        ran = subprocess.run(["promtool", "test", "rules", "tests.yml"], cwd=self.room, capture_output=True, text=True, timeout=PATIENCE)
        self.assertEqual(ran.returncode, 0, ran.stdout + ran.stderr)

    def test_proxy(self):
        """HAProxy takes the page's lines."""
        if shutil.which("haproxy", path="/usr/sbin:/usr/local/sbin:/usr/bin:/usr/local/bin") is None:
            self.skipTest("haproxy is not on the path: apt-get install haproxy (Debian)")
        (block,) = BLOCK.findall((FOLDER / "README.md").read_text())
        path = Path(self.room, "metrics.cfg")
        path.write_text("defaults\n    timeout connect 5s\n    timeout client 5s\n    timeout server 5s\n\n" + block)
        program = shutil.which("haproxy", path="/usr/sbin:/usr/local/sbin:/usr/bin:/usr/local/bin")
        ran = subprocess.run([program, "-c", "-f", path], capture_output=True, text=True, timeout=PATIENCE)
        self.assertEqual((ran.returncode, ran.stderr), (0, ""), ran.stdout)


# Three fronts: one serves, one does not answer, and one is slow and has lost sessions.
ALERTS = """\
rule_files:
  - metad.rules.yml
evaluation_interval: 1m
tests:
  - interval: 1m
    input_series:
      - series: up{job="metad",instance="good"}
        values: 1x20
      - series: up{job="metad",instance="gone"}
        values: 0x20
      - series: metad_front_command_wait_seconds_bucket{instance="good",le="0.01"}
        values: 0+100x20
      - series: metad_front_command_wait_seconds_bucket{instance="good",le="+Inf"}
        values: 0+100x20
      - series: metad_front_command_wait_seconds_bucket{instance="slow",le="1"}
        values: 0x20
      - series: metad_front_command_wait_seconds_bucket{instance="slow",le="2.5"}
        values: 0+100x20
      - series: metad_front_command_wait_seconds_bucket{instance="slow",le="+Inf"}
        values: 0+100x20
      - series: metad_front_errors_total{instance="good",code="E04"}
        values: 0+5x20
      - series: metad_front_errors_total{instance="slow",code="F04"}
        values: 0x10 1x10
      - series: metad_front_records_broken{instance="good"}
        values: 0x20
    alert_rule_test:
      - eval_time: 3m
        alertname: MetadDown
        exp_alerts:
          - exp_labels: {severity: critical, job: metad, instance: gone}
            exp_annotations:
              summary: gone does not serve
              description: The front does not answer, or a server has been missing or busy with replays for a minute.
      - eval_time: 15m
        alertname: MetadSlow
        exp_alerts:
          - exp_labels: {severity: warning, instance: slow}
            exp_annotations:
              summary: Commands wait at slow
              description: One command of a hundred waits more than a second until its server begins it. Add workers, or find the client that keeps its server busy.
      - eval_time: 15m
        alertname: MetadLost
        exp_alerts:
          - exp_labels: {severity: critical, instance: slow, code: F04}
            exp_annotations:
              summary: slow has lost sessions, or cannot restore some
              description: A server ended and its sessions could not be restored, or a record cannot be written. The log says why.
"""
