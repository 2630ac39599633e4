"""How tests ask an inspector by HTTP, as the page does."""

import http.client
import json
import re
import subprocess
import time
from contextlib import contextmanager
from urllib.parse import urlencode, urlsplit

from .fronts import PATIENCE, FrontCases

ADDRESS = re.compile(r"metad-(?:front|inspect|\w+): shown at (http://127\.0\.0\.1:\d+/[\w-]+/)|inspect: shown at (http://\S+/)")


def address_in(lines):
    """The address that is said in some lines."""
    found = [match for match in map(ADDRESS.search, lines) if match]
    return found[0][1] or found[0][2]


class Asker:
    """Asks an inspector."""

    def __init__(self, address):
        self.address = address
        parts = urlsplit(address)
        self.host, self.port, self.path = parts.hostname, parts.port, parts.path
        self.own = f"{self.host}:{self.port}"

    def answer(self, method, path, body=None, **headers):
        """The status, the headers and the body of an answer to a request as it is."""
        link = http.client.HTTPConnection(self.host, self.port, timeout=PATIENCE)
        try:
            link.request(method, path, body, headers)
            answer = link.getresponse()
            return answer.status, dict(answer.getheaders()), answer.read()
        finally:
            link.close()

    def get(self, name, **asked):
        """What is known, or None."""
        status, _, body = self.answer("GET", f"{self.path}{name}?{urlencode(asked)}")
        return json.loads(body) if status == 200 else None

    def post(self, name, asked):
        """What came of it, or the status of a refusal."""
        status, _, body = self.answer("POST", self.path + name, json.dumps(asked), **{"Content-Type": "application/json"})
        return json.loads(body) if status == 200 else status

    def ask(self, session, **command):
        return self.post("ask", {"session": session, "command": command})

    def until(self, test, holds, name, **asked):
        """What is known as soon as it is so."""
        until = time.monotonic() + 4 * PATIENCE
        while True:
            found = self.get(name, **asked)
            if found is not None and holds(found):
                return found
            if time.monotonic() > until:
                test.fail(f"it is not so: {name} {asked}: {found}")
            time.sleep(0.02)


class InspectCases(FrontCases):
    """Tests of a front that is shown."""

    @contextmanager
    def shown(self, *words, options=(), server=None):
        """The path of a front that is shown, its process, and who asks its inspector."""
        with self.front(*words, options=("--quiet", "--inspect", "0", *options), server=server) as (path, process):
            yield path, process, Asker(address_in(self.said_by(process)))

    def said_by(self, process):
        """What a front has said, as soon as the address is among it."""
        until = time.monotonic() + PATIENCE
        while not any(map(ADDRESS.search, process.log.lines())):
            self.assertLess(time.monotonic(), until, "no address is said")
            time.sleep(0.01)
        return process.log.lines()

    def inspector_of(self, process):
        """The process of the inspector of a front."""
        found = subprocess.run(["ps", "-o", "pid=,args=", "--ppid", str(process.pid)], capture_output=True, text=True).stdout
        return next(int(line.split()[0]) for line in found.splitlines() if "--feed" in line)
