"""A server of a socket, played by a test: for each connection the lines that it waits for, and its answers."""

import json
import socket
import threading
from pathlib import Path

PATIENCE = 60  # seconds in which each line has to come


class Talker:
    """A socket at which the test answers, by a thread of its own."""

    def __init__(self, room):
        self.path = Path(room, "talker.sock")
        self.path.unlink(missing_ok=True)
        self._listener = socket.socket(socket.AF_UNIX)
        self._listener.bind(str(self.path))
        self._listener.listen()
        self._listener.settimeout(PATIENCE)
        self._heard = []
        self._thread = None

    def __enter__(self):
        return self

    def __exit__(self, *_error):
        self.heard()
        self._listener.close()

    def play(self, *connections):
        """Plays connections, one after the other: each is pairs of a line and of the lines that answer it. Each but the last
        is closed then, unless the last answer is None, which waits until the client has closed it."""
        self.heard()
        self._heard = []
        self._thread = threading.Thread(target=self._run, args=(connections,), daemon=True)
        self._thread.start()

    def _run(self, connections):
        for number, lines in enumerate(connections):
            if number:
                self._heard.append("")
            with self._listener.accept()[0] as link, link.makefile("rb") as reader:
                link.settimeout(PATIENCE)
                for _, answers in lines:
                    self._heard.append(reader.readline().decode().rstrip("\n"))
                    if answers:
                        link.sendall("".join(f"{json.dumps(it)}\n" for it in answers).encode())
                if lines and (number == len(connections) - 1 or lines[-1][1] is None):
                    self._heard += [it.decode().rstrip("\n") for it in reader]

    def so_far(self):
        """The lines that have come by now."""
        return list(self._heard)

    def heard(self):
        """The lines that came, once all connections have ended; between two of them an empty one."""
        if self._thread is not None:
            self._thread.join(PATIENCE)
        return self._heard
