"""The program under test, and its runs: what it is given, and the expected results."""

import os
import subprocess
from dataclasses import dataclass
from pathlib import Path

from .differences import difference, line_asked, shown_input

ROOT = Path(__file__).resolve().parents[2]
ROWS = ROOT / "tests" / "rows"
SECONDS = 300  # in which a run has to end: a machine may be slow, and only what hangs gets there
OF_MAKE = ("MAKEFLAGS", "MAKELEVEL", "MFLAGS")


def program_under_test():
    """The path of the program that is tested: the one that METAD names, or bin/metad."""
    path = Path(os.environ.get("METAD") or ROOT / "bin" / "metad").resolve()
    if not os.access(path, os.X_OK) or path.is_dir():
        raise FileNotFoundError(f"{path} is no program: `make` builds bin/metad, and METAD=PROGRAM names another one")
    return str(path)


def make(*words, folder=ROOT):
    """Runs the Makefile as if no other make had called it."""
    own = {key: value for key, value in os.environ.items() if key not in OF_MAKE}
    words = ["make", "-s", "-f", ROOT / "Makefile", *words]
    return subprocess.run(words, cwd=folder, env=own, capture_output=True, text=True, timeout=3 * SECONDS)


def library(name):
    """The path of a library that is preloaded into the program; it is built where it is not there."""
    made = make(f"bin/{name}.so")
    if made.returncode:
        raise FileNotFoundError(f"bin/{name}.so cannot be built: {made.stderr}")
    return str(ROOT / "bin" / f"{name}.so")


def lay_out(room, links):
    """Puts links into a folder, each a path with what it leads to."""
    for path, end in links.items():
        link = Path(room, path)
        link.parent.mkdir(exist_ok=True)
        link.symlink_to(end)


def run_shell(script, room, **variables):
    """Runs a script of the shell in a folder, with these variables and no input."""
    words, own = ["sh", "-c", script], {**os.environ, **variables}
    return subprocess.run(words, stdin=subprocess.DEVNULL, capture_output=True, cwd=room, timeout=SECONDS, env=own)


@dataclass
class Row:
    """One run of a program in a folder: its words and input, and its status and what it writes."""

    name: str
    given: bytes
    stdout: bytes | None  # None where any text is allowed
    stderr: bytes | None = b""
    status: int = 0
    words: tuple[str, ...] = ()
    folder: Path | None = None
    seconds: int = SECONDS

    def run(self, program, **more):
        words = [program, *self.words]
        return subprocess.run(words, input=self.given, capture_output=True, timeout=self.seconds, cwd=self.folder, **more)

    def passes(self, ran):
        """Whether a run has the status and wrote the texts that it had to."""
        pairs = [(self.status, ran.returncode), (self.stdout, ran.stdout), (self.stderr, ran.stderr)]
        return all(wanted is None or came == wanted for wanted, came in pairs)

    def fault(self, ran):
        """What is wrong with a run, with its words and its input, or None."""
        return None if self.passes(ran) else "\n".join([*self.faults(ran), *self.asked(ran)])

    def faults(self, ran):
        """In what a run differs from what it has to be."""
        if ran.returncode != self.status:
            yield f"status {ran.returncode}, and not {self.status}; on standard error {ran.stderr[-300:]!r}"
        for stream, wanted, came in (("error", self.stderr, ran.stderr), ("output", self.stdout, ran.stdout)):
            if wanted not in (None, came):
                yield f"on standard {stream} {difference(wanted, came)}"

    def asked(self, ran):
        """The words, and the input up to the line whose answer differs first."""
        differs = self.stdout not in (None, ran.stdout)
        yield f"its words: {self.words}"
        yield shown_input(self.given, line_asked(self.given, self.stdout, ran.stdout) if differs else None)


def rows_in(path):
    """The rows of a folder by name, each a folder with `stdin` and `stdout`.

    It may also have `args` (one word a line), `status` and `stderr`. Without `stderr` nothing may be
    written there, or any text if the status is 2.
    """
    return [row_of(folder.resolve()) for folder in sorted(Path(path).iterdir())]


def row_of(folder):
    def bytes_of(name, otherwise):
        return (folder / name).read_bytes() if (folder / name).exists() else otherwise

    status = int(bytes_of("status", b"0"))
    return Row(
        name=folder.name,
        given=bytes_of("stdin", b""),
        stdout=bytes_of("stdout", b""),
        stderr=bytes_of("stderr", None if status == 2 else b""),
        status=status,
        words=tuple(bytes_of("args", b"").decode().splitlines()),
        folder=folder,
    )
