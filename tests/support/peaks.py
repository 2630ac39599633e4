"""Peaks of the program's memory while it is given one part of its input after another."""

from __future__ import annotations

import subprocess
import time
from pathlib import Path
from tempfile import TemporaryDirectory
from typing import Iterable, NamedTuple

PATIENCE = 120  # seconds in which a part has to be answered
PAUSE = 0.01


class Part(NamedTuple):
    """Some lines of input, and what has to be written for them."""

    given: bytes
    wanted: bytes


def peak_of(process: subprocess.Popen) -> int:
    """The most memory that a process has had so far, in KiB."""
    status = Path(f"/proc/{process.pid}/status").read_text()
    return int(next(line.split()[1] for line in status.splitlines() if line.startswith("VmHWM")))


def wait_for(process: subprocess.Popen, wrote: Path, size: int) -> None:
    """Waits until a process has written so many bytes."""
    until = time.monotonic() + PATIENCE
    while wrote.stat().st_size < size:
        if process.poll() is not None or time.monotonic() > until:
            raise AssertionError(f"{wrote.stat().st_size:,} bytes were written, and not {size:,}")
        time.sleep(PAUSE)


def peaks_of(program: str, parts: Iterable[Part]) -> list[int]:
    """The peak of memory, in KiB, when each part is answered as it has to be."""
    peaks, done = [], 0
    with TemporaryDirectory(prefix="metad-peaks-") as room:
        wrote = Path(room, "wrote")
        with open(wrote, "wb") as sink, open(wrote, "rb") as written:
            with subprocess.Popen([program], stdin=subprocess.PIPE, stdout=sink) as process:
                try:
                    for part in parts:
                        process.stdin.write(part.given)
                        process.stdin.flush()
                        done += len(part.wanted)
                        wait_for(process, wrote, done)
                        if written.read() != part.wanted:
                            raise AssertionError("other lines were written than have to be")
                        peaks.append(peak_of(process))
                    process.stdin.close()
                    if process.wait(PATIENCE):
                        raise AssertionError(f"the program ended with {process.returncode}")
                finally:
                    process.kill()
    return peaks
