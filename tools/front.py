#!/usr/bin/env python3
"""Builds the front (front/) as bin/metad-front, or its load generator as bin/metad-load; runs the tests in its code; or
installs what these need.

Crates come from Debian's packages where these are installed; otherwise cargo fetches them.
Usage: front.py build|load|test|needs
"""

from __future__ import annotations

import os
import re
import shutil
import subprocess
import sys
from pathlib import Path
from typing import Callable, Dict, List, Optional

ROOT = Path(__file__).resolve().parent.parent
SOURCE = ROOT / "front"
WORK = ROOT / "bin" / "build-front"
VERSION = ROOT / "clients" / "python" / "metad" / "__init__.py"
SYSTEM = Path("/usr/share/cargo/registry")
PACKAGES = (
    "cargo", "rustc", "librust-asn1-dev", "librust-blake2b-simd-dev", "librust-listenfd-dev", "librust-memchr-dev",
    "librust-mio-dev", "librust-nix-dev", "librust-ring-dev", "librust-rustls-dev", "librust-rustls-pemfile-dev",
    "librust-sd-notify-dev", "librust-serde-derive-dev", "librust-serde-dev", "librust-serde-json-dev", "librust-signal-hook-dev",
    "librust-slab-dev", "librust-socket2-dev", "librust-toml-dev", "librust-webpki-dev",
)  # fmt: skip
RELAY = "python3-websockets"
RELAY_ADVICE = f"metad-web and its tests need a library: apt-get install {RELAY}"
ADVICE = f"the front needs cargo and some crates: apt-get install {' '.join(PACKAGES)}"
CONFIG = f"""\
[source.crates-io]
replace-with = "system"

[source.system]
directory = "{SYSTEM}"
"""


class Unable(Exception):
    """Why the front cannot be built, as a text for people."""


def cargo() -> Optional[str]:
    """Where cargo is."""
    places = os.pathsep.join([os.environ.get("PATH", ""), str(Path.home() / ".cargo" / "bin")])
    return shutil.which("cargo", path=places)


def has_crates() -> bool:
    """Whether the system has all crates of Cargo.lock, of these versions."""
    lock = (SOURCE / "Cargo.lock").read_text()
    found = re.findall(r'name = "(.+)"\nversion = "(.+)"\nsource = ', lock)
    return all((SYSTEM / f"{name}-{version}").is_dir() for name, version in found)


def lay_out() -> List[str]:
    """A folder to build in, where cargo may change the lock file; answers further words for cargo."""
    WORK.mkdir(parents=True, exist_ok=True)
    for name in ("Cargo.toml", "Cargo.lock"):
        shutil.copy(SOURCE / name, WORK / name)
    link = WORK / "src"
    if not link.is_symlink():
        link.symlink_to(SOURCE / "src")
    if not has_crates():
        return []
    (WORK / "system.toml").write_text(CONFIG)
    return ["--config", "system.toml", "--offline"]


def version() -> str:
    """The version of metad, which the front shows."""
    (found,) = re.findall(r'^__version__ = "(.+)"$', VERSION.read_text(), re.MULTILINE)
    return found


def run_cargo(*words: str) -> None:
    """Has cargo do something with the package."""
    program = cargo()
    if program is None:
        raise Unable(ADVICE)
    own = {**os.environ, "CARGO_TARGET_DIR": str(WORK / "target"), "PATH": f"{Path(program).parent}{os.pathsep}{os.environ['PATH']}"}
    own["METAD_VERSION"] = version()
    if subprocess.run([program, *lay_out(), *words], cwd=WORK, env=own).returncode:
        raise Unable(f"cargo has not done it. Where it cannot fetch crates, {ADVICE}")


def build(name: str = "metad-front", *more: str) -> None:
    """Builds a program of the package into bin/."""
    run_cargo("build", "--release", "--quiet", "--bin", name, *more)
    made = ROOT / "bin" / name
    shutil.copy(WORK / "target" / "release" / name, made.with_suffix(".new"))
    made.with_suffix(".new").replace(made)


def has_relay_library() -> bool:
    """Whether the system's Python has what metad-web needs."""
    python = "/usr/bin/python3"
    words = [python, "-c", "import websockets"]
    return os.path.exists(python) and subprocess.run(words, stderr=subprocess.DEVNULL).returncode == 0


def needs() -> None:
    """Installs what the front and metad-web need, where this may be done; else says what to install."""
    can_build = cargo() is not None and has_crates()
    of_front = () if can_build else PACKAGES if cargo() is None else PACKAGES[2:]
    of_relay = () if has_relay_library() else (RELAY,)
    if not of_front and not of_relay:
        return
    if os.geteuid() != 0 or shutil.which("apt-get") is None:
        print("\n".join([ADVICE] * bool(of_front) + [RELAY_ADVICE] * bool(of_relay)))
        return
    # a new machine may not have the lists of packages yet; where they cannot be fetched, those that it has may do
    subprocess.run(["apt-get", "update", "-q"], stdout=subprocess.DEVNULL)
    for wanted, advice in ((of_front, ADVICE), (of_relay, RELAY_ADVICE)):
        words = ["apt-get", "install", "-y", "-q", "--no-install-recommends", *wanted]
        if wanted and subprocess.run(words, stdout=subprocess.DEVNULL).returncode:
            if wanted is of_front:
                raise Unable(advice)
            print(advice)


def main() -> int:
    kinds: Dict[str, Callable[[], None]] = {
        "build": build,
        "load": lambda: build("metad-load", "--features", "load"),
        "test": lambda: run_cargo("test", "--quiet"),
        "needs": needs,
    }
    if sys.argv[1:] == ["--help"]:
        print(__doc__)
        return 0
    if len(sys.argv) != 2 or sys.argv[1] not in kinds:
        print("usage: front.py build|load|test|needs", file=sys.stderr)
        return 2
    try:
        kinds[sys.argv[1]]()
    except (OSError, Unable) as error:
        print(f"front.py: {error}", file=sys.stderr)
        return 1
    return 0


if __name__ == "__main__":
    sys.exit(main())
