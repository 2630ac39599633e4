"""Builds the package `metad` as a wheel, also for use from where it is, or as a source archive. `pip` calls it, see
pyproject.toml. It needs nothing but Python's standard library, so that `pip install` needs no network."""

from __future__ import annotations

import base64
import gzip
import hashlib
import io
import os
import re
import tarfile
import time
import zipfile
from pathlib import Path
from typing import Dict, Optional

ROOT = Path(__file__).resolve().parent
OWN = Path(__file__).name
FIRST_TIME = 315_532_800  # 1980-01-01, the first time that an archive can have
TAG = "py3-none-any"
SAID = re.compile(r'^([a-z-]+) = "([^"\\]*)"$', re.MULTILINE)
VERSION = re.compile(r'^__version__ = "([0-9.]+)"$', re.MULTILINE)

Settings = Optional[Dict[str, object]]
Files = Dict[str, bytes]


def build_wheel(wheel_directory: str, config_settings: Settings = None, metadata_directory: Optional[str] = None) -> str:
    """Writes a wheel with the package; answers its name."""
    return write_wheel(Path(wheel_directory), package())


def build_editable(wheel_directory: str, config_settings: Settings = None, metadata_directory: Optional[str] = None) -> str:
    """Writes a wheel that has Python use the package from where it is; answers its name."""
    return write_wheel(Path(wheel_directory), {"metad.pth": f"{ROOT}\n".encode()})


def build_sdist(sdist_directory: str, config_settings: Settings = None) -> str:
    """Writes an archive of the sources; answers its name."""
    top = f"{said()['name']}-{said()['version']}"
    own = {name: (ROOT / name).read_bytes() for name in ("README.md", "pyproject.toml", OWN)}
    text = io.BytesIO()
    with tarfile.open(fileobj=text, mode="w", format=tarfile.PAX_FORMAT) as archive:
        for name, data in sorted({**package(), **own, "PKG-INFO": metadata()}.items()):
            entry = tarfile.TarInfo(f"{top}/{name}")
            entry.size, entry.mtime, entry.mode = len(data), time_of_files(), 0o644
            archive.addfile(entry, io.BytesIO(data))
    Path(sdist_directory, f"{top}.tar.gz").write_bytes(gzip.compress(text.getvalue(), mtime=time_of_files()))
    return f"{top}.tar.gz"


def package() -> Files:
    """The files of the package."""
    found = sorted((ROOT / "metad").glob("*.py")) + [ROOT / "metad" / "py.typed"]
    return {f"metad/{path.name}": path.read_bytes() for path in found}


def said() -> Dict[str, str]:
    """What pyproject.toml says of the project in plain texts, and its version, which the package itself says."""
    project = (ROOT / "pyproject.toml").read_text(encoding="utf-8").partition("[project]\n")[2].partition("\n[")[0]
    version = VERSION.search((ROOT / "metad" / "__init__.py").read_text(encoding="utf-8"))
    if version is None:
        raise ValueError("metad/__init__.py does not say a version")
    return {**dict(SAID.findall(project)), "version": version[1]}


def metadata() -> bytes:
    """The description of the package for those that install it."""
    project = said()
    lines = [
        "Metadata-Version: 2.1",
        f"Name: {project['name']}",
        f"Version: {project['version']}",
        f"Summary: {project['description']}",
        f"Requires-Python: {project['requires-python']}",
        "Description-Content-Type: text/markdown",
    ]
    return "\n".join([*lines, "", (ROOT / project["readme"]).read_text(encoding="utf-8")]).encode()


def write_wheel(folder: Path, files: Files) -> str:
    """Writes a wheel with these files; answers its name."""
    top = f"{said()['name']}-{said()['version']}"
    about = f"{top}.dist-info"
    wheel = f"Wheel-Version: 1.0\nGenerator: {Path(OWN).stem}\nRoot-Is-Purelib: true\nTag: {TAG}\n"
    whole = {**files, f"{about}/METADATA": metadata(), f"{about}/WHEEL": wheel.encode()}
    record = [f"{name},sha256={digest(data)},{len(data)}" for name, data in whole.items()]
    whole[f"{about}/RECORD"] = "\n".join([*record, f"{about}/RECORD,,", ""]).encode()
    with zipfile.ZipFile(folder / f"{top}-{TAG}.whl", "w", zipfile.ZIP_DEFLATED) as archive:
        for name, data in whole.items():
            entry = zipfile.ZipInfo(name, time.gmtime(time_of_files())[:6])
            entry.external_attr, entry.compress_type = 0o100644 << 16, zipfile.ZIP_DEFLATED
            archive.writestr(entry, data)
    return f"{top}-{TAG}.whl"


def digest(data: bytes) -> str:
    """The checksum of a file, as a wheel's record has it."""
    return base64.urlsafe_b64encode(hashlib.sha256(data).digest()).rstrip(b"=").decode()


def time_of_files() -> int:
    """The time that all files in an archive have: so the same sources are always the same archive."""
    return max(FIRST_TIME, int(os.environ.get("SOURCE_DATE_EPOCH", FIRST_TIME)))
