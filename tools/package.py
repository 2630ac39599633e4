#!/usr/bin/env python3
"""Packs bin/metad and everything that `make install` installs, as a tarball for any folder or as a Debian package.

Debian has libmetad, if it is built, in packages of its own: `libmetad` to run programs with it, `libmetad-dev` to build them.

Packages are reproducible: their files belong to root and have the time of the newest commit, or of SOURCE_DATE_EPOCH.
SHA256SUMS in the folder has the checksums of all packages there.
Usage: package.py tarball|debian FOLDER
"""

from __future__ import annotations

import argparse
import gzip
import hashlib
import os
import re
import subprocess
import sys
import tarfile
from dataclasses import dataclass
from pathlib import Path
from tempfile import TemporaryDirectory
from typing import IO, Callable, Dict, List, Sequence, Tuple, cast

ROOT = Path(__file__).resolve().parent.parent
PROGRAM = ROOT / "bin" / "metad"
FRONT = ROOT / "bin" / "metad-front"
LIBRARY = ROOT / "bin" / "libmetad.so"
OF_MAKE = ("MAKEFLAGS", "MAKELEVEL", "MFLAGS")
ELF = b"\x7fELF\x02\x01"  # how programs begin that are of 64 bits, the lowest byte first
PROCESSOR, X86_64 = 18, 62  # where they say for which processor they are, and what is said of this one
FIRST_GLIBC = (2, 2, 5)  # that there was for it
SITE = "/usr/lib/python3/dist-packages"  # where Python looks on Debian
OF_GLIBC = ("libc.so", "libm.so", "libpthread.so", "libdl.so", "ld-linux-x86-64.so")
PACKAGES = {**dict.fromkeys(OF_GLIBC, "libc6"), "libgcc_s.so": "libgcc-s1"}
OLDEST_PYTHON = "3.8"
PACKED = ("metad-*.tar.gz", "metad_*.deb", "libmetad_*.deb", "libmetad-dev_*.deb")

ABOUT = """\
metad {version}, for x86-64 Linux with glibc {glibc} or later; the tools also need Python {python} or later.

This folder may be anywhere. With its bin/ on the path there are metad, metad-front, metad-shell, metad-check,
metad-explain, metad-slice, metad-inspect and metad-web, which needs Python's library websockets; with share/metad/python
on PYTHONPATH programs in Python find the client. Programs in JavaScript import share/metad/js/index.mjs.
{library}man -l share/man/man1/metad.1 shows the manual page, and share/doc/metad/README.md leads to the documents. sha256sum
-c SHA256SUMS compares all files.
"""

OF_LIBRARY = "Programs in C find the server inside a program with include/metad.h, lib/ and lib/pkgconfig/metad.pc.\n"

CONTROL = """\
Package: {name}
Version: {version}
Architecture: amd64
Maintainer: {maintainer}
Section: {section}
Priority: optional
Installed-Size: {size}
Depends: {depends}
{more}Description: {about}
"""

OF_PROGRAM = """\
server of live objects with the meta-object system of Qt 6
 Classes, trees of objects, signals and slots, properties that can be bound to
 others, queued events and publications between sessions, in one server whose
 sessions are isolated. Commands come in as JSON, one a line, and replies, calls
 and warnings go out as JSON lines. With a front for many clients of a socket, a
 line editor, a checker of class files, and clients for Python and JavaScript."""

OF_SHARED = """\
server of live objects inside a program, as a shared library
 The server metad without a process of its own: a program gives lines of JSON
 and fetches the answers."""

OF_HEADER = """\
server of live objects inside a program, to build programs with it
 The header, the static library and the file for pkg-config."""

LDCONFIG = "activate-noawait ldconfig\n"  # the system then makes its list of libraries again

COPYRIGHT = "The owner of metad has not chosen a licence yet.\n"

BEFORE_REMOVAL = """\
#!/bin/sh
set -e
for it in {folders}; do rm -rf "$DPKG_ROOT/usr/share/metad/$it/__pycache__"; done
"""


@dataclass(frozen=True)
class Package:
    """A package for Debian: its control fields, and the installed files that are its own and not those of `metad`."""

    name: str
    section: str
    depends: Callable[[], str]
    about: str
    more: str = ""
    files: Tuple[str, ...] = ()


class Unable(Exception):
    """Why there is no package, as a text for people."""


def version() -> str:
    """The version of the program and of the client."""
    found = re.search(r'^__version__ = "(.*)"$', (ROOT / "clients/python/metad/__init__.py").read_text(), re.MULTILINE)
    assert found
    return found[1]


def epoch() -> int:
    """The time that all files are given, in seconds."""
    said = os.environ.get("SOURCE_DATE_EPOCH")
    if said is None:
        ran = subprocess.run(["git", "-C", ROOT, "log", "-1", "--format=%ct"], capture_output=True, text=True)
        said = ran.stdout.strip() or "0"
    if not said.isdigit():
        raise Unable(f"SOURCE_DATE_EPOCH is no number of seconds: {said}")
    return int(said)


def needs_of(program: Path) -> Tuple[List[str], str]:
    """The libraries that a program needs, and the oldest glibc that has all that it asks for."""
    head = program.read_bytes()[: PROCESSOR + 1]
    if not head.startswith(ELF) or head[PROCESSOR] != X86_64:
        raise Unable(f"{program} is no program for x86-64")
    told = said_by(["objdump", "-p", program])
    versions = [tuple(map(int, it.split("."))) for it in re.findall(r"\bGLIBC_([0-9.]+)", told)]
    return re.findall(r"NEEDED\s+(\S+)", told), ".".join(map(str, max(versions, default=FIRST_GLIBC)))


def needs_of_all(*made: Path) -> Tuple[List[str], str]:
    """The libraries that programs and libraries need, and the oldest glibc that has all that they ask for."""
    libraries, versions = zip(*map(needs_of, made))
    newest = max(versions, key=lambda it: tuple(map(int, it.split("."))))
    return sorted({it for found in libraries for it in found}), newest


def said_by(words: Sequence[object], **more: str) -> str:
    """What a program writes, which has to end well."""
    own = {key: value for key, value in os.environ.items() if key not in OF_MAKE}
    try:
        ran = subprocess.run([str(it) for it in words], capture_output=True, text=True, env={**own, **more})
    except OSError as error:
        raise Unable(f"{words[0]} cannot be started: {error.strerror}") from None
    if ran.returncode:
        raise Unable((ran.stderr or ran.stdout).strip())
    return ran.stdout


def install(stage: Path, *words: str) -> None:
    """Installs into a folder, by the Makefile."""
    if not PROGRAM.is_file():
        raise Unable("bin/metad is not there yet: make builds it")
    if not FRONT.is_file():
        raise Unable("bin/metad-front is not there yet: make front builds it")
    said_by(["make", "-s", "-C", ROOT, "install", f"DESTDIR={stage}", *words])


def files_below(top: Path) -> List[Path]:
    """The files below a folder, without links, in the order of their paths."""
    return sorted(it for it in top.rglob("*") if it.is_file() and not it.is_symlink())


def sums_of(top: Path, algorithm: str) -> str:
    """The checksums of the files below a folder, as `sha256sum` writes them."""
    sums = ((hashlib.new(algorithm, it.read_bytes()).hexdigest(), it.relative_to(top)) for it in files_below(top))
    return "".join(f"{checksum}  {path}\n" for checksum, path in sums)


def settle(top: Path, time: int) -> None:
    """Gives all below a folder, and itself, the same time, and modes that no umask has a part in."""
    for it in [*top.rglob("*"), top]:
        if not it.is_symlink():
            it.chmod(0o755 if it.is_dir() or os.access(it, os.X_OK) else 0o644)
        os.utime(it, (time, time), follow_symlinks=False)


def tarball(folder: Path) -> List[Path]:
    """Makes the tarball; answers where it is."""
    name = f"metad-{version()}-x86_64-linux"
    path = folder / f"{name}.tar.gz"
    with TemporaryDirectory(prefix="metad-package-") as room:
        top = Path(room, name)
        install(top, "PREFIX=")
        made, library = ((PROGRAM, FRONT, LIBRARY), OF_LIBRARY) if LIBRARY.exists() else ((PROGRAM, FRONT), "")
        about = ABOUT.format(version=version(), glibc=needs_of_all(*made)[1], python=OLDEST_PYTHON, library=library)
        (top / "README").write_text(about)
        (top / "SHA256SUMS").write_text(sums_of(top, "sha256"))
        settle(top, epoch())
        write_tarball(path, top)
    return [path]


def write_tarball(path: Path, top: Path) -> None:
    """Writes a folder with all below it, in the order of the paths."""
    with path.open("wb") as file, gzip.GzipFile("", "wb", 9, file, mtime=0) as packed:
        with tarfile.open(fileobj=cast("IO[bytes]", packed), mode="w", format=tarfile.USTAR_FORMAT) as tar:
            for it in [top, *sorted(top.rglob("*"))]:
                tar.add(it, str(it.relative_to(top.parent)), recursive=False, filter=of_root)


def of_root(member: tarfile.TarInfo) -> tarfile.TarInfo:
    """A member of a tarball that belongs to root."""
    member.uid = member.gid = 0
    member.uname = member.gname = "root"
    return member


def debian(folder: Path) -> List[Path]:
    """Makes the packages for Debian; answers where they are."""
    with TemporaryDirectory(prefix="metad-package-") as room:
        top = Path(room, "metad")
        install(top, "PREFIX=/usr", f"SITE={SITE}")
        page = top / "usr/share/man/man1/metad.1"
        page.with_suffix(".1.gz").write_bytes(gzip.compress(page.read_bytes(), 9, mtime=0))
        page.unlink()
        packages = PACKAGES_OF_DEBIAN if LIBRARY.exists() else PACKAGES_OF_DEBIAN[:1]
        for package in reversed(packages[1:]):  # a link before what it leads to
            move(top, Path(room, package.name), package.files)
        return [packed(Path(room, it.name), it, folder) for it in packages]


def move(top: Path, to: Path, patterns: Sequence[str]) -> None:
    """Moves the files that some patterns name, and removes the folders that are empty then."""
    for path in [it for pattern in patterns for it in sorted(top.glob(pattern))]:
        new = to / path.relative_to(top)
        new.parent.mkdir(parents=True, exist_ok=True)
        path.rename(new)
        for above in path.relative_to(top).parents:
            if not any((top / above).iterdir()):
                (top / above).rmdir()


def packed(top: Path, package: Package, folder: Path) -> Path:
    """Makes a package for Debian of what a folder has; answers where it is."""
    path = folder / f"{package.name}_{version()}_amd64.deb"
    copyright = top / "usr/share/doc" / package.name / "copyright"
    copyright.parent.mkdir(parents=True, exist_ok=True)
    copyright.write_text(COPYRIGHT)
    describe(top, package)
    settle(top, epoch())
    words = ["dpkg-deb", "--root-owner-group", "--uniform-compression", "-Zxz", "--build", top, path]
    said_by(words, SOURCE_DATE_EPOCH=str(epoch()))
    return path


def describe(top: Path, package: Package) -> None:
    """Puts into a folder what Debian has to know of the package."""
    sums, size = sums_of(top, "md5"), sum(it.stat().st_size for it in files_below(top))
    told = CONTROL.format(
        name=package.name, version=version(), maintainer=os.environ.get("MAINTAINER", "metad <metad@localhost>"), section=package.section,
        size=-(-size // 1024), depends=package.depends(), more=package.more, about=package.about,
    )  # fmt: skip
    shared = top / "usr/share/metad"
    folders = sorted(str(it.relative_to(shared)) for it in {path.parent for path in shared.rglob("*.py")})
    (top / "DEBIAN").mkdir()
    (top / "DEBIAN/control").write_text(told)
    (top / "DEBIAN/md5sums").write_text(sums)
    if any((top / "usr/lib").glob("*.so.*")):
        (top / "DEBIAN/triggers").write_text(LDCONFIG)
    if folders:
        (top / "DEBIAN/prerm").write_text(BEFORE_REMOVAL.format(folders=" ".join(folders)))
        (top / "DEBIAN/prerm").chmod(0o755)


def needed(*made: Path) -> str:
    """The packages of Debian that programs or libraries need."""
    libraries, glibc = needs_of_all(*made)
    named = [it.partition(".so")[0] + ".so" for it in libraries]
    unknown = [it for it in named if it not in PACKAGES]
    if unknown:
        raise Unable(f"no package of Debian is known here for {', '.join(unknown)}")
    versions = {"libc6": f" (>= {glibc})"}
    return ", ".join(it + versions.get(it, "") for it in sorted({PACKAGES[it] for it in named}))


PACKAGES_OF_DEBIAN = (
    Package(
        "metad", "devel", lambda: f"{needed(PROGRAM, FRONT)}, python3 (>= {OLDEST_PYTHON})", OF_PROGRAM, "Suggests: libmetad, python3-websockets\n"
    ),
    Package("libmetad", "libs", lambda: needed(LIBRARY), OF_SHARED, files=("usr/lib/libmetad.so.*",)),
    Package(
        "libmetad-dev", "libdevel", lambda: f"libmetad (= {version()}), libc6-dev", OF_HEADER,
        files=("usr/include/metad.h", "usr/lib/libmetad.a", "usr/lib/libmetad.so", "usr/lib/pkgconfig/metad.pc"),
    ),
)  # fmt: skip

MAKERS: Dict[str, Callable[[Path], List[Path]]] = {"tarball": tarball, "debian": debian}


def main() -> int:
    words = argparse.ArgumentParser(description="Packs bin/metad as it is, with all that `make install` installs.")
    words.add_argument("kind", choices=MAKERS, help="a tarball for any folder, or packages for Debian")
    words.add_argument("folder", type=Path, help="where it is put, with its SHA256SUMS")
    given = words.parse_args()
    try:
        given.folder.mkdir(parents=True, exist_ok=True)
        print(*MAKERS[given.kind](given.folder), sep="\n")
        packages = sorted(it for pattern in PACKED for it in given.folder.glob(pattern))
        lines = (f"{hashlib.sha256(it.read_bytes()).hexdigest()}  {it.name}\n" for it in packages)
        (given.folder / "SHA256SUMS").write_text("".join(lines))
    except (Unable, OSError) as error:
        print(f"package.py: {error}", file=sys.stderr)
        return 1
    except KeyboardInterrupt:
        return 130
    return 0


if __name__ == "__main__":
    sys.exit(main())
