"""The client for Qt: its generated header, its own tests, its package and its examples.

All but the header's tests need cmake, a compiler and Qt 6, and are skipped where these are not installed.
"""

from __future__ import annotations

import os
import shutil
import subprocess
import sys
import unittest
from functools import lru_cache
from pathlib import Path

from tests.support.cases import Cases
from tests.support.documents import version
from tests.support.program import ROOT

from . import CLIENTS
from .fronts import FRONT, PATIENCE, FrontCases

TOOL = ROOT / "tools" / "qt_commands.py"
SOURCE = CLIENTS / "qt"
EXAMPLES = ROOT / "examples" / "qt"
BUILD = ROOT / "bin" / "build-qt"
BUILDING = 3600  # seconds that a build may take on a machine that is busy
RUNNING = 10 * PATIENCE
QML_MODULES = ("QtQuick", "QtQml/WorkerScript")
QML_PACKAGES = "qt6-declarative-dev qml6-module-qtquick qml6-module-qtqml-workerscript"
OPTIONS = ("-DMETAD_QT_TESTS=ON", "-DMETAD_QT_EXAMPLES=ON", "-DCMAKE_UNITY_BUILD=ON")
USER = """\
cmake_minimum_required(VERSION 3.16)
project(user LANGUAGES CXX)
set(CMAKE_CXX_STANDARD 17)
find_package(metad-qt {} REQUIRED)
add_executable(user user.cpp)
target_link_libraries(user PRIVATE Metad::Qt)
"""
USES = """\
#include <metad/session.h>
#include <cstdio>
int main() { std::puts(qPrintable(Metad::meaningOf("E04"))); }
"""


def run(*words: object, seconds: int = RUNNING, **variables: str) -> subprocess.CompletedProcess[str]:
    """Runs a program to its end, without a screen."""
    own = {**os.environ, "QT_QPA_PLATFORM": "offscreen", **variables}
    return subprocess.run([str(it) for it in words], capture_output=True, text=True, timeout=seconds, env=own)


def cmake(*words: object) -> subprocess.CompletedProcess[str]:
    """Runs cmake, on all processors where the environment does not say on how many."""
    level = os.environ.get("CMAKE_BUILD_PARALLEL_LEVEL") or str(os.cpu_count() or 1)
    return run("cmake", *words, seconds=BUILDING, CMAKE_BUILD_PARALLEL_LEVEL=level)


@lru_cache(maxsize=None)
def built() -> str:
    """Builds everything once; answers why it cannot be built here, or an empty text."""
    if shutil.which("cmake") is None:
        return "cmake is not installed (Debian: apt-get install cmake)"
    made = cmake("-S", SOURCE, "-B", BUILD, *OPTIONS)
    if made.returncode and "Qt6" in made.stderr and "package configuration file" in made.stderr:
        return "Qt 6 is not installed (Debian: apt-get install qt6-base-dev)"
    if made.returncode and "CMAKE_CXX_COMPILER" in made.stderr:
        return "there is no compiler for C++ (Debian: apt-get install g++)"
    made = made if made.returncode else cmake("--build", BUILD)
    if made.returncode:
        raise AssertionError(f"the Qt client cannot be built: {made.stdout[-3000:]}{made.stderr[-3000:]}")
    return ""


class QtHeader(Cases):
    """The header that is generated from the protocol."""

    def test_it_is_up_to_date(self) -> None:
        ran = run(sys.executable, TOOL, "--check")
        self.assertEqual((ran.returncode, ran.stderr), (0, ""))

    def test_it_says_what_writes_it(self) -> None:
        first = (SOURCE / "metad" / "commands.h").read_text().split("\n", 1)[0]
        self.assertIn("tools/qt_commands.py", first)

    def test_the_tool_refuses_wrong_words(self) -> None:
        ran = run(sys.executable, TOOL, "--nothing")
        self.assertEqual(ran.returncode, 2)
        self.assertIn("usage: qt_commands.py", ran.stderr)


class QtClient(FrontCases):
    """The client, which is built once."""

    seconds = BUILDING

    @classmethod
    def setUpClass(cls) -> None:
        super().setUpClass()
        reason = built()
        if reason:
            raise unittest.SkipTest(reason)

    def suite(self, name: str) -> None:
        """Runs one of the suites that are written with QtTest."""
        ran = run("ctest", "--test-dir", BUILD, "-R", f"^{name}$", "--output-on-failure", METAD=self.program, METAD_FRONT=str(FRONT))
        self.assertEqual(ran.returncode, 0, ran.stdout[-6000:])
        self.assertIn("100% tests passed, 0 tests failed out of 1", ran.stdout)

    def test_json(self) -> None:
        self.suite("json")

    def test_connections(self) -> None:
        self.suite("connections")

    def test_expressions(self) -> None:
        self.suite("expressions")

    def test_failures(self) -> None:
        self.suite("failures")

    def test_objects(self) -> None:
        self.suite("objects")

    def test_sessions(self) -> None:
        self.suite("sessions")

    def test_inside(self) -> None:
        if "Total Tests: 0" in run("ctest", "--test-dir", BUILD, "-N", "-R", "^inside$").stdout:
            self.skipTest("libmetad is not there: make library builds it")
        self.suite("inside")
        ran = run(BUILD / "examples" / "inside", EXAMPLES / "classes.json")
        self.assertEqual((ran.stdout, ran.stderr, ran.returncode), ("name: 'ann'\nenabled: yes\nname: ''\nenabled: no\n", "", 0))
        self.assertEqual(run(BUILD / "examples" / "inside", Path(self.room, "nothing")).returncode, 1)

    def test_qml(self) -> None:
        listed = run("ctest", "--test-dir", BUILD, "-N", "-R", "^qml$").stdout
        lacking = [it for it in QML_MODULES if not list(Path("/usr/lib").glob(f"*/qt6/qml/{it}/qmldir"))]
        if "Total Tests: 0" in listed or lacking:
            self.skipTest(f"Qt's QML is not installed (Debian: apt-get install {QML_PACKAGES})")
        self.suite("qml")

    def test_it_is_found_where_it_is_installed(self) -> None:
        place, user = Path(self.room, "place"), Path(self.room, "user")
        user.mkdir()
        (user / "CMakeLists.txt").write_text(USER.format(version()[0]))
        (user / "user.cpp").write_text(USES)
        for words in (
            ("--install", BUILD, "--prefix", place),
            ("-S", user, "-B", user / "build", f"-DCMAKE_PREFIX_PATH={place}"),
            ("--build", user / "build"),
        ):
            made = cmake(*words)
            self.assertEqual(made.returncode, 0, made.stdout[-2000:] + made.stderr[-2000:])
        self.assertEqual(run(user / "build" / "user").stdout, "no such object\n")

    def example(self, name: str, *words: object, options: tuple[str, ...] = ("--quiet",)) -> str:
        """What an example prints, which has to end well; it is given the socket of a front."""
        with self.front(str(EXAMPLES / "classes.json"), options=options) as (path, _):
            ran = run(BUILD / "examples" / name, path, *words)
        self.assertEqual(ran.returncode, 0, ran.stderr)  # Qt may warn there of what a machine without a screen lacks
        return ran.stdout

    def test_plug_in_host(self) -> None:
        said = self.example("plug_in_host")
        self.assertEqual(said, "the plug-in says teh: the?\nthe plug-in has ended with status 0\n")

    def test_classroom(self) -> None:
        letters = len("How many letters has this?")
        said = self.example("classroom", options=("--quiet", "--share", "classroom"))
        self.assertEqual(said, f"ann says {letters}\nbob says {letters}\nhands: 2\n")

    def test_form(self) -> None:
        picture = Path(self.room, "form.png")
        self.assertEqual(self.example("form", picture), "")
        begin = picture.read_bytes()[:24]
        self.assertEqual(begin[:8], b"\x89PNG\r\n\x1a\n")
        self.assertEqual(int.from_bytes(begin[16:20], "big"), 320)

    def test_examples_tell_what_is_wrong(self) -> None:
        for name in ("classroom", "form", "plug_in_host"):
            with self.subTest(name):
                ran = run(BUILD / "examples" / name, Path(self.room, "nobody"))
                self.assertEqual(ran.returncode, 1)
                self.assertIn("CannotConnect", ran.stderr)
                self.assertEqual(run(BUILD / "examples" / name).returncode, 2)


if __name__ == "__main__":
    unittest.main()
