"""Tests with other tools. `mypy --strict` must report nothing for the package, if it is installed. Python's tools must build a wheel that
includes the library, without a network, if build, setuptools and wheel are installed (Debian: python3-build, python3-setuptools,
python3-wheel)."""

import os
import shutil
import subprocess
import sys
import tempfile
import unittest
import zipfile

import goblin_mach
from goblin_mach import _library

PACKAGE = os.path.dirname(os.path.abspath(goblin_mach.__file__))
HERE = os.path.dirname(os.path.abspath(__file__))
LINES, WIDTH = 500, 160
SECONDS = 600


def run(*words, **more):
    ran = subprocess.run(words, stdout=subprocess.PIPE, stderr=subprocess.STDOUT, timeout=SECONDS, check=False, **more)
    return ran.returncode, ran.stdout.decode()


def python_with(*names):
    """Returns a Python that has modules of these names, this one or the system's, or None. (It runs in a folder of its own, since build/
    is no module.)"""
    with tempfile.TemporaryDirectory() as room:
        has = lambda python: shutil.which(python) is not None and run(python, "-c", f"import {', '.join(names)}", cwd=room)[0] == 0
        return next(filter(has, (sys.executable, "/usr/bin/python3")), None)


PYTHON = python_with("build", "setuptools", "wheel")


class Types(unittest.TestCase):
    @unittest.skipUnless(shutil.which("mypy"), "there is no mypy")
    def test_are_strict(self):
        with tempfile.TemporaryDirectory() as room:
            status, said = run("mypy", "--strict", "--cache-dir", room, "goblin_mach", "enums_check.py", "bench.py", "lines.py", cwd=HERE)
        self.assertEqual((status, said[:8]), (0, "Success:"), said)


class Text(unittest.TestCase):
    def test_is_short(self):
        for folder in (HERE, PACKAGE):
            for name in sorted(os.listdir(folder)):
                if name.endswith(".py"):
                    with open(os.path.join(folder, name), encoding="utf-8") as file:
                        lines = file.read().splitlines()
                    self.assertLessEqual(len(lines), LINES, name)
                    self.assertLessEqual(max(map(len, lines), default=0), WIDTH, name)


@unittest.skipUnless(PYTHON, "build, setuptools and wheel are not all there")
class Wheel(unittest.TestCase):
    def setUp(self):
        room = tempfile.TemporaryDirectory()
        self.addCleanup(room.cleanup)
        self.room = room.name
        self.source = os.path.join(self.room, "source")
        left_out = shutil.ignore_patterns("*.so*", "__pycache__", "build", "dist", "*.egg-info", "test_*")
        shutil.copytree(HERE, self.source, ignore=left_out)

    def build(self, library=None):
        """Builds a wheel, with what GOBLIN_MACH_LIBRARY says of its library, and returns the status and what the tools said."""
        kept = {name: value for name, value in os.environ.items() if name != "GOBLIN_MACH_LIBRARY"}
        environment = kept if library is None else {**kept, "GOBLIN_MACH_LIBRARY": library}
        words = ("-m", "build", "--no-isolation", "--wheel", "--outdir", self.room, self.source)
        return run(PYTHON, *words, cwd=self.room, env=environment)

    def made(self, library=None):
        """Returns the name of a wheel that is built, and the names of its files."""
        status, said = self.build(library)
        self.assertEqual(status, 0, said)
        (name,) = (name for name in os.listdir(self.room) if name.endswith(".whl"))
        with zipfile.ZipFile(os.path.join(self.room, name)) as wheel:
            wheel.extractall(os.path.join(self.room, "installed"))
            return name, set(wheel.namelist())

    def test_has_the_library_within(self):
        path = _library.lib._name if os.path.exists(_library.lib._name) else None
        if path is None:
            self.skipTest("the library is the system's")
        shutil.copy(path, os.path.join(self.source, "goblin_mach/libgoblin_mach.so"))
        name, files = self.made()
        self.assertTrue(name.startswith(f"goblin_mach-{goblin_mach.__version__}-py3-none-linux_"), name)
        modules = {f"goblin_mach/{each}" for each in os.listdir(PACKAGE) if each.endswith((".py", ".typed"))}
        self.assertEqual({each for each in files if "dist-info" not in each}, {*modules, "goblin_mach/libgoblin_mach.so"})
        installed = os.path.join(self.room, "installed")
        kept = {name: value for name, value in os.environ.items() if name != "GOBLIN_MACH"}
        code = "import goblin_mach; print(goblin_mach._library.lib._name, goblin_mach.__version__)"
        status, said = run(sys.executable, "-c", code, cwd=self.room, env={**kept, "PYTHONPATH": installed})
        self.assertEqual((status, said), (0, f"{installed}/goblin_mach/libgoblin_mach.so {goblin_mach.__version__}\n"))

    def test_without_the_library_is_for_every_system(self):
        name, files = self.made("none")
        self.assertEqual(name, f"goblin_mach-{goblin_mach.__version__}-py3-none-any.whl")
        self.assertIn("goblin_mach/py.typed", files)
        self.assertFalse([each for each in files if "libgoblin_mach" in each])

    def test_has_the_library_that_is_named(self):
        path = os.path.join(self.room, "named.so")
        with open(path, "wb") as file:
            file.write(b"a library")
        name, files = self.made(path)
        self.assertTrue(name.startswith(f"goblin_mach-{goblin_mach.__version__}-py3-none-linux_"), name)
        self.assertIn("goblin_mach/libgoblin_mach.so", files)
        with open(os.path.join(self.room, "installed/goblin_mach/libgoblin_mach.so"), "rb") as file:
            self.assertEqual(file.read(), b"a library")

    def test_has_the_licences(self):
        _, files = self.made("none")
        for name in ("LICENSE", "LICENSE-hashes"):
            self.assertTrue([each for each in files if each.endswith(f".dist-info/{name}")], files)

    def test_is_refused_in_words(self):
        carried = os.path.join(self.source, "goblin_mach/libgoblin_mach.so")
        for library, words in ((None, "the sources of the library are not beside this folder"), ("/nowhere.so", "there is no such file")):
            status, said = self.build(library)
            self.assertNotEqual(status, 0, library)
            self.assertIn(words, said)
            self.assertIn("GOBLIN_MACH_LIBRARY=PATH", said)
        with open(carried, "wb"):
            pass
        status, said = self.build("none")
        self.assertNotEqual(status, 0)
        self.assertIn(f"here is {carried}", said)


if __name__ == "__main__":
    unittest.main()
