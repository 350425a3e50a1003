"""Builds the package with its library in it. cargo builds the library of the sources of this repository, by tools/build-c. A library that lies in
goblin_mach/ is taken as it is. The environment may say otherwise:

  GOBLIN_MACH_LIBRARY=PATH   takes this library
  GOBLIN_MACH_LIBRARY=none   takes none: the package then finds the system's library, or the one that GOBLIN_MACH names

A wheel that includes the library is for the system that the library was built on, and for any Python 3. A wheel without it is for all systems."""

import glob
import os
import shutil
import subprocess
import sys
import tempfile

from setuptools import Distribution, setup
from setuptools.command.build_py import build_py

try:
    from setuptools.command.bdist_wheel import bdist_wheel
except ImportError:
    from wheel.bdist_wheel import bdist_wheel

HERE = os.path.dirname(os.path.abspath(__file__))
TOP = os.path.dirname(HERE)
PACKAGE = "goblin_mach"
NAME = {"darwin": "libgoblin_mach.dylib", "win32": "goblin_mach.dll"}.get(sys.platform, "libgoblin_mach.so")
NAMED = os.environ.get("GOBLIN_MACH_LIBRARY", "")
CARRIED = glob.glob(os.path.join(glob.escape(HERE), PACKAGE, NAME + "*"))
HELP = "GOBLIN_MACH_LIBRARY=PATH takes a library that is built, and GOBLIN_MACH_LIBRARY=none takes none"


def refuse(why):
    sys.exit(f"goblin_mach: {why}. {HELP}.")


def build_library(to):
    """Builds the library by cargo, and puts it in the file `to`."""
    script = os.path.join(TOP, "tools", "build-c")
    if not os.path.exists(script):
        refuse("the sources of the library are not beside this folder: install from a checkout of the whole repository")
    compiler = os.environ.get("CC", "cc")
    for tool, package in (("cargo", "rustup.rs installs it"), (compiler, "Debian: apt-get install gcc libc6-dev"), ("sh", "Git for Windows has it")):
        if shutil.which(tool.split()[0]) is None:
            refuse(f"cargo and a C compiler build the library, and {tool} is not in the PATH ({package})")
    with tempfile.TemporaryDirectory() as room:
        if subprocess.run(["sh", script, "--cargo", room], check=False).returncode:
            refuse("cargo and the C compiler did not build the library: what they say is above")
        shutil.copy(os.path.join(room, "lib", NAME), to)


class Package(Distribution):
    def has_ext_modules(self):
        return NAMED != "none"


class Build(build_py):
    def run(self):
        if NAMED == "none" and CARRIED:
            refuse(f"GOBLIN_MACH_LIBRARY is none, and here is {CARRIED[0]}")
        super().run()
        if NAMED == "none" or (CARRIED and not NAMED):
            return
        # (An editable package is used where it is.)
        folder = os.path.join(HERE if getattr(self, "editable_mode", False) else self.build_lib, PACKAGE)
        os.makedirs(folder, exist_ok=True)
        if not NAMED:
            build_library(os.path.join(folder, NAME))
        elif os.path.isfile(NAMED):
            shutil.copy(NAMED, os.path.join(folder, NAME))
        else:
            refuse(f"GOBLIN_MACH_LIBRARY is {NAMED}, and there is no such file")


class Wheel(bdist_wheel):
    def get_tag(self):
        python, abi, system = super().get_tag()
        return (python, abi, system) if NAMED == "none" else ("py3", "none", system)


setup(distclass=Package, cmdclass={"bdist_wheel": Wheel, "build_py": Build})
