"""The readers that are asked, the calls that each has, and what is left out of the lines of an answer since a reader doesn't give it."""
import os
import re
import shutil
import subprocess

from vectors.others import llvm
from vectors.others.compared import Ran, Said

HERE = os.path.dirname(os.path.abspath(__file__))
OUT = os.path.join(HERE, "out")
REGISTRY = "/usr/share/cargo/registry"
FROM_DEBIAN = ["--config", 'source.crates-io.replace-with="debian"', "--config", f'source.debian.directory="{REGISTRY}"']
NOTHING = r"(?!)"
WITHOUT_DATA = r" data \d+"


class Driver:
    """A reader that a program of ours calls. `left_out` has a pattern for each call that it has."""

    def __init__(self, name, package, left_out):
        self.name, self.package, self.left_out = name, package, left_out

    def ask(self, vector, path):
        name = os.fsdecode(vector.wanted_name)
        if "\0" in name:
            return None
        ran = Ran([self.program, vector.call, path, name])
        return Said(ran.text.split("\n")[:-1], ran.message, ran.end)


class Crate(Driver):
    """A crate of Debian."""

    @property
    def program(self):
        return os.path.join(OUT, "debug", f"vectors_{self.name}")

    def title(self):
        """Returns the name and the version that is installed."""
        return " ".join(next(name for name in sorted(os.listdir(REGISTRY)) if re.fullmatch(self.name + r"-[\d.]+", name)).rsplit("-", 1))

    def missing(self):
        """Builds it; returns why it can't be built, or nothing."""
        if not shutil.which("cargo"):
            return "there is no cargo"
        if not os.path.isdir(REGISTRY) or not any(re.fullmatch(self.name + r"-[\d.]+", name) for name in os.listdir(REGISTRY)):
            return f"Debian's package {self.package} isn't installed"
        environment = {**os.environ, "CARGO_NET_OFFLINE": "true", "CARGO_TARGET_DIR": OUT}
        subprocess.run(["cargo", "build", "--quiet", *FROM_DEBIAN], cwd=os.path.join(HERE, self.name), env=environment, check=True)
        return ""


class Lief(Driver):
    """LIEF of Debian, which a program in C++ calls."""
    program = os.path.join(OUT, "lief")

    def title(self):
        said = subprocess.run(["dpkg-query", "-W", "-f", "${Version}", self.package], stdout=subprocess.PIPE, text=True, check=False).stdout
        return "LIEF " + said.partition("-")[0]

    def missing(self):
        if not shutil.which("g++") or not os.path.isdir("/usr/include/LIEF"):
            return f"g++ or Debian's package {self.package} isn't installed"
        os.makedirs(OUT, exist_ok=True)
        subprocess.run(["g++", "-std=c++14", "-O1", "-w", "-o", self.program, os.path.join(HERE, "lief", "driver.cc"), "-lLIEF"], check=True)
        return ""


class Llvm:
    """The tools of LLVM."""
    left_out = {name: call.left_out for name, call in llvm.CALLS.items()}
    ask, missing = staticmethod(llvm.ask), staticmethod(llvm.missing)

    def title(self):
        said = subprocess.run([llvm.TOOLS["objdump"], "--version"], stdout=subprocess.PIPE, text=True, check=False).stdout
        return "LLVM " + re.search(r"version ([\d.]+)", said)[1]


READERS = [
    Llvm(),
    Crate("goblin", "librust-goblin+default-dev", {
        "header": r" run-paths \d+", "commands": NOTHING, "segments": NOTHING, "sections": NOTHING, "symbols": NOTHING, "exports": NOTHING,
        "imports": NOTHING, "mach": NOTHING, "entries": NOTHING, "relocations": r"(?<=^relocation) \d+ \d+",
        "libraries": r" (?:required|weak|reexport|upward|lazy) timestamp .*", "members": r" date .*", "archive-find": r" date .*",
    }),
    Crate("object", "librust-object-dev", {
        "header": r" segments .*", "commands": NOTHING, "segments": NOTHING, "sections": NOTHING, "relocations": NOTHING, "symbols": NOTHING,
        "libraries": r" used-\w+", "ids": NOTHING, "run-paths": NOTHING, "entries": NOTHING, "input": NOTHING, "members": r" header \S+",
    }),
    Lief("lief", "liblief-dev", {
        "header": r" (?:little|big)$| (?:32|64)(?= (?:little|big)$)| run-paths .*", "commands": NOTHING, "segments": NOTHING,
        "sections": WITHOUT_DATA + r"|(?<=^section) \d+", "symbols": NOTHING, "libraries": r" used-\w+",
        "exports": r'(?<=^export) "[^"]*"(?: of "[^"]*"(?: as "[^"]*")?| stub \S+ resolver \S+)?',
        "bindings": r"(?<=[0-9a-f]) 0x\w+(?= addend)|(?<=^binding) .*?(?= of )", "function-starts": NOTHING, "signature": r"(?<=^signature).*",
    }),
]
