#!/usr/bin/env python3
"""Runs the toolchain's `rt` with one method replaced. `rt_once.py ci` also leaves the archive of each static library in its out/. It lets a proof use
the processors that no other proof uses.

`rt ci` proves a static library and keeps nothing of it: its archive would need a second proof. Here the same check also records what it has proved
(`rattle check -o`), as `rt ci` does for a program. `rattle build --crate-checked` then compiles that without a proof. The verdict stays that of the
check: if an archive can't be built, a line says so, and nothing fails. What `rt` takes from an earlier run leaves no archive. Beside the archive is
a stamp, a sum of all that the proof read and of the archive itself. It shows whether the archive still fits.

With RT_JOBS `rt ci` gives each proof one job. Each library needs those below it, so that at times there is one proof to run. Here a proof begins
with as many jobs as there are processors for each proof that runs. The one with the most work after it, its own included, begins with half of the
processors at least. No proof gets more jobs than the free memory holds."""
import contextlib
import functools
import hashlib
import importlib.machinery
import importlib.util
import os
import subprocess
import sys
import tempfile
import threading
import time

sys.dont_write_bytecode = True


def toolchain():
    """Loads the toolchain's command `rt` as a module."""
    first_page = subprocess.run(["rt", "doc"], check=True, capture_output=True, text=True).stdout.strip()
    loader = importlib.machinery.SourceFileLoader("rt", os.path.join(os.path.dirname(first_page), "bin", "rt"))
    made = importlib.util.module_from_spec(importlib.util.spec_from_loader("rt", loader))
    loader.exec_module(made)
    return made


def archive_of(crate):
    return f"{crate.folder}/out/lib{crate.name}.a"


def sources_of(rt, crate):
    """Returns a sum of the toolchain, of what HANDLES allows, and of all sources that the proof reads. A proof rests on all three."""
    kit = subprocess.run(["rt", "version"], check=True, capture_output=True, text=True).stdout
    handles = rt.handles_of(os.path.dirname(os.path.dirname(crate.folder)))
    return hashlib.sha256(repr((kit, handles, crate.stamp())).encode()).hexdigest()


def stamp_of(rt, crate):
    """Returns the sum of the sources and that of the archive."""
    with open(archive_of(crate), "rb") as it:
        archive = hashlib.sha256(it.read()).hexdigest()
    return f"{sources_of(rt, crate)} {archive}\n"


def has_archive(rt, crate):
    """Returns whether `rt_once.py ci` has built the archive of exactly these sources."""
    try:
        with open(f"{archive_of(crate)}.proved", encoding="utf-8") as it:
            return it.read() == stamp_of(rt, crate)
    except OSError:
        return False


def build(rt, crate, words, checked):
    """Builds the archive of a static library from the record of its check, and puts the stamp beside it."""
    for flag in ("--logic-built", "--jobs"):
        at = words.index(flag)
        words = [*words[:at], *words[at + 2 :]]
    words = [*words, "--crate-checked", checked, "--toolchain", f"{rt.KIT}/toolchain", "--backend", "llvm"]
    if crate.call(rt.rtlib.RATTLE, "build", *words, "-o", archive_of(crate)):
        rt.say(f"note: the archive of {crate.name}, which is proved, could not be built", crate.out)
        return
    with open(f"{archive_of(crate)}.proved", "w", encoding="utf-8") as it:
        it.write(stamp_of(rt, crate))


def prove_static(rt, crate, flags, begun):
    """Proves a static library as `rt ci` does, and builds its archive, unless its sources have changed since the beginning of the run."""
    words = crate.words(flags, keeps=False)
    with tempfile.TemporaryDirectory(prefix=f"rt-proved-{os.getpid()}-") as room:
        status = crate.prove(["check", *words, "-o", f"{room}/checked"])
        if not status and sources_of(rt, crate) == begun.get(crate.name):
            build(rt, crate, words, f"{room}/checked")
    return status


# What a job of a proof takes at most, in kB.
EACH = 4_500_000


def free_memory():
    """Returns the free memory in kB."""
    times = os.path.join(os.path.dirname(os.path.abspath(__file__)), "times")
    return int(subprocess.run([times, "memory"], check=True, capture_output=True, text=True).stdout)


def lines_after(crates):
    """Returns for each crate, lowest first, how many lines the longest chain has that begins with it."""
    after = {}
    for crate in reversed(crates):
        after[crate.name] = after.get(crate.name, 0) + crate.count(rb"\n")
        for below in crate.below():
            after[below.name] = max(after.get(below.name, 0), after[crate.name])
    return after


class Shares:
    """The processors, which the proofs that run share."""

    def __init__(self, processors, memory=free_memory, seconds=3):
        self.processors, self.memory, self.seconds, self.running, self.lock = processors, memory, seconds, {}, threading.Lock()

    def jobs(self, after):
        """Returns how many jobs a proof gets that has so much work after it."""
        share = self.processors // len(self.running)
        if after == max(self.running.values()):
            share = max(share, self.processors // 2)
        return max(1, min(share, self.memory() // EACH))

    @contextlib.contextmanager
    def of(self, after):
        """Gives how many jobs a proof begins with, once those that begin at the same time have begun. Proofs that began before it keep theirs."""
        key = object()
        with self.lock:
            self.running[key] = after
        try:
            time.sleep(self.seconds)
            with self.lock:
                jobs = self.jobs(after)
            yield jobs
        finally:
            with self.lock:
                del self.running[key]


def main(words):
    rt = toolchain()
    shares = Shares(int(os.environ.get("RT_JOBS") or 0))
    crates = rt.rtlib.crates_below(os.getcwd())
    begun = {it.name: sources_of(rt, it) for it in crates if it.is_static}
    after = lines_after(crates)
    ci = rt.Crate.ci

    @functools.wraps(ci)
    def ci_in_share(crate, flags, tests):
        with shares.of(0 if tests else after[crate.name]) as jobs:
            at = flags.index("--jobs") + 1
            flags = [*flags[:at], str(max(jobs, int(flags[at]))), *flags[at + 1 :]]
            return prove_static(rt, crate, flags, begun) if crate.is_static and not tests else ci(crate, flags, tests)

    rt.Crate.ci = ci_in_share
    return rt.main(words)


if __name__ == "__main__":
    sys.exit(main(sys.argv[1:]))
