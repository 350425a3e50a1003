#!/usr/bin/env python3
"""Tests rt_once.py on a repository of one static library with one function, in a temporary folder: one run of a wrong body, and two of a right one."""
import contextlib
import os
import subprocess
import sys
import tempfile
import unittest

import rt_once

SOURCE = """//! A static library for a test.
#![tactic(auto)]

ghost use Rattle.std.specs.Prelude.{◌≡◌};

#[unsafe(no_mangle)]
pub extern "C" fn trial_same(number: usize) -> usize
    ensures { result ≡ number }
{
    BODY
}
"""


def keeps_verdicts():
    """Returns whether the toolchain's `rt ci` takes verdicts from earlier runs, unless `--anew` is given. Not every toolchain does."""
    with open(rt_once.toolchain().__file__, encoding="utf-8") as it:
        return '"--anew"' in it.read()


KEEPS_VERDICTS = keeps_verdicts()


class Lines:
    """A crate with so many lines."""

    def __init__(self, name, lines):
        self.name, self.lines, self.lower = name, lines, []

    def count(self, _):
        return self.lines

    def below(self):
        return self.lower


class RunsOnce(unittest.TestCase):
    def setUp(self):
        room = tempfile.TemporaryDirectory(prefix="rt-once-")
        self.addCleanup(room.cleanup)
        self.root = room.name
        self.write("HANDLES", "Handles allowed: none.\n")
        self.write("crates.txt", "trial_once staticlib:\n")

    def write(self, path, text):
        os.makedirs(os.path.dirname(f"{self.root}/{path}"), exist_ok=True)
        with open(f"{self.root}/{path}", "w", encoding="utf-8") as it:
            it.write(text)

    def ci(self, anew):
        """Runs `rt_once.py ci`, maybe anew. Returns its status, its output, and whether it left an archive that fits."""
        words = ["--anew"] if anew and KEEPS_VERDICTS else []
        how = {"cwd": self.root, "stdin": subprocess.DEVNULL, "stdout": subprocess.PIPE, "stderr": subprocess.STDOUT, "text": True}
        ran = subprocess.run([sys.executable, os.path.abspath(rt_once.__file__), "ci", *words], **how)
        return ran.returncode, ran.stdout, self.has_archive()

    def has_archive(self):
        rt = rt_once.toolchain()
        return rt_once.has_archive(rt, rt.rtlib.crates_below(self.root)[0])

    def assert_passes(self, leaves_archive, anew):
        status, said, has_archive = self.ci(anew)
        self.assertEqual((status, has_archive), (0, leaves_archive), said)
        self.assertTrue(said.endswith("\n1 passed, 0 failed\n"), said)

    def test_a_wrong_body_fails(self):
        self.write("crates/trial_once/src/lib.rt", SOURCE.replace("BODY", "number / 2"))
        status, said, has_archive = self.ci(anew=True)
        self.assertEqual((status, has_archive), (1, False))
        self.assertIn("\nfn trial_once::trial_same: no proof: ", said)
        self.assertTrue(said.endswith("\n0 passed, 1 failed\n"), said)

    def test_a_right_body_leaves_an_archive(self):
        self.write("crates/trial_once/src/lib.rt", SOURCE.replace("BODY", "number"))
        self.assert_passes(True, anew=True)
        self.write("crates/trial_once/src/lib.rt", SOURCE.replace("BODY", "{ number }"))
        self.assertFalse(self.has_archive(), "the archive of other sources")
        # (`rt ci` removes what earlier runs built. If it keeps verdicts, it reads this one, and proves nothing from which to build an archive.)
        self.write("crates/trial_once/src/lib.rt", SOURCE.replace("BODY", "number"))
        self.assert_passes(not KEEPS_VERDICTS, anew=False)

    def jobs_of(self, *after, memory=99):
        """Returns the jobs of proofs that begin one after the other and run side by side, with memory for so many jobs."""
        shares = rt_once.Shares(4, memory=lambda: memory * rt_once.EACH, seconds=0)
        with contextlib.ExitStack() as running:
            return [running.enter_context(shares.of(it)) for it in after]

    def test_a_proof_begins_with_its_share_of_the_processors(self):
        self.assertEqual(self.jobs_of(9, 8, 7), [4, 2, 1])

    def test_the_longest_chain_gets_half_of_the_processors(self):
        self.assertEqual(self.jobs_of(1, 1, 1, 9, 2), [4, 2, 2, 2, 1])

    def test_a_proof_gets_no_more_jobs_than_memory_holds(self):
        self.assertEqual(self.jobs_of(9, memory=3), [3])
        self.assertEqual(self.jobs_of(9, memory=0), [1])

    def test_a_chain_is_as_long_as_its_longest_part(self):
        low, high, top, other = (Lines(name, lines) for name, lines in (("low", 5), ("high", 20), ("top", 1), ("other", 7)))
        high.lower, top.lower, other.lower = [low], [low, high], [low]
        self.assertEqual(rt_once.lines_after([low, high, top, other]), {"low": 26, "high": 21, "top": 1, "other": 7})


if __name__ == "__main__":
    unittest.main()
