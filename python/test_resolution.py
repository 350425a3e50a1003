"""Tests of resolve, on the program and the libraries of machresolve's tests. The answers are those of its stored run."""

import copy
import os
import pickle
import sys
import unittest

import goblin_mach
from goblin_mach import ErrorCode, FileRefused, Refused, resolve

DATA = os.path.join(os.path.dirname(os.path.abspath(__file__)), "..", "crates", "machresolve", "data")

# Each name with its place; of one that is found the file and the address.
WANTED = [
    ("_direct", "found", 1, 0x1234), ("_absolute", "found", 1, 0x99), ("_thread", "found", 1, 0x50), ("_renamed", "found", 2, 0x20),
    ("_missing", "missing", None, None), ("_missing", "missing", None, None), ("_round", "leads back", None, None), ("_round", "leads back", None, None),
    ("_stub", "found", 2, 0x40), ("_far", "no library", None, None), ("_far", "no library", None, None), ("_lost", "no library", None, None),
    ("_lost_weak", "no library", None, None), ("_gone", "no library", None, None), ("_here", "found", 3, 0x7), ("_direct", "no library", None, None),
    ("_own", "found", 0, 0x70), ("_again", "found", 1, 0x1234), ("_none", "missing", None, None),
]


def given(name):
    with open(os.path.join(DATA, name), "rb") as file:
        return name, file.read()


P, L, M, SELF = (given(name) for name in ("p.macho", "l.macho", "m.macho", "self.macho"))
LIBRARIES = [L, M, SELF]


class Resolving(unittest.TestCase):
    def test_answers(self):
        found = resolve(P, LIBRARIES)
        self.assertEqual([(a.binding.name, a.place, a.file, a.address) for a in found.answers], WANTED)
        self.assertEqual([a.binding for a in found.answers], list(goblin_mach.Image(P[1]).bindings()))
        self.assertEqual([a.binding.name for a in found.answers if a.is_absolute], ["_absolute"])
        self.assertEqual((found.more, found.unused, found.is_settled), (False, [], False))
        for answer in found.answers:
            self.assertEqual(answer.is_settled, answer.place == "found" or (answer.is_weak and answer.place != "leads back"))
            self.assertIn(answer.place, goblin_mach.PLACES)
        self.assertEqual(found.answers[0].to_dict()["address"], 0x1234)

    def test_limit(self):
        whole = resolve(P, LIBRARIES)
        for limit in range(len(WANTED) + 2):
            found = resolve(P, iter(LIBRARIES), limit)
            self.assertEqual((found.answers, found.more), (whole.answers[:limit], limit < len(WANTED)))
        self.assertTrue(resolve(P, LIBRARIES, 4).is_settled)

    def test_path_is_the_name_of_a_file_without_one(self):
        for path in ("anything", b"anything", ""):
            self.assertEqual(resolve((path, P[1]), LIBRARIES).answers[16].file, 0)

    def test_unused(self):
        other = bytearray(L[1])
        other[4] ^= 1
        found = resolve(P, [L, L, ("other", other)])
        self.assertEqual([(u.file, u.why) for u in found.unused], [(2, "given before"), (3, "nothing for the cpu")])
        self.assertEqual((found.unused[0].cputype, found.unused[1].cputype), (None, goblin_mach.Image(P[1]).cputype))

    def test_refusals(self):
        for files, number, code in (((("x", b""), []), 0, ErrorCode.SHORT), ((P, [L, ("x", b"xxxx")]), 2, ErrorCode.BAD_MAGIC),
                                    ((P, [("x", b"!<arch>\n")]), 1, ErrorCode.BAD_MAGIC), ((P, [(b"\xff", L[1])]), 1, ErrorCode.MALFORMED)):
            with self.assertRaises(FileRefused) as refusal:
                resolve(*files)
            error = refusal.exception
            self.assertEqual((error.file, error.code), (number, code))
            self.assertTrue(str(error).startswith(f"library {number}: " if number else "the program: "))
            self.assertIsInstance(error, Refused)
            for again in (copy.copy(error), pickle.loads(pickle.dumps(error))):
                self.assertEqual((again.file, again.code, again.words), (error.file, error.code, error.words))


if __name__ == "__main__":
    unittest.main(argv=sys.argv[:1])
