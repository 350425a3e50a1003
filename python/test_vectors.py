"""Tries the vectors of the repository on the package. vectors/README.md says what they are.

`python3 python/test_vectors.py FILE..` prints what differs in some files; `c/check` runs this with the other tests, on all files."""

import glob
import json
import os
import plistlib
import sys
import unittest

import goblin_mach
from vector_answers import answer, plain

TOP = os.path.dirname(os.path.dirname(os.path.abspath(__file__)))
sys.path.insert(0, os.path.join(TOP, "vectors"))
import vectors  # noqa: E402


class Outcome:
    """What the vectors of some files result in."""

    def __init__(self):
        self.differences, self.vectors, self.expected, self.left_out = [], 0, 0, []

    def add(self, vector):
        self.vectors += 1
        lines = answer(vector)
        if lines is None:
            self.left_out.append(vector.call)
            return
        for name in ("want", "first", "last"):
            wanted = getattr(vector, name)
            setattr(vector, name, wanted and [plain(line) for line in wanted])
        difference = vector.difference(lines)
        if difference:
            self.differences.append(f"{vector.file}:{vector.line}: {vector.name}: {difference}")
        else:
            self.expected += 1

    def __str__(self):
        left_out = f", {len(self.left_out)} left out: {', '.join(sorted(set(self.left_out)))}" if self.left_out else ""
        return "".join(f"{each}\n" for each in self.differences) + f"{self.vectors} vectors, {self.expected} as expected{left_out}"


def tried(all_vectors):
    outcome = Outcome()
    for vector in all_vectors:
        outcome.add(vector)
    return outcome


def as_json(value):
    """Returns a value as JSON, without the numbers of reals, which the package doesn't read. A date is its text."""
    whole = json.dumps(value, default=lambda date: date.strftime("%Y-%m-%dT%H:%M:%SZ"))
    return json.dumps(json.loads(whole, parse_float=lambda number: None), sort_keys=True)


class Vectors(unittest.TestCase):
    def test_all(self):
        files = sorted(glob.glob(os.path.join(TOP, "vectors", "*.txt")))
        outcome = tried(vector for file in files for vector in vectors.parse(file))
        self.assertEqual(outcome.differences, [], f"\n{outcome}")
        self.assertGreater(outcome.expected, 0)

    def test_values_of_entitlements(self):
        compared = 0
        for vector in vectors.parse(os.path.join(TOP, "vectors", "entitlements.txt")):
            try:
                found = goblin_mach.Image(vector.bytes()).signature
                if found is None or found.entitlements is None:
                    continue
                xml, der, known = (as_json(it) for it in (found.entitlements_in_xml, found.entitlements_in_der, plistlib.loads(found.entitlements)))
            except (goblin_mach.Refused, RecursionError):
                continue
            with self.subTest(vector.name):
                self.assertEqual((xml, xml == der), (known, found.entitlements_agreement == "same"))
            compared += 1
        self.assertGreater(compared, 50)

    def test_another_answer_is_named(self):
        text = "".join(f"vector {name}\ncall command-names\nnumber 0x1\nwant 0x1 LC_{want}\nwant end\n\n" for name, want in
                       [("right", "SEGMENT"), ("wrong", "MAIN")])
        outcome = tried(vectors.parse_text(text, "f"))
        self.assertEqual(str(outcome), "f:7: wrong: line 1\n  want 0x1 LC_MAIN\n  got  0x1 LC_SEGMENT\n2 vectors, 1 as expected")

    def test_what_is_left_out(self):
        self.assertEqual(str(tried(vectors.parse_text("vector v\ncall mach\nwant image\n", "f"))), "1 vectors, 0 as expected, 1 left out: mach")

    def test_errors(self):
        for wanted, told in [
            ("error bad-offset 0x9", "error short"),
            ("error too-short 9 records", "error too-short"),
            ("member (bad-input 3) header 0x8", "member (short) header 0x8"),
            ("fault blob slot 0x0 index 0 found 0x0 limit 0x0 error too-big 8 4", "fault blob slot 0x0 index 0 found 0x0 limit 0x0 error short"),
            ("verdict cms (too-big 9 4)", "verdict cms unknown"),
            ("finding entry 0 item symbols 1 error too-big 8 4", "finding entry 0 item symbols 1 error"),
            ("finding signature blob slot 0x0 index 0 found 0x0 limit 0x0 error too-big 8 4",
             "finding signature blob slot 0x0 index 0 found 0x0 limit 0x0 error short"),
            ('answer "_a" of 1 "L" not-given ("A" "B") weak', 'answer "_a" of 1 "L" not-given weak'),
            ('id "error too-big (malformed 1)"', 'id "error too-big (malformed 1)"'),
        ]:
            self.assertEqual(plain(wanted), told)


if __name__ == "__main__":
    told = tried(vector for file in sys.argv[1:] for vector in vectors.parse(file))
    print(told)
    sys.exit(1 if told.differences else 0)
