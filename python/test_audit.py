"""Tests of audits. Each compares the whole result with lines that follow from how the file was made."""

import copy
import json
import os
import pickle
import struct
import sys
import unittest

import goblin_mach
import test_goblin_mach as made
from goblin_mach import Finding, LayoutFault, Owner, SignatureFault, audit
from test_archives import MAGIC, header

CRATES = os.path.join(os.path.dirname(os.path.abspath(__file__)), "..", "crates")
OBJECT = 1
AT = 32 + 24
"""Where the symbols of `objects` begin."""


def objects(*names, place=None, count=None):
    """Returns an object file with an absolute symbol for each name, at another place among the names, and with another count of symbols."""
    texts, rows = b"\0", b""
    for name in names:
        rows += struct.pack("<IBBHQ", len(texts) if place is None else place, 3, 0, 0, 0)
        texts += name + b"\0"
    numbers = AT, len(names) if count is None else count, AT + len(rows), len(texts)
    return made.image(made.command(2, struct.pack("<4I", *numbers)), filetype=OBJECT, behind=rows + texts)


def archived(*members):
    return MAGIC + b"".join(header(b"%d.o/" % k, len(data)) + data + b"\n" * (len(data) % 2) for k, data in enumerate(members))


def signed():
    with open(os.path.join(CRATES, "machsign", "data", "signed.macho"), "rb") as file:
        return bytearray(file.read())


FAR = 2**32 - 1
GOOD, BAD = objects(b"_a"), objects(b"_a", place=FAR)
# what is found in BAD: a name after the end, which the layout forbids too
UNREAD = [f"symbols: symbol 0: offset {AT + 16 + FAR} is past the end", f"layout: symbol name: symbols at 0x20: 0x{FAR:x} against 0x4"]
SLICE = "layout: slice again: slice {} at 0x{:x}: 0x1000007000003 against 0x1000007000004 of slice 0 at 0x8"


def inside(place, lines):
    return [f"{place}: {line}" for line in lines]


class Auditing(unittest.TestCase):
    def finds(self, data, lines, verdict="not sound", **more):
        found = audit(data, **more)
        self.assertEqual((list(map(str, found.findings)), found.verdict), (lines, verdict))
        self.assertEqual(str(found), "\n".join([*lines, verdict]))
        self.assertEqual(found.is_sound, verdict == "sound")
        self.assertIn(found.verdict, goblin_mach.VERDICTS)
        for finding in found.findings:
            back = json.loads(finding.json())
            self.assertEqual((back, set(back)), (json.loads(json.dumps(finding.to_dict())), set(finding._fields)))
        return found

    def test_sound(self):
        for data in (signed(), GOOD, objects(), archived(GOOD, GOOD), made.fat(GOOD)):
            found = self.finds(data, [], "sound")
            self.assertEqual(found, goblin_mach.Audit("sound", ()))
            self.assertEqual(goblin_mach.parse(bytes(data)).audit(), found)

    def test_refused(self):
        (only,) = self.finds(b"", ["opens: malformed: the file ends in its magic"]).findings
        self.assertEqual(only, Finding(None, None, "refused", None, None, None, None, None, None, None, "malformed: the file ends in its magic"))
        self.finds(b"\x7fELF1234", ["opens: bad magic 0x7f454c46"])
        self.finds(made.fat(), ["entries: no image"])
        self.finds(made.fat(count=1_000_000), ["table: 1000000 arches do not fit the file"])
        self.finds(MAGIC + b"xy", ["archive: 60 bytes are needed and 2 are left"])

    def test_lossy(self):
        data = bytearray(GOOD)
        struct.pack_into("<I", data, 32 + 8, 1 << 31)
        self.finds(data, ["opens lossily: malformed: the names of symbols begin before the symbols",
                          f"layout: out of file: symbols at 0x20: 0x80000010 against 0x{len(data):x}"])

    def test_layout(self):
        with open(os.path.join(CRATES, "machaudit", "data", "b.macho"), "rb") as file:
            data = file.read()
        faults = list(goblin_mach.Image(data).layout_faults())
        unread = "bindings: binding 0: malformed: a bind lacks its name, its segment or its type"
        found = self.finds(data, [unread, *(f"layout: {fault}" for fault in faults)])
        self.assertEqual([it.layout for it in found.findings], [None, *faults])
        self.assertEqual(found.findings[1].layout, LayoutFault("claims share", Owner("bind opcodes", 0xD8, 0), 0x138, 0x140, Owner("section", 0x20, 1)))

    def test_items(self):
        item, layout = self.finds(BAD, UNREAD).findings
        self.assertEqual(item, Finding(None, None, "item", "symbols", None, None, 0, None, None, None, f"offset {AT + 16 + FAR} is past the end"))
        self.assertEqual((layout.kind, layout.list, layout.index, layout.layout.rule), ("layout", None, None, "symbol name"))
        self.assertEqual(item.to_dict()["list"], "symbols")
        self.finds(objects(b"_a", count=1000), [
            "symbols: symbol 1: 16 bytes are needed and 4 are left", "symbols: 998 more symbols past the end",
            "layout: out of file: symbols at 0x20: 0x3eb8 against 0x4c",
        ])

    def test_more_than_ten(self):
        many = 70
        place = f"offset {AT + 16 * many + FAR} is past the end"
        layout = [f"layout: symbol name: symbols{f' {k}' * (k > 0)} at 0x20: 0x{FAR:x} against 0x{1 + 3 * many:x}" for k in range(many)]
        found = self.finds(objects(*many * [b"_a"], place=FAR), [*(f"symbols: symbol {k}: {place}" for k in range(10)), "symbols: and 60 more", *layout])
        self.assertEqual(found.findings[10], Finding(None, None, "more", "symbols", None, None, None, 60, None, None, None))

    def test_signature(self):
        data = signed()
        data[0x1000] ^= 1
        (only,) = self.finds(data, ["signature: page 1: 0x1000..0x2000 is not what was signed"]).findings
        self.assertEqual(only.signature, SignatureFault("page", 0, 1, 0x1000, 0x2000, None))
        self.assertEqual([only.signature], list(goblin_mach.Image(bytes(data)).signature_faults()))

    def test_archives(self):
        data = archived(GOOD, BAD)
        self.finds(data, inside("member 1", UNREAD))
        found = self.finds(data + b"xy", [*inside("member 1", UNREAD), "archive: 60 bytes are needed and 2 are left"])
        self.assertEqual([(it.entry, it.member) for it in found.findings], [(None, 1), (None, 1), (None, None)])
        found = self.finds(made.fat(GOOD, data + b"xy", BAD), [
            SLICE.format(1, 0x1C), SLICE.format(2, 0x30), *inside("entry 1, member 1", UNREAD),
            "entry 1: archive: 60 bytes are needed and 2 are left", *inside("entry 2", UNREAD),
        ])
        self.assertEqual([(it.entry, it.member) for it in found.findings], [(None, None)] * 2 + [(1, 1)] * 2 + [(1, None)] + [(2, None)] * 2)

    def test_limit(self):
        two = objects(b"_a", b"_b")
        self.finds(two, [], "sound", limit=2)
        (cut,) = self.finds(two, ["symbols: limit met"], "not sound: limit met", limit=1).findings
        self.assertEqual(cut, Finding(None, None, "limit met", "symbols", None, None, None, None, None, None, None))
        self.finds(archived(GOOD, GOOD), ["members: limit met"], "not sound: limit met", limit=1)
        self.finds(made.fat(BAD, GOOD), [SLICE.format(1, 0x1C), *inside("entry 0", UNREAD), "entries: limit met"], limit=1)
        self.assertEqual(goblin_mach.parse(two).audit(1), audit(two, 1))
        for limit in (-1, 2**64):
            self.assertRaises(ValueError, audit, two, limit)
        self.assertRaises(TypeError, audit, two, 1.5)

    def test_findings_can_be_copied(self):
        for it in audit(made.fat(BAD)).findings:
            self.assertEqual(copy.copy(it), it)
            self.assertEqual(pickle.loads(pickle.dumps(it)), it)
            self.assertEqual(eval(repr(it), vars(goblin_mach)), it)

    def test_closed_file(self):
        file = goblin_mach.parse(GOOD)
        file.close()
        self.assertRaises(ValueError, file.audit)


if __name__ == "__main__":
    sys.exit(unittest.main())
