"""Tests of signatures: what a signature says, and its faults, for images that are signed here. `c/check` runs it."""

import datetime
import hashlib
import json
import os
import plistlib
import unittest

import goblin_mach
from goblin_mach import SignatureFault, SignatureFlags, SignatureHash

TOP = os.path.dirname(os.path.dirname(os.path.abspath(__file__)))
SIGNED = os.path.join(TOP, "crates/machsign/data/signed.macho")
CODE = 0x1200
GIVEN = {"get-task-allow": True, "application-identifier": "ABCDE12345.id"}
ENTITLEMENTS = plistlib.dumps(GIVEN)


def big(*numbers):
    return b"".join(number.to_bytes(4, "big") for number in numbers)


def little(*numbers):
    return b"".join(number.to_bytes(4, "little") for number in numbers)


def code(size):
    """Returns an image of arm64 with one command, LC_CODE_SIGNATURE, and zeros up to its signature of this size."""
    return (little(0xFEEDFACF, 0x0100000C, 0, 2, 1, 16, 0, 0) + little(0x1D, 16, CODE, size)).ljust(CODE, b"\0")


def blob(magic, content):
    return big(magic, 8 + len(content)) + content


def directory(image, sealed, flags=2, names=b"id\0ABCDE12345\0"):
    """Returns a code directory of version 0x20400, SHA-256, pages of 4096, with the identifier `id` and then the team."""
    hashes = b"".join(hashlib.sha256(sealed[k]).digest() if k in sealed else bytes(32) for k in range(max(sealed, default=0), 0, -1))
    pages = [image[at:at + 4096] for at in range(0, CODE, 4096)]
    at = 88 + len(names) + len(hashes)
    head = big(0x20400, flags, at, 88, len(hashes) // 32, len(pages), CODE) + bytes((32, 2, 0, 12)) + big(0, 0, 91, 0, 0, 0, 0, 0, 0, 0, 0, 0)
    return blob(0xFADE0C02, head + names + hashes + b"".join(hashlib.sha256(page).digest() for page in pages))


def signature_of(*blobs):
    """Returns a signature of blobs, each with its slot."""
    at, index = 12 + 8 * len(blobs), b""
    for slot, content in blobs:
        index += big(slot, at)
        at += len(content)
    return big(0xFADE0CC0, at, len(blobs)) + index + b"".join(content for _, content in blobs)


def signed(entitlements=ENTITLEMENTS, der=None, requirements=None, **more):
    """Returns an image with a signature that has a team and, if they are given, requirements and entitlements in XML and in DER."""
    given = ((2, 0xFADE0C01, requirements), (5, 0xFADE7171, entitlements), (7, 0xFADE7172, der))
    others = [(slot, blob(magic, content)) for slot, magic, content in given if content is not None]
    sealed = dict(others)
    size = len(signature_of((0, directory(code(0), sealed, **more)), *others))
    image = code(size)
    return image + signature_of((0, directory(image, sealed, **more)), *others)


class Signatures(unittest.TestCase):
    def image(self, data):
        return goblin_mach.Image(data)

    def test_what_it_says(self):
        data = signed()
        found = self.image(data).signature
        at = data.index(big(0xFADE0C02))
        cdhash = hashlib.sha256(data[at:at + int.from_bytes(data[at + 4:at + 8], "big")]).digest()[:20]
        self.assertEqual((found.identifier, found.team, found.flags, found.cdhash), ("id", "ABCDE12345", 2, cdhash))
        self.assertEqual((found.limit, found.pages, found.page_size, found.version, found.errors), (CODE, 2, 4096, 0x20400, {}))
        self.assertEqual((found.entitlements, found.entitlements_plist), (ENTITLEMENTS, GIVEN))
        self.assertEqual((found.signature_flags, found.hash_kind, found.is_ad_hoc), (SignatureFlags.ADHOC, SignatureHash.SHA256, True))
        self.assertEqual((found.is_as_signed(), list(found.faults())), (True, []))
        self.assertEqual(repr(found), f"<Signature 'id', SHA256, flags ADHOC, cdhash {cdhash.hex()}>")

    def test_what_it_leaves_out(self):
        found = self.image(signed(entitlements=None, flags=0x10000)).signature
        self.assertEqual((found.entitlements, found.entitlements_plist, found.is_ad_hoc), (None, None, False))
        self.assertEqual(repr(found)[:40], "<Signature 'id', SHA256, flags RUNTIME, ")
        self.assertEqual(self.image(signed(entitlements=b"")).signature.entitlements, b"")
        with self.assertRaises(Exception):
            self.image(signed(entitlements=b"no list")).signature.entitlements_plist

    def test_whether_entitlements_agree(self):
        xml, der = plistlib.dumps({"a": True}), b"\x70\x0d\x02\x01\x01\xb0\x08\x30\x06\x0c\x01a\x01\x01\xff"
        for entitlements, in_der, says, agree in (
                (None, None, "none", None), (xml, der, "same", True), (ENTITLEMENTS, der, "different", False), (xml, None, "only XML", None),
                (None, der, "only DER", None), (b"<plist", der, "unreadable XML", False), (xml, der[:-1], "unreadable DER", False)):
            with self.subTest(says):
                found = self.image(signed(entitlements, in_der)).signature
                self.assertEqual((found.entitlements_agreement, found.entitlements_agree, found.is_as_signed()), (says, agree, True))
                self.assertIn(found.entitlements_agreement, goblin_mach.AGREEMENTS)

    def test_values_of_entitlements(self):
        given = {"a&b": "<z", "": [True, -5, {}, {"k": datetime.datetime(2024, 2, 29, 23, 59, 59)}, ""], "n": 2 ** 64 - 1, "r": 1.5, "f": False,
                 "deep": {"er": {"er": [[["\u00e9"]]]}}}
        wanted = {**given, "": [True, -5, {}, {"k": "2024-02-29T23:59:59Z"}, ""], "r": None}
        der = b"\x70\x1e\x02\x01\x01\xb0\x19\x30\x0b\x0c\x01a\x30\x06\x02\x01\xff\x01\x01\x00\x30\x0a\x0c\x02bc\x0c\x04d&\x80f"
        found = self.image(signed(plistlib.dumps(given, sort_keys=False), der)).signature
        self.assertEqual((found.entitlements_in_xml, list(found.entitlements_in_xml)), (wanted, list(given)))
        self.assertEqual(json.loads(json.dumps(found.entitlements_in_xml)), wanted)
        self.assertEqual(found.entitlements_in_der, {"a": [-1, False], "bc": "d&\udc80f"})
        again = b"<plist><dict><key>a</key><dict><key>b</key><true/></dict><key>a</key><array><false/></array></dict></plist>"
        self.assertEqual(self.image(signed(again)).signature.entitlements_in_xml, {"a": {"b": True}})
        self.assertEqual((self.image(signed()).signature.entitlements_in_xml, self.image(signed()).signature.entitlements_in_der), (GIVEN, None))
        self.assertEqual(self.image(signed(b"<plist><dict/></plist>")).signature.entitlements_in_xml, {})
        self.assertIsNone(self.image(signed(None)).signature.entitlements_in_xml)
        for xml, in_der, name in ((b"no list", None, "entitlements_in_xml"), (None, der[:-1], "entitlements_in_der"), (b"", None, "entitlements_in_xml")):
            with self.subTest(xml=xml), self.assertRaises(goblin_mach.Refused) as met:
                getattr(self.image(signed(xml, in_der)).signature, name)
            self.assertEqual(met.exception.code, goblin_mach.ErrorCode.MALFORMED)

    def test_requirements(self):
        whole, other = blob(0xFADE0C00, big(1, 6, 2, 2) + b"id\0\0" + big(3)), blob(0xFADE0C00, big(2, 0))
        given = big(3, 3, 36, 5, 36 + len(whole), 4, 36) + whole + other
        found = self.image(signed(requirements=given)).signature
        self.assertEqual(found.requirements, {"designated": 'identifier "id" and anchor apple', "library": 'identifier "id" and anchor apple',
                                              "plugin": "not simple: " + other.hex()})
        self.assertLessEqual(set(found.requirements), set(goblin_mach.REQUIREMENTS))
        self.assertEqual(self.image(signed()).signature.requirements, {})
        for wrong, number in ((big(2, 3, 36), goblin_mach.ErrorCode.MALFORMED), (big(1, 1, 0x10000) + whole, goblin_mach.ErrorCode.SHORT)):
            with self.assertRaises(goblin_mach.Refused) as met:
                self.image(signed(requirements=wrong)).signature.requirements
            self.assertEqual(met.exception.code, number)

    def test_verdicts(self):
        held = self.image(signed(flags=0x12002)).security()
        self.assertEqual([name for name, holds in held.items() if holds],
                         ["stripped", "signed", "ad-hoc", "hardened-runtime", "library-validation", "entitlements", "get-task-allow"])
        self.assertEqual((len(held), list(held)[0], set(held.values())), (18, "pie", {True, False}))
        unread = self.image(code(12) + big(0xFADE0CC1, 12, 0)).security()
        self.assertEqual([name for name, holds in unread.items() if holds is None],
                         ["signed", "ad-hoc", "cms", "hardened-runtime", "library-validation", "entitlements", "get-task-allow"])
        no_directory = self.image(code(12) + big(0xFADE0CC0, 12, 0)).security()
        self.assertEqual((no_directory["signed"], no_directory["cms"], no_directory["stripped"]), (None, False, True))
        narrow = self.image(little(0xFEEDFACE, 7, 3, 2, 0, 0, 0x1200000, 0)).security()
        self.assertEqual([name for name, holds in narrow.items() if holds], ["no-heap-execution", "pie", "stripped"])

    def test_a_name_that_cannot_be_read(self):
        found = self.image(signed(names=b"id\0\xff\xff\0")).signature
        self.assertEqual((found.identifier, found.team, found.errors), ("id", None, {"team": "out of the bytes, or no text"}))
        self.assertEqual([str(each) for each in found.faults()], ["team: out of the bytes, or no text"])

    def test_what_is_not_as_it_was_signed(self):
        whole = signed()
        for at, words in ((31, "page 0: 0x0..0x1000 is not what was signed"), (CODE - 1, "page 1: 0x1000..0x1200 is not what was signed"),
                          (len(whole) - 1, "entitlements: not what was signed")):
            with self.subTest(words):
                data = bytearray(whole)
                data[at] ^= 1
                image = self.image(bytes(data))
                self.assertEqual(([str(each) for each in image.signature.faults()], image.signature.is_as_signed()), ([words], False))
                self.assertEqual(list(image.signature_faults()), list(image.signature.faults()))

    def test_words_of_an_alternate(self):
        self.assertEqual(str(SignatureFault("page", 0x1000, 3, 0x3000, 0x4000, None)), "alternate 1: page 3: 0x3000..0x4000 is not what was signed")
        self.assertEqual(str(SignatureFault("magic", 5, 1, 0xFADE0C01, 0, None)), "blob 1: entitlements: magic 0xfade0c01")
        self.assertEqual(str(SignatureFault("unknown", 0, 12, 0, 0, None)), "slot 0xc: not known")
        self.assertEqual(str(SignatureFault("short", 0, 0, 0x1000, 0x1200, None)), "covers 0x1000, and begins at 0x1200")

    def test_none_and_refused(self):
        with goblin_mach.open(os.path.join(TOP, "crates/machaudit/data/b.macho")) as file:
            self.assertEqual((file[0].signature, list(file[0].signature_faults())), (None, []))
        no_directory, magic = code(12) + big(0xFADE0CC0, 12, 0), code(12) + big(0xFADE0CC1, 12, 0)
        for data, number in ((no_directory, goblin_mach.ErrorCode.MALFORMED), (magic, goblin_mach.ErrorCode.BAD_MAGIC)):
            with self.assertRaises(goblin_mach.Refused) as met:
                self.image(data).signature
            self.assertEqual(met.exception.code, number)
        self.assertEqual([str(each) for each in self.image(no_directory).signature_faults()], ["code directory: malformed"])
        with self.assertRaises(goblin_mach.Refused):
            list(self.image(magic).signature_faults())

    def test_of_a_linker(self):
        with goblin_mach.open(SIGNED) as file:
            found = file[0].signature
            self.assertEqual((found.identifier, found.team, found.entitlements), ("libanswer.dylib", None, None))
            self.assertEqual(found.cdhash.hex(), "e5c637506db686803b79a8344ffe86b79740bd95")
            self.assertEqual(found.signature_flags.names, ("ADHOC", "LINKER_SIGNED"))
            self.assertTrue(found.is_as_signed())
        with self.assertRaises(ValueError):
            found.is_as_signed()
        with self.assertRaises(ValueError):
            found.entitlements_agree
        with self.assertRaises(ValueError):
            found.entitlements_in_xml
        with self.assertRaises(ValueError):
            found.requirements
        with self.assertRaises(ValueError):
            list(found.faults())
        self.assertEqual(found.identifier, "libanswer.dylib")


if __name__ == "__main__":
    unittest.main()
