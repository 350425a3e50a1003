"""Tests of numbers with names. They need no library."""

import copy
import os
import pickle
import shutil
import sys
import tempfile
import unittest

import enums_check

CLASSES = enums_check.enum_classes()
HERE = os.path.dirname(os.path.abspath(__file__))


class Names(unittest.TestCase):
    def test_are_those_of_the_crates_and_of_the_header(self):
        self.assertEqual(enums_check.differences(), [])

    def test_a_number_that_differs_is_told(self):
        """Tests the check itself, on a repository of one file, with a number that differs and a name that is new."""
        with tempfile.TemporaryDirectory() as room:
            os.makedirs(os.path.join(room, "crates/mach_some/src"))
            os.makedirs(os.path.join(room, "c/include"))
            shutil.copy(os.path.join(enums_check.TOP, "c/include/goblin_mach.h"), os.path.join(room, "c/include"))
            with open(os.path.join(room, "crates/mach_some/src/lib.rt"), "w", encoding="utf-8") as file:
                file.write("pub const LC_UUID: u32 = 0x1c;\npub const LC_NEW: u32 = 0x8000_1234;\npub const MH_PIE: u32 = 0x0020_0000;\n"
                           "pub const N_FUN: u8 = 0x24;\npub const LC_SUM: u32 = 1 + 1;\npub const LC_REQ_DYLD: u32 = 0x8000_0000;\n")
            told = [line for line in enums_check.differences(room) if "no constant" not in line]
        self.assertEqual([line.split(" ")[0] for line in told if not line.startswith(room)], ["LC_UUID", "LC_NEW"])
        self.assertEqual(len([line for line in told if "LC_SUM" in line]), 1)

    def test_are_looked_up_by_number(self):
        load_command, flags = CLASSES["LoadCommand"], CLASSES["HeaderFlags"]
        self.assertIs(load_command(0x19), load_command.SEGMENT_64)
        self.assertIs(load_command.of(0x19), load_command.SEGMENT_64)
        self.assertEqual(load_command.SEGMENT_64, 0x19)
        self.assertTrue(load_command.SEGMENT_64.is_known)
        self.assertEqual(f"{load_command.SEGMENT_64:x} {load_command.SEGMENT_64.name}", "19 SEGMENT_64")
        self.assertIn(flags.PIE, flags(0x200085))
        self.assertNotIn(flags.PIE, flags(0x85))
        self.assertEqual(flags(0x200085).names, ("NOUNDEFS", "DYLDLINK", "TWOLEVEL", "PIE"))
        self.assertEqual(flags(0).names, ())

    def test_of_rights_as_letters(self):
        rights = CLASSES["Protection"]
        self.assertEqual([rights(number).letters for number in (0, 1, 5, 7, 8)], ["---", "r--", "r-x", "rwx", "---"])

    def test_of_cpus_and_what_goes_by_them(self):
        enums = sys.modules["goblin_mach_enums.enums"]
        symbols = sys.modules["goblin_mach_enums.symbol_enums"]
        self.assertIs(enums.cpu_subtype(0x0100000C, 0x80000002), enums.Arm64Subtype.ARM64E)
        self.assertIs(enums.cpu_subtype(0x01000007, 8), enums.X86_64Subtype.X86_64_H)
        other = enums.cpu_subtype(99, 3)
        self.assertEqual((other, other.name, type(other)), (3, "UNKNOWN_0x3", enums.CpuSubtype))
        self.assertIs(symbols.relocation_type(0x0100000C, 3), symbols.Arm64Relocation.PAGE21)
        self.assertIs(symbols.relocation_type(7, 2), symbols.GenericRelocation.SECTDIFF)
        self.assertEqual(symbols.relocation_type(99, 3).name, "UNKNOWN_0x3")

    def test_what_has_names_is_no_empty_class(self):
        empty = {name for name, item in CLASSES.items() if not item.__members__ and not name.startswith(("Int", "Number", "Flags"))}
        self.assertEqual(empty, {"CpuSubtype", "RelocationType"})


class Unknown(unittest.TestCase):
    def each(self):
        """Yields each enum that has names, and a number without a name in it."""
        for name, item in sorted(CLASSES.items()):
            if item.__members__:
                number = 0xFFFFFFFF - 0x12345
                with self.subTest(name):
                    yield item, number

    def test_numbers_are_kept(self):
        for item, number in self.each():
            found = item(number)
            self.assertIsInstance(found, item)
            self.assertEqual((found, int(found), found == number, {number: 1}[found]), (number, number, True, 1))
            self.assertEqual(item.of(number), found)
            self.assertIn("0x" if not hasattr(found, "names") else str(number), repr(found))
            self.assertIsInstance(str(found), str)

    def test_names_say_the_number(self):
        load_command = CLASSES["LoadCommand"]
        self.assertEqual(load_command(0x99).name, "UNKNOWN_0x99")
        self.assertEqual(load_command(-1).name, "UNKNOWN_-0x1")
        self.assertEqual(repr(load_command(0x99)), "<LoadCommand.UNKNOWN_0x99: 153>")
        self.assertFalse(load_command(0x99).is_known)
        self.assertEqual(CLASSES["HeaderFlags"](0x40000001).names, ("NOUNDEFS", "0x40000000"))

    def test_numbers_do_not_fill_the_tables(self):
        for item, _ in self.each():
            size = len(item._value2member_map_)
            for number in range(1000, 2000):
                item(number)
                item.of(number)
            self.assertLessEqual(len(item._value2member_map_) - size, 64)  # before Python 3.11 each bit of a flag is stored once

    def test_what_is_no_number_is_refused(self):
        for item, _ in self.each():
            for wrong in ("x", None, 1.5):
                with self.assertRaises((ValueError, TypeError)):
                    item(wrong)

    def test_are_copied_and_pickled(self):
        for item, number in self.each():
            for value in (item(number), next(iter(item.__members__.values()))):
                for protocol in range(pickle.HIGHEST_PROTOCOL + 1):
                    self.assertEqual(pickle.loads(pickle.dumps(value, protocol)), value)
                    self.assertIs(type(pickle.loads(pickle.dumps(value, protocol))), item)
                self.assertEqual((copy.copy(value), copy.deepcopy(value)), (value, value))

    def test_flags_are_joined(self):
        flags = CLASSES["HeaderFlags"]
        self.assertEqual((flags.PIE | flags(0x40000000)).names, ("PIE", "0x40000000"))
        self.assertEqual((flags(0x40200000) & ~flags.PIE) & 0xFFFFFFFF, 0x40000000)


if __name__ == "__main__":
    unittest.main()
