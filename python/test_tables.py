"""Tests of the lists from tables of commands, sections and opcodes, on the two images that c/tables_image.py writes. `c/check` runs it."""

import os
import struct
import subprocess
import sys
import tempfile
import unittest

import goblin_mach
from goblin_mach import (
    BuildTool, DataInCode, DataKind, FunctionStart, IndirectSymbol, Initializer, LinkerOption, Rebase, Refused, SectionString, SymbolProvider, Tool, WeakBind,
)

TOP = os.path.dirname(os.path.dirname(os.path.abspath(__file__)))


class Tables(unittest.TestCase):
    def setUp(self):
        room = tempfile.TemporaryDirectory()
        self.addCleanup(room.cleanup)
        self.room = room.name
        subprocess.run([sys.executable, os.path.join(TOP, "c/tables_image.py"), room.name], check=True)
        self.images = {}
        for name in ("tables", "tables32"):
            file = goblin_mach.open(os.path.join(room.name, name + ".macho"))
            self.addCleanup(file.close)
            self.images[8 if name == "tables" else 4] = file[0]

    def of_both(self):
        for width, image in self.images.items():
            with self.subTest(width=width):
                yield width, image

    def commands(self, image, number):
        return [each.offset for each in image.commands() if each.cmd == number]

    def test_function_starts(self):
        for _, image in self.of_both():
            self.assertEqual(list(image.function_starts()), [FunctionStart(address, None) for address in (0x1008, 0x1018, 0x1024)])

    def test_weak_binds(self):
        for p, image in self.of_both():
            data = image.segments()[1]
            wanted = [WeakBind("_c", True, 0, 0, 0, False, None)] + [
                WeakBind(name, False, 0x2000 + k * p, data.fileoff + k * p, addend, addend != 0, None)
                for name, k, addend in (("_a", 1, 0), ("_a", 2, 0), ("_b", 4, -1), ("_b", 5, -1))
            ]
            self.assertEqual(list(image.weak_binds()), wanted)

    def test_rebases(self):
        for p, image in self.of_both():
            wanted = [Rebase(0x2000 + k * p, 1, k * p, "pointer", 0x1000 + 8 * k, False, 0, 0, False, None) for k in (0, 1, 3, 4, 5, 7, 9)]
            self.assertEqual(list(image.rebases()), wanted)

    def test_rebases_of_chains(self):
        with goblin_mach.open(os.path.join(TOP, "crates/machfixups/data/chains.macho")) as file:
            told = 0
            for image in file:
                fixed = [each for each in image.fixups() if each.kind == "rebase" or each.error]
                wanted = [Rebase(f.address, f.segment, f.offset, "none" if f.error else "pointer", f.target, f.is_signed, f.key, f.diversity,
                                 f.is_address_diverse, f.error) for f in fixed]
                self.assertEqual(list(image.rebases()), wanted)
                told += len(wanted)
            self.assertEqual(told, 5)

    def test_faults_of_opcodes(self):
        with open(os.path.join(self.room, "tables.macho"), "rb") as file:
            whole = bytearray(file.read())
        image = self.images[8]
        (command,) = self.commands(image, 0x80000022)
        for words, number, call in (("an opcode that is none", 8, "rebases"), ("a name of no provider", 24, "weak_binds")):
            with self.subTest(words):
                data = bytearray(whole)
                at = int.from_bytes(data[command + number:command + number + 4], "little")
                data[at] = 0x10 if number == 24 else 0x90
                found = list(getattr(goblin_mach.Image(bytes(data)), call)())
                self.assertEqual([each.error is None for each in found], [False])
                self.assertEqual(found[0].address, 0)

    def test_data_in_code(self):
        for _, image in self.of_both():
            found = image.data_in_code()
            self.assertEqual(found[:], [DataInCode(0, 8, 1, None), DataInCode(0x20, 4, 4, None)])
            self.assertEqual([each.data_kind for each in found], [DataKind.DATA, DataKind.JUMP_TABLE32])

    def test_indirect_symbols(self):
        for _, image in self.of_both():
            wanted = [("symbol", 0), ("symbol", 1), ("symbol", 3), ("symbol", 0), ("local", None), ("absolute", None), ("local absolute", None), ("symbol", 2)]
            self.assertEqual(image.indirect_symbols()[:], [IndirectSymbol(kind, symbol, None) for kind, symbol in wanted])

    def test_records_past_the_end(self):
        many = (1 << 32) - 1
        for p, image in self.of_both():
            data, order = bytearray(image.data), "<I" if image.is_little_endian else ">I"
            tables = [(call, *self.commands(image, number), place, size)
                      for call, number, place, size in (("symbols", 2, 8, 8 + p), ("indirect_symbols", 0xB, 56, 4), ("data_in_code", 0x29, 8, 8))]
            starts = {call: struct.unpack_from(order, data, command + place)[0] for call, command, place, _ in tables}
            for call, command, place, size in tables:
                struct.pack_into(order, data, command + place + 4, many)
            one = goblin_mach.Image(bytes(data), 0, goblin_mach.LOSSY)
            segment = one.segments()[0]._replace(nsects=many)
            section = one.sections(segment)[0]._replace(reloff=len(data) - 12, nreloc=many)
            lists = [(getattr(one, call), starts[call], size, many // 8 if call == "data_in_code" else many) for call, _, _, size in tables]
            lists += [(lambda: one.sections(segment), segment.command + 40 + 4 * p, 56 + 3 * p, many),
                      (lambda: one.relocations(section), len(data) - 12, 8, many)]
            for rows, start, size, count in lists:
                begun, there = rows().in_bounds(), sum(1 for _ in range(start, len(data), size))
                self.assertEqual((len(rows()), len(begun), len(begun.in_bounds())), (count, there, there))
                self.assertEqual(list(begun), rows()[:there])
                past = rows()[there]
                self.assertEqual((past.error, past in rows(), rows()[-1] == past, None in rows()), (goblin_mach.ERRORS[3], True, True, False))
                self.assertEqual((begun[-1], begun[there - 1:]), (rows()[there - 1], [rows()[there - 1]]))
                with self.assertRaises(IndexError):
                    begun[there]
            self.assertEqual(len(one.commands().in_bounds()), len(one.commands()))

    def test_linker_options(self):
        for _, image in self.of_both():
            first, second = self.commands(image, 0x2D)
            wanted = [LinkerOption("-framework", first, None), LinkerOption("Cocoa", first, None), LinkerOption("-lc", second, None)]
            self.assertEqual(image.linker_options()[:], wanted)

    def test_build_tools(self):
        for _, image in self.of_both():
            (command,) = self.commands(image, 0x32)
            found = image.build_tools()[:]
            self.assertEqual(found, [BuildTool(3, 0x4500000, command, None), BuildTool(1, 0x120000, command, None)])
            self.assertEqual([(each.build_tool, each.version_text) for each in found], [(Tool.LD, "1104.0.0"), (Tool.CLANG, "18.0.0")])

    def test_notes(self):
        for _, image in self.of_both():
            found = [(each.owner, bytes(each.data), each.command, each.error is None) for each in image.notes()]
            first, second, third = self.commands(image, 0x31)
            self.assertEqual(found, [("owner", b"note", first, True), ("sixteen bytes, 1", b"", second, True), ("", b"", third, False)])

    def test_slots(self):
        for p, image in self.of_both():
            stub = 0x1020
            wanted = [(stub, 6, "stub", "_a"), (stub + 6, 6, "stub", "_b"), (stub + 12, 6, "stub", "_d"), (0x2000 + 8 * p, p, "lazy pointer", "_a"),
                      (0x2000 + 9 * p, p, "lazy pointer", None), (0x2000 + 10 * p, p, "pointer", None), (0x2000 + 11 * p, p, "pointer", None),
                      (0x2000 + 12 * p, p, "thread-local pointer", "_c"), (0x2000 + 13 * p, p, "pointer", "_c")]
            found = list(image.symbol_slots())
            self.assertEqual([(each.address, each.len, each.kind, each.name) for each in found[:-1]], wanted)
            self.assertEqual([each.owner for each in found[3:7]], ["symbol", "local", "absolute", "local absolute"])
            self.assertEqual([each.symbol for each in found[:5]], [0, 1, 3, 0, None])
            self.assertIsNotNone(found[-1].error)
            for each in found[:-1]:
                self.assertEqual(image.slot_at(each.address + each.len - 1), each)
            self.assertIsNone(image.slot_at(stub + 18))
            self.assertIsNone(image.slot_at(0))
            with self.assertRaises(Refused):
                image.slot_at(0x2000 + 14 * p)
            with self.assertRaises(ValueError):
                image.slot_at(1 << 64)

    def test_initializers(self):
        for p, image in self.of_both():
            self.assertEqual(list(image.initializers()), [Initializer(0x2000 + k * p, 0x1000 + 8 * k, 1, 0, None) for k in range(8)])

    def test_what_sections_hold(self):
        for _, image in self.of_both():
            text, past, bss = image.section("__TEXT", "__text"), image.section("__DATA", "__past"), image.section("__DATA", "__bss")
            for section in (text, image.section_of(1)):
                self.assertEqual(bytes(image.section_data(section)), bytes(range(32)))
                self.assertEqual(image.strings(section)[:], [SectionString("", 0), SectionString(bytes(range(1, 32)).decode(), 1)])
            self.assertEqual((image.section_data(bss).nbytes, list(image.strings(bss))), (0, []))
            self.assertEqual(image.section_data(past), past.data)
            for call in (image.section_data, image.strings):
                with self.assertRaises(Refused):
                    call(text._replace(size=1 << 40))

    def test_who_gives_a_symbol(self):
        for _, image in self.of_both():
            found = {each.name: image.symbol_provider(each) for each in image.symbols()}
            wanted = {"_a": SymbolProvider("library", 1, None), "_b": SymbolProvider("library", 2, None), "_c": None, "_d": SymbolProvider("any", 0, None),
                      "_e": SymbolProvider("program", 0, None), "_s": SymbolProvider("itself", 0, None), "_m": None}
            self.assertIsNotNone(found.pop("_z").error)
            self.assertEqual(found, wanted)

    def test_sections_that_are_sought(self):
        for p, image in self.of_both():
            found = image.section_at(0x1020)
            self.assertEqual((found.number, found.segment, found.index, found.name, found.segment_name, found.reserved2),
                             (2, 0, 1, "__stubs", "__TEXT", 6))
            self.assertEqual(found.type.name, "SYMBOL_STUBS")
            self.assertEqual(image.section_of(2), found)
            self.assertEqual(image.section_of(4), image.section_at(0x2000 + 8 * p))
            self.assertEqual([image.section_at(0), image.section_at((1 << 64) - 1), image.section_of(0), image.section_of(9)], [None] * 4)
            with self.assertRaises(ValueError):
                image.section_of(-1)

    def test_lists_of_an_image_that_has_none(self):
        image = goblin_mach.Image(b"\xcf\xfa\xed\xfe\x07\x00\x00\x01" + bytes(24))
        lists = (image.function_starts(), image.data_in_code(), image.indirect_symbols(), image.linker_options(), image.build_tools(), image.notes(),
                 image.symbol_slots(), image.weak_binds(), image.rebases())
        self.assertEqual([list(each) for each in lists], [[]] * len(lists))


if __name__ == "__main__":
    unittest.main()
