"""Tests of the package: files and lists as sequences, what may be opened, the text of a `repr`, names of architectures, structs, and
where the library is searched. `python3 -m unittest discover -s python` runs them with the others."""

import array
import ctypes
import itertools
import mmap
import os
import pathlib
import re
import shutil
import struct
import subprocess
import sys
import tempfile
import threading
import types
import unittest

import goblin_mach
import test_goblin_mach as made
import test_values as values
from goblin_mach import _arch, _library, _structs

PACKAGE = os.path.dirname(os.path.abspath(goblin_mach.__file__))
TOP = os.path.dirname(os.path.dirname(PACKAGE))
ARM64, ARM64E = 0x0100000C, 2
MANY = 2500


def image_of(cpu, kind, *commands, filetype=2):
    """Returns the bytes of an image for this cpu."""
    data = bytearray(made.image(*commands, filetype=filetype))
    data[4:12] = struct.pack("<2I", cpu, kind)
    return bytes(data)


def library(name):
    return made.command(0xC, struct.pack("<4I", 24, 1, 2, 3), name + b"\0")


def numbered(count):
    return made.with_symbols(*(b"_%d" % k for k in range(count)))


SLICES = [slice(*each) for each in itertools.product((None, 3, -2, 2400, -9000), (None, 5, -1, 2490, 9000), (None, 2, -1, -3))]


class Files(made.Case):
    def several(self):
        archive = b"!<arch>\n" + bytes(8)
        return self.opened(made.fat(image_of(7, 3), archive, image_of(ARM64, 0), bytes(64), image_of(ARM64, ARM64E, library(b"/l")), archive))

    def test_are_sequences_of_images(self):
        file = self.several()
        images = list(file)
        self.assertEqual([image.arch for image in images], ["i386", "arm64", "x86_64", "arm64e"])
        self.assertEqual((len(file), file[0], file[-1], file[1:3], file[::-1]), (4, images[0], images[3], images[1:3], images[::-1]))
        self.assertEqual((list(reversed(file)), file.index(images[2]), file.count(images[1])), (images[::-1], 2, 1))
        for number in (4, -5, 1 << 70):
            with self.assertRaises(IndexError):
                file[number]
        self.assertEqual((file["arm64"], file["x86_64"].error.code), (images[1], 2))
        with self.assertRaises(KeyError):
            file["armv7"]

    def test_of_one_image(self):
        file = self.opened(made.image())
        self.assertEqual((len(file), file[0], file[-1], file[:], file[1:]), (1, file[-1], next(iter(file)), [file[0]], []))
        for number in (1, -2):
            with self.assertRaises(IndexError):
                file[number]

    def test_that_have_none(self):
        file = self.opened(made.fat())
        self.assertEqual((len(file), file[:], list(file)), (0, [], []))
        with self.assertRaises(IndexError):
            file[0]
        with self.assertRaises(LookupError):
            file.image()

    def test_hold_equal_images(self):
        file, other = self.several(), goblin_mach.parse(made.image())
        self.assertIn(file[1], file)
        self.assertNotIn(other[0], file)
        self.assertNotIn("arm64", file)
        self.assertEqual(len({*file, *file}), 4)
        self.assertNotEqual(file[0], file[1])
        data = made.image()
        self.assertNotEqual(goblin_mach.Image(data), goblin_mach.Image(data, 0, goblin_mach.LOSSY))

    def test_give_the_image_of_an_architecture(self):
        file = self.several()
        self.assertEqual((file.image(), file.image("arm64"), file.image(arch="arm64e")), (file[0], file[1], file[3]))
        self.assertEqual(file.image("arm64e").cpu_subtype, goblin_mach.Arm64Subtype.ARM64E)
        bad = file.image("x86_64")  # by its record, because it can't be opened
        self.assertEqual((bad.error.code, bad.cputype), (2, 0))
        with self.assertRaises(LookupError) as met:
            file.image("armv7")
        self.assertEqual(str(met.exception), "no image of armv7: there are i386, arm64, x86_64, arm64e")

    def test_behind_close(self):
        file = self.several()
        image = file[1]
        file.close()
        self.assertTrue(file.closed)
        for call in (lambda: len(file), lambda: file[0], lambda: file[:], lambda: image in file, lambda: file.image(), lambda: image.commands()[0],
                     lambda: len(image.commands()), lambda: image.commands()[:], lambda: 1 in image.commands(), lambda: image.data):
            with self.assertRaises(ValueError) as met:
                call()
            self.assertEqual(str(met.exception), "the file is closed")

    def test_of_any_buffer(self):
        data = numbered(3)
        path = self.path(data)
        with open(path, "rb") as file, mmap.mmap(file.fileno(), 0, access=mmap.ACCESS_READ) as mapped:
            buffers = [bytearray(data), memoryview(data), memoryview(data)[:], array.array("B", data), (ctypes.c_char * len(data))(*data), mapped]
            for each in buffers:
                for opened in (goblin_mach.open(each), goblin_mach.parse(each)):
                    with self.subTest(type(each)), opened as one:
                        self.assertEqual([symbol.name for symbol in one[0].symbols()], ["_0", "_1", "_2"])
                        self.assertIsNone(one.name)
            del opened, one, each, buffers
        self.assertEqual(len(goblin_mach.parse(data)[0].symbols()), 3)
        self.assertEqual(len(goblin_mach.parse(struct.unpack(f"{len(data)}B", data) and data)), 1)

    def test_of_any_path(self):
        path = self.path(numbered(3))
        for each in (path, os.fsencode(path), pathlib.Path(path), pathlib.PurePosixPath(path)):
            with self.subTest(each), goblin_mach.open(each) as file:
                self.assertEqual((len(file[0].symbols()), file.name, file.closed), (3, each, False))

    def test_of_what_has_no_bytes(self):
        for wrong in (None, 1.5, object(), ["x"]):
            with self.assertRaises(TypeError):
                goblin_mach.open(wrong)
            with self.assertRaises(TypeError):
                goblin_mach.parse(wrong)
        for path in ("a.out", pathlib.Path("a.out")):
            with self.assertRaises(TypeError):
                goblin_mach.parse(path)
        with self.assertRaises(TypeError):
            goblin_mach.parse(memoryview(bytes(64))[::2])
        with self.assertRaises(OSError):
            goblin_mach.open(self.room + "/none")

    def test_hold_bytes_that_can_not_be_resized_meanwhile(self):
        data = bytearray(numbered(3))
        file = goblin_mach.parse(data)
        image = file[0]
        with self.assertRaises(BufferError):
            data.append(0)
        file.close()
        del image
        data.append(0)

    def test_say_what_they_are(self):
        file = self.several()
        self.assertEqual(repr(file), f"<File {file.name!r}, {os.path.getsize(file.name)} bytes>")
        places = [8 + 6 * 20, 8 + 6 * 20 + 32 + 16]
        self.assertEqual(repr(file[0]), f"<Image i386 EXECUTE at 0x{places[0]:x}, 0 commands>")
        self.assertEqual(repr(file[1]), f"<Image arm64 EXECUTE at 0x{places[1]:x}, 0 commands>")
        self.assertEqual(repr(file[2]), f"<Image x86_64 at 0x{places[1] + 32:x}, refused: {file[2].error}>")
        self.assertEqual(repr(file[3]), f"<Image arm64e EXECUTE at 0x{places[1] + 96:x}, 1 command>")
        self.assertEqual((file[1].fat_offset, file[1].offset), (places[1], 0))
        self.assertEqual(repr(goblin_mach.Image(bytes(16) + image_of(99, 5, filetype=77), 16)), "<Image unknown(99,5) UNKNOWN_0x4d at 0x10, 0 commands>")
        self.assertEqual(repr(goblin_mach.parse(made.image())), "<File bytes, 32 bytes>")
        file.close()
        self.assertEqual(repr(file), f"<File {file.name!r}, closed>")


class Lists(made.Case):
    def test_have_a_length_indices_and_slices(self):
        path = made.command(0x8000001C, b"\x0c\0\0\0/r\0")
        image = goblin_mach.Image(made.image(*(library(b"/%d" % k) for k in range(MANY)), made.segment(b"__A"), path))
        symbols = goblin_mach.Image(numbered(MANY)).symbols
        for lists in (symbols, image.commands, image.libraries, image.segments, image.run_paths, image.ids):
            items = list(lists())
            with self.subTest(lists.__name__):
                self.assertEqual(len(lists()), len(items))
                self.assertEqual([lists()[k] for k in (0, -1, len(items) // 2) if items], [items[k] for k in (0, -1, len(items) // 2) if items])
                for each in SLICES:
                    self.assertEqual(lists()[each], items[each], each)
                for number in (len(items), -len(items) - 1, 1 << 70, -(1 << 70)):
                    with self.assertRaises(IndexError):
                        lists()[number]
        self.assertEqual([each.ordinal for each in image.libraries()[999:1002]], [1000, 1001, 1002])

    def test_that_begin_anew_at_each_call_have_few_calls(self):
        """Tests that 20,000 items need few calls, also at an index and in a slice. Each call of such a list reads what is before its first
        item."""
        count = 20000
        image = goblin_mach.Image(made.image(*(library(b"/%d" % k) for k in range(count))))
        kind = image.libraries()._kind
        calls = []
        counting = types.SimpleNamespace(**{name: getattr(kind, name) for name in ("array", "each", "grows", "items")})
        counting.call = lambda *given: calls.append(given) or kind.call(*given)
        rows = image.libraries()
        rows._kind = counting
        self.assertEqual([each.name for each in rows], [f"/{k}" for k in range(count)])
        self.assertLess(len(calls), 10)
        calls.clear()
        self.assertEqual((rows[count - 1].ordinal, len(rows[count // 2:])), (count, count // 2))
        self.assertLess(len(calls), 10)
        for lists in (image.commands, image.segments, image.run_paths, image.ids, image.linker_options, image.build_tools, image.build_versions,
                      image.dyld_environment, image.fileset_entries, image.notes, image.sections):
            self.assertTrue(lists()._kind.grows, lists.__name__)

    def test_in_several_threads(self):
        with goblin_mach.open(os.path.join(TOP, "crates/machsyms/data/objects.macho")) as file:
            image, found = file[0], []
            wanted = list(image.symbols())
            each = [threading.Thread(target=lambda: found.extend(list(image.symbols()) == wanted for _ in range(200))) for _ in range(8)]
            for thread in each:
                thread.start()
            for thread in each:
                thread.join()
        self.assertGreater(len(wanted), 1)
        self.assertEqual(found, [True] * 1600)

    def test_of_errors_alone(self):
        names = ("symbols", "data_in_code", "indirect_symbols", "linker_options", "build_tools", "notes", "sections")
        for path in values.SAMPLES:
            for _, image in goblin_mach.open(path).images():
                for name in names if image.error is None else ():
                    rows = getattr(image, name)()
                    rows = rows.in_bounds() if rows._table else rows
                    self.assertEqual(list(rows.errors()), [each.error for each in rows], name)

    def test_of_sections_and_relocations(self):
        raw = b"".join(struct.pack("<16s16s2Q8I", b"s%d" % k, b"__A", 0, 0, 0, 0, 0, 3, 0, 0, 0, 0) for k in range(5))
        image = goblin_mach.Image(made.image(made.segment(b"__A", raw, 5)))
        (segment,) = image.segments()
        sections = image.sections(segment)
        self.assertEqual((len(sections), sections[4].name, [each.name for each in sections[1:3]]), (5, "s4", ["s1", "s2"]))
        relocations = image.relocations(sections[0])
        self.assertEqual((len(relocations), relocations[2] in relocations), (3, True))

    def test_that_a_bad_file_says_are_long(self):
        section = goblin_mach.Section(b"", b"", 0, 0, 0, 0, 40, (1 << 32) - 1, 0, memoryview(b""), None)
        relocations = goblin_mach.Image(made.image(behind=bytes(16))).relocations(section)
        self.assertEqual((len(relocations), relocations[0].error), ((1 << 32) - 1, None))
        self.assertIsNotNone(relocations[-1].error)
        self.assertEqual(len(relocations[1000000:1000003]), 3)
        self.assertIsNone(next(relocations).error)

    def test_are_iterators_that_go_over_them_once(self):
        symbols = goblin_mach.Image(numbered(5)).symbols()
        self.assertEqual(next(symbols).value, 0)
        self.assertEqual((len(symbols), symbols[0].value, symbols[-1].value), (5, 0, 4))
        self.assertIn(symbols[0], symbols)
        self.assertNotIn("_0", symbols)
        self.assertEqual([symbol.value for symbol in symbols], [1, 2, 3, 4])
        self.assertEqual((list(symbols), len(symbols), [each.value for each in symbols[:2]]), ([], 5, [0, 1]))
        with self.assertRaises(StopIteration):
            next(symbols)

    def test_that_go_on_from_where_they_stopped_have_no_length(self):
        image = goblin_mach.Image(made.with_exports())
        for each in (image.exports(), image.imports(), image.bindings(), image.weak_binds(), image.rebases(), image.fixups(), image.layout_faults()):
            with self.assertRaises(TypeError):
                len(each)

    def test_say_what_they_are(self):
        file = self.opened(made.fat(numbered(2), bytes(64)))
        symbols, bad = file[0].symbols(), file[1].run_paths()
        self.assertEqual((repr(symbols), repr(bad)), ("<Rows: 2 symbols>", f"<Rows: run paths, {file[1].error}>"))
        file.close()
        self.assertEqual(repr(symbols), "<Rows: symbols, the file is closed>")

    def test_of_many_exports(self):
        """Tests more exports than a batch holds, and names longer than the first buffers."""
        long = b"n" * 3000
        leaf = [b"\2\0" + bytes([k]) + b"\0" for k in range(3)]
        names = [long + b"%d" % k for k in range(3)]
        size = 2 + sum(len(name) + 3 for name in names)
        trie = b"\0\3"
        for k, name in enumerate(names):
            at = size + 4 * k
            trie += name + b"\0" + bytes([at & 127 | 128, at >> 7])
        image = goblin_mach.Image(made.image(made.command(0x22, struct.pack("<10I", *8 * [0], 32 + 48, len(trie) + 12)), behind=trie + b"".join(leaf)))
        self.assertEqual([(e.name, e.address) for e in image.exports()], [(name.decode(), k) for k, name in enumerate(names)])


class Items(unittest.TestCase):
    def test_are_named_tuples(self):
        symbol = goblin_mach.Symbol("_a", 4096, 1, 0xF, 0, None)
        self.assertEqual(repr(symbol), "Symbol(name='_a', value=0x1000, section=1, n_type=0xf, desc=0, error=None)")
        self.assertEqual((symbol, symbol._replace(value=5).value, symbol._asdict()["name"]), (goblin_mach.Symbol("_a", 4096, 1, 15, 0, None), 5, "_a"))
        with self.assertRaises(AttributeError):
            symbol.value = 1
        segment = goblin_mach.Segment("__T", 0, 0, 0, 0, 7, 5, 0x10, memoryview(bytes(12)), 0, 0)
        self.assertIn("data=<12 bytes>", repr(segment))
        self.assertEqual((segment.initial_protection.letters, segment.max_protection.letters, segment.segment_flags.names), ("r-x", "rwx", ("READ_ONLY",)))

    def test_of_symbols(self):
        kinds = goblin_mach.SymbolType
        rows = [  # n_type, section, desc; type, stab, external, private, undefined, ordinal
            ((0x01, 0, 0x0100), (kinds.UNDF, None, True, False, True, 1)),
            ((0x0F, 1, 0x0080), (kinds.SECT, None, True, False, False, None)),
            ((0x1E, 1, 0), (kinds.SECT, None, False, True, False, None)),
            ((0x24, 1, 0), (kinds.of(4), goblin_mach.Stab.FUN, False, False, False, None)),
            ((0x20, 0, 0), (kinds.UNDF, goblin_mach.Stab.GSYM, False, False, False, None)),
            ((0xFF, 0, 0xFE00), (kinds.SECT, goblin_mach.Stab.of(0xFF), True, False, False, None)),
        ]
        for (n_type, section, desc), wanted in rows:
            s = goblin_mach.Symbol("", 0, section, n_type, desc, None)
            self.assertEqual((s.type, s.stab, s.is_external, s.is_private_external, s.is_undefined, s.library_ordinal), wanted)
        weak = goblin_mach.Symbol("", 0, 0, 1, 0x0241, None)
        self.assertEqual((weak.description.names, weak.reference, weak.library_ordinal), (("WEAK_REF",), goblin_mach.ReferenceType.UNDEFINED_LAZY, 2))
        entry = goblin_mach.Symbol("", 0, 1, 0xF, 0x0280, None)
        self.assertEqual(entry.description.names, ("WEAK_DEF", "ALT_ENTRY"))

    def test_of_relocations(self):
        one = goblin_mach.Relocation(0, 0x2D000001, None)
        self.assertEqual((one.number, one.is_pcrel, one.length, one.is_extern, one.type_number), (1, True, 2, True, 2))
        self.assertIs(one.type_for(0x01000007), goblin_mach.X86_64Relocation.BRANCH)

    def test_of_sections_exports_and_commands(self):
        section = goblin_mach.Section(b"", b"", 0, 0, 0, 0, 0, 0, 0x80000402, memoryview(b""), None)
        self.assertEqual((section.type, section.attributes.names),
                         (goblin_mach.SectionType.CSTRING_LITERALS, ("SOME_INSTRUCTIONS", "PURE_INSTRUCTIONS")))
        export = goblin_mach.Export("_a", "address", 0, 0, None, 0x25, None, None)
        self.assertEqual((export.export_kind, export.export_flags.names), (goblin_mach.ExportKind.THREAD_LOCAL, ("WEAK_DEFINITION", "0x20")))
        self.assertIs(goblin_mach.Command(0, 8, 0x80000028, memoryview(b"")).load_command, goblin_mach.LoadCommand.MAIN)
        entry = goblin_mach.FatEntry(ARM64, 0x80000002, 0, 0, 0, None)
        self.assertEqual((entry.arch, entry.cpu_type, entry.cpu_subtype), ("arm64e", goblin_mach.CpuType.ARM64, goblin_mach.Arm64Subtype.ARM64E))

    def test_of_images(self):
        data = bytearray(image_of(ARM64, 0x80000002))
        data[24:28] = struct.pack("<I", 0x200085)
        image = goblin_mach.Image(data)
        self.assertEqual((image.arch, image.cpu_type.name, image.cpu_subtype.name, image.file_type.name), ("arm64e", "ARM64", "ARM64E", "EXECUTE"))
        self.assertEqual((image.header_flags.names, bytes(image.data[:4])), (("NOUNDEFS", "DYLDLINK", "TWOLEVEL", "PIE"), b"\xcf\xfa\xed\xfe"))
        self.assertIs(type(image.cputype), int)
        self.assertTrue(image.data.readonly)


class Architectures(unittest.TestCase):
    def test_have_the_names_of_llvm(self):
        for cpu, kind, name in ((goblin_mach.CpuType.X86_64, 3, "x86_64"), (goblin_mach.CpuType.X86_64, 8, "x86_64h"),
                                (goblin_mach.CpuType.ARM, 9, "armv7"), (goblin_mach.CpuType.ARM64, 0x80000002, "arm64e"),
                                (goblin_mach.CpuType.ARM64_32, 1, "arm64_32"), (goblin_mach.CpuType.POWERPC64, 0, "ppc64")):
            self.assertEqual(_arch.arch_name(cpu, kind), name)
        self.assertEqual(_arch.arch_name(99, 0xFF000003), "unknown(99,3)")


class Structs(unittest.TestCase):
    def test_are_laid_out_as_the_header_says(self):
        with open(os.path.join(TOP, "c/include/goblin_mach.h"), encoding="utf-8") as file:
            header = file.read()
        fields = re.findall(r"^GM_FIELD\((\w+), (\w+), (\d+), (\d+)\);", header, re.M)
        sizes = dict(re.findall(r"^GM_SIZE\((\w+), (\d+)\);", header, re.M))
        known = {name: item for name, item in vars(_structs).items() if name.startswith("gm_")}
        told = {name: {} for name in known}
        for name, field, at, size in fields:
            if name in known:
                told[name][field] = (int(at), int(size))
        for name, item in known.items():
            with self.subTest(name):
                self.assertEqual(ctypes.sizeof(item), int(sizes[name]))
                found = {field: (getattr(item, field).offset, getattr(item, field).size) for field, *_ in item._fields_ if field in told[name]}
                self.assertEqual(found, told[name])
        self.assertGreater(len([name for name in told if told[name]]), 20)


class Version(unittest.TestCase):
    def test_is_that_of_the_repository(self):
        path = os.path.join(TOP, "VERSION")
        if not os.path.exists(path):
            self.skipTest("there is no file VERSION")
        with open(path, encoding="utf-8") as file:
            self.assertEqual(file.read().strip(), goblin_mach.__version__)

    def test_of_the_library_fits(self):
        self.assertEqual(_library.version_of(_library.lib)[:2], tuple(map(int, goblin_mach.__version__.split(".")[:2])))

    def test_of_another_library_does_not(self):
        def answers(number):
            return type("Call", (), {"__call__": lambda self: number})()

        numbers = ("gm_version_number", 4000), ("gm_version_number", 2000), ("gm_version", 2), ("gm_version_number", 3000)  # the last one has no other call
        for calls in ({name: answers(number)} for name, number in numbers):
            opened, _library._open_first = _library._open_first, lambda paths, calls=calls: types.SimpleNamespace(_name="x.so", **calls)
            try:
                with self.assertRaisesRegex(ImportError, "x.so (is of version|lacks a call)"):
                    _library.load([])
            finally:
                _library._open_first = opened


class Loading(made.Case):
    """Where the library is searched, by programs that print the path of what they loaded."""

    def setUp(self):
        super().setUp()
        self.top = os.path.join(self.room, "top")
        shutil.copytree(PACKAGE, os.path.join(self.top, "python/goblin_mach"), ignore=shutil.ignore_patterns("*.so*", "__pycache__"))
        self.library = os.path.realpath(next(line.split()[-1] for line in open_lines("/proc/self/maps") if _library_file(line)))

    def put(self, *path):
        path = os.path.join(self.room, *path)
        os.makedirs(os.path.dirname(path), exist_ok=True)
        shutil.copy(self.library, path)
        return path

    def loads(self, **more):
        """Returns what it loads, or the text of its ImportError."""
        code = "try:\n    import goblin_mach\n    print(goblin_mach._library.lib._name)\nexcept ImportError as why:\n    print('not:', why)"
        kept = {name: value for name, value in os.environ.items() if name not in ("GOBLIN_MACH", "LD_LIBRARY_PATH")}
        ran = subprocess.run([sys.executable, "-c", code], stdout=subprocess.PIPE, check=True, timeout=made.SECONDS, cwd=self.room,
                             env={**kept, "PYTHONPATH": os.path.join(self.top, "python"), "PYTHONDONTWRITEBYTECODE": "1", **more})
        return ran.stdout.decode().strip()

    def test_by_the_environment_alone(self):
        beside, named = self.put("top/python/goblin_mach/libgoblin_mach.so"), self.put("else/named.so")
        self.assertEqual(self.loads(GOBLIN_MACH=named), named)
        self.assertEqual(self.loads(), beside)
        self.assertEqual(self.loads(GOBLIN_MACH=""), beside)
        self.assertRegex(self.loads(GOBLIN_MACH=named + "2"), "^not: libgoblin_mach.so is not found: build it by ./tools/build-c, .*named.so2")
        self.assertRegex(self.loads(GOBLIN_MACH="libc.so.6"), "^not: libc.so.6 lacks a call")

    def test_in_order(self):
        folder = os.path.join(self.room, "system")
        plain, soname = self.put("system/libgoblin_mach.so"), self.put("system/libgoblin_mach.so.0.3")
        built, older = self.put("top/build/lib/libgoblin_mach.so.0.3.0"), self.put("top/build/libgoblin_mach.so.0.3.0")
        self.assertEqual(self.loads(LD_LIBRARY_PATH=folder), "libgoblin_mach.so.0.3")
        with open(os.path.join(self.top, "python/pyproject.toml"), "w", encoding="utf-8"):
            pass
        self.assertEqual(self.loads(LD_LIBRARY_PATH=folder), built)
        beside = self.put("top/python/goblin_mach/libgoblin_mach.so.0.3")
        self.assertEqual(self.loads(LD_LIBRARY_PATH=folder), beside)
        for path in (beside, built):
            os.remove(path)
        self.assertEqual(self.loads(LD_LIBRARY_PATH=folder), older)
        for path in (older, soname):
            os.remove(path)
        self.assertEqual(self.loads(LD_LIBRARY_PATH=folder), "libgoblin_mach.so")
        os.remove(plain)
        self.assertRegex(self.loads(LD_LIBRARY_PATH=folder), "^not: libgoblin_mach.so is not found: .*libgoblin_mach.so.0.3: cannot open")

    def test_passes_over_what_is_no_library(self):
        broken = self.put("top/python/goblin_mach/libgoblin_mach.so")
        with open(broken, "wb") as file:
            file.write(b"no library")
        good = self.put("top/python/goblin_mach/libgoblin_mach.so.0.3")
        self.assertEqual(self.loads(), good)


def open_lines(path):
    with open(path, encoding="utf-8") as file:
        return file.read().splitlines()


def _library_file(line):
    """Returns whether a line of /proc/self/maps is for the loaded library."""
    return os.path.realpath(line.split()[-1]) == os.path.realpath(_library.lib._name) or os.path.basename(line.split()[-1]).startswith("libgoblin_mach")


if __name__ == "__main__":
    unittest.main()
