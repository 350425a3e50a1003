"""Tests of the Python package for what no other program's lines show: `python3 python/test_goblin_mach.py`, with the library in
GOBLIN_MACH. `c/check` runs it."""

import copy
import itertools
import os
import pickle
import signal
import struct
import subprocess
import sys
import tempfile
import unittest

import goblin_mach
from goblin_mach import Refused

HERE = os.path.dirname(os.path.dirname(os.path.abspath(goblin_mach.__file__)))
CPU, DYLIB = 0x01000007, 6
NOT_UTF8 = "_b\udcff"  # the bytes of a name as str has them
SECONDS = 60


def command(number, *parts):
    body = b"".join(parts)
    body += bytes(-len(body) % 8)
    return struct.pack("<II", number, 8 + len(body)) + body


def segment(name, sections=b"", count=0, size=0x1000):
    return command(0x19, struct.pack("<16s4Q4I", name, 0x1000, size, 0, 0, 7, 3, count, 0), sections)


def image(*commands, filetype=DYLIB, behind=b""):
    """Returns the bytes of an image of 64 bits with these commands, and some bytes after them."""
    body = b"".join(commands)
    return struct.pack("<8I", 0xFEEDFACF, CPU, 3, filetype, len(commands), len(body), 0, 0) + body + behind


def with_symbols(*names):
    """Returns an image with a symbol for each name. Number k has the value k."""
    texts, rows = b"\0", b""
    for k, name in enumerate(names):
        rows += struct.pack("<IBBHQ", len(texts), 0xF, 0, 0, k)
        texts += name + b"\0"
    at = 32 + 24
    return image(command(2, struct.pack("<4I", at, len(names), at + len(rows), len(texts))), behind=rows + texts)


def with_binds(opcodes):
    """Returns an image with a library, a segment of 2^62 bytes of memory and these bind opcodes, but no bytes of the segment."""
    library = command(0xC, struct.pack("<4I", 24, 0, 0, 0), b"/l\0")
    given = segment(b"__DATA", size=1 << 62)
    at = 32 + len(library) + len(given) + 48
    return image(library, given, command(0x22, struct.pack("<10I", 0, 0, at, len(opcodes), 0, 0, 0, 0, 0, 0)), behind=opcodes)


def with_exports():
    """Returns an image that exports _a at 0x10 and _b at 0x11."""
    trie = b"\0\2_a\0\x0a_b\0\x0e" + b"\2\0\x10\0" + b"\2\0\x11\0"
    return image(command(0x22, struct.pack("<10I", *8 * [0], 32 + 48, len(trie))), behind=trie)


def with_shared_node():
    """Returns an image whose trie has two branches to one node, which exports 7."""
    trie = b"\0\2a\0\x08b\0\x08" + b"\2\0\7\0"
    return image(command(0x22, struct.pack("<10I", *8 * [0], 32 + 48, len(trie))), behind=trie)


def many_binds():
    """Returns an image whose binds take longer than a lifetime: one instruction claims 2^55 of them. The program prints at least
    2^17."""
    count = bytes([0x80] * 7 + [0x40])  # 2^55, as ULEB128
    return with_binds(b"\x11\x40_far\0\x51\x70\0" + b"\xc0" + count + b"\0" + bytes(1 << 17))


def fat(*entries, count=None):
    """Returns the bytes of a fat file with these entries, whose header claims so many records."""
    at, records, bodies = 8 + 20 * len(entries), b"", b""
    for entry in entries:
        records += struct.pack(">5I", CPU, 3, at + len(bodies), len(entry), 0)
        bodies += entry
    return struct.pack(">2I", 0xCAFEBABE, len(entries) if count is None else count) + records + bodies


class Case(unittest.TestCase):
    def setUp(self):
        room = tempfile.TemporaryDirectory()
        self.addCleanup(room.cleanup)
        self.room = room.name

    def path(self, data, name="file"):
        path = os.path.join(self.room, name)
        with open(path, "wb") as file:
            file.write(data)
        return path

    def opened(self, data, mode=goblin_mach.STRICT):
        file = goblin_mach.open(self.path(data), mode)
        self.addCleanup(file.close)
        return file


class Errors(Case):
    def refused(self):
        with self.assertRaises(Refused) as met:
            goblin_mach.Image(b"\xfe\xed\xfa\xce no image of any kind, but bytes enough for it")
        return met.exception

    def test_says_what_is_wrong(self):
        with self.assertRaises(Refused) as met:
            goblin_mach.Image(bytes(64))
        self.assertEqual(met.exception.code, 2)
        self.assertEqual(str(met.exception), met.exception.words)
        self.assertNotEqual(met.exception.words, "")
        with self.assertRaises(Refused) as met:
            goblin_mach.Image(b"")
        self.assertEqual(met.exception.code, 3)

    def test_is_copied_and_pickled(self):
        error = self.refused()
        copies = [pickle.loads(pickle.dumps(error, protocol)) for protocol in range(pickle.HIGHEST_PROTOCOL + 1)]
        for other in [*copies, copy.copy(error), copy.deepcopy(error)]:
            self.assertIsNot(other, error)
            self.assertIs(type(other), Refused)
            self.assertEqual((other.code, other.words, str(other), other.args), (error.code, error.words, str(error), error.args))

    def test_of_an_entry_is_the_same_each_time(self):
        (bad,) = self.opened(fat(bytes(64)))
        for again in range(3):
            with self.assertRaises(Refused) as met:
                list(bad.symbols())
            self.assertEqual(met.exception.args, bad.error.args, again)
        self.assertIsNone(bad.error.__traceback__)

    def test_of_a_mode_that_is_none(self):
        with self.assertRaises(Refused) as met:
            goblin_mach.Image(image(), 0, 7)
        self.assertEqual(met.exception.code, 1)


class Names(Case):
    def test_of_segments_and_sections(self):
        sections = struct.pack("<16s16s2Q8I", b"a\xff\0behind", b"__\xff\xfe", 0x1000, 4, 0, 0, 0, 0, 1, 0, 0, 0)
        one = goblin_mach.Image(image(segment(b"__\xff\xfe\0behind", sections, 1), segment(b"sixteen_bytes_\xff\xff")))
        first, second = one.segments()
        self.assertEqual((first.name, second.name), ("__\udcff\udcfe", "sixteen_bytes_\udcff\udcff"))
        (section,) = one.sections(first)
        self.assertEqual((section.name, section.segment, section.error), ("a\udcff", "__\udcff\udcfe", None))

    def test_of_symbols_that_are_no_text(self):
        good, bad, last = goblin_mach.Image(with_symbols(b"_a", b"_b\xff", b"\xc3\xa9")).symbols()
        self.assertEqual((good.name, good.value, good.n_type, good.error), ("_a", 0, 0xF, None))
        self.assertEqual((bad.name, bad.value, bad.n_type, bad.error), (NOT_UTF8, 1, 0xF, goblin_mach.ERRORS[3]))
        self.assertEqual((last.name, last.value, last.n_type, last.error), ("\xe9", 2, 0xF, None))

    def test_of_symbols_that_are_not_in_the_bytes(self):
        data = bytearray(with_symbols(b"_a", b"_b"))
        at = 32 + 24
        data[at:at + 4] = struct.pack("<I", len(data))
        past, good = goblin_mach.Image(data).symbols()
        self.assertEqual((past.name, past.value, past.n_type, past.error), ("", 0, 0xF, goblin_mach.ERRORS[3]))
        self.assertEqual((good.name, good.value, good.n_type, good.error), ("_b", 1, 0xF, None))

    def test_of_a_node_that_is_shared(self):
        one = goblin_mach.Image(with_shared_node())
        self.assertEqual([(e.name, e.address) for e in one.exports()], [("a", 7), ("b", 7)])
        self.assertFalse(one.exports_are_a_tree())
        self.assertTrue(goblin_mach.Image(with_exports()).exports_are_a_tree())

    def test_that_are_sought_and_no_text(self):
        one = goblin_mach.Image(with_exports())
        self.assertEqual([(e.name, e.kind, e.address) for e in one.exports()], [("_a", "address", 0x10), ("_b", "address", 0x11)])
        self.assertEqual(one.find_export("_b").address, 0x11)
        self.assertIsNone(one.find_export("_"))
        with self.assertRaises(Refused) as met:
            one.find_export(NOT_UTF8)
        self.assertEqual(met.exception.code, 1)

    def test_are_printed_so_that_they_forge_nothing(self):
        path = self.path(with_symbols("_\u20ac".encode(), b"_\x1b[2J\n", b"_a\\b", "_\u202e".encode(), b"_\xff"))
        for locale in ("C", "C.UTF-8"):
            for encoding in ("latin-1", "ascii", "utf-8"):
                ran = run(["symbols", path], LC_ALL=locale, PYTHONIOENCODING=encoding)
                self.assertEqual((ran.returncode, ran.stderr), (0, b""))
                names = [line.split()[4] for line in ran.stdout.splitlines()[2:]]
                self.assertEqual(names, ["_\u20ac".encode(), rb"_\x1b[2J\x0a", rb"_a\\b", rb"_\xe2\x80\xae", rb"_\xff"])


class Closed(Case):
    def several(self):
        return self.opened(fat(with_symbols(b"_a", b"_b"), image(segment(b"__DATA"), segment(b"__MORE")), with_exports()))

    def refuses(self, call):
        with self.assertRaises(ValueError) as met:
            call()
        self.assertEqual(str(met.exception), "the file is closed")

    def test_each_call_is_a_value_error(self):
        file = self.opened(with_binds(b"\x11\x40_a\0\x51\x70\0\x90\0"))
        (one,) = file
        (part,) = one.segments()
        section = goblin_mach.Section("", "", 0, 0, 0, 0, 0, 1, 0, memoryview(b""), None)
        calls = {
            "commands": one.commands, "segments": one.segments, "symbols": one.symbols, "libraries": one.libraries, "fixups": one.fixups,
            "imports": one.imports, "bindings": one.bindings, "opcode_imports": one.opcode_imports, "segment": lambda: [one.segment("__DATA")],
            "section": lambda: [one.section("__DATA", "")], "exports": one.exports, "run_paths": one.run_paths, "ids": one.ids,
            "layout_faults": one.layout_faults, "symbols_named": lambda: one.symbols_named("_a"), "find_export": lambda: [one.find_export("_a")],
            "exports_are_a_tree": lambda: [one.exports_are_a_tree()], "name": lambda: [one.name],
            "sections": one.sections, "relocations": lambda: one.relocations(section), "data": lambda: [one.data],
            "weak_binds": one.weak_binds, "rebases": one.rebases, "function_starts": one.function_starts,
            "data_in_code": one.data_in_code, "indirect_symbols": one.indirect_symbols,
            "linker_options": one.linker_options, "build_tools": one.build_tools, "notes": one.notes, "symbol_slots": one.symbol_slots,
            "section_data": lambda: [one.section_data(section)], "strings": lambda: one.strings(section), "initializers": one.initializers,
            "slot_at": lambda: [one.slot_at(0)], "section_at": lambda: [one.section_at(0)], "section_of": lambda: [one.section_of(0)],
            **{name: lambda name=name: [getattr(one, name)]
               for name in ("uuid", "platform", "minos", "sdk", "tools", "source_version", "encryption", "dylinker")},
            "build_versions": one.build_versions, "dyld_environment": one.dyld_environment, "fileset_entries": one.fileset_entries,
            "symbol": lambda: [one.symbol("_a")], "symbol_at": lambda: [one.symbol_at(0)], "function_at": lambda: [one.function_at(0)],
            "symbol_map": lambda: [one.symbol_map()],
            "address_of_offset": lambda: [one.address_of_offset(0)], "offset_of_address": lambda: [one.offset_of_address(0)],
            "signature": lambda: [one.signature], "signature_faults": one.signature_faults, "security": one.security,
            "symbol_provider": lambda: [one.symbol_provider(goblin_mach.Symbol("_a", 0, 0, 1, 0, None))],
        }
        numbers = {"error", "arch", "cpu_type", "cpu_subtype", "file_type", "header_flags", "to_dict", "json"}
        public = {name for name in dir(goblin_mach.Image) if name[0] != "_"} - numbers
        self.assertEqual(public, set(calls))
        for call in calls.values():
            list(call())
        file.close()
        file.close()
        for name, call in {**calls, "images": lambda: file, "table": file.container_faults}.items():
            with self.subTest(name):
                self.refuses(lambda call=call: list(call()))
        self.refuses(file.__enter__)
        self.assertEqual((part.name, part.vmsize, one.filetype), ("__DATA", 1 << 62, DYLIB))

    def test_lists_that_were_begun_end(self):
        file = self.several()
        images = iter(file)
        first, second, third = next(images), next(images), next(images)
        begun = [first.symbols(), second.segments(), second.commands(), second.layout_faults(), third.exports(), iter(file)]
        for each in begun:
            next(each)
        file.close()
        for number, each in enumerate([*begun, images]):
            with self.subTest(number):
                self.refuses(lambda each=each: next(each))

    def test_a_list_that_is_at_its_last_item_ends_too(self):
        for data in (image(segment(b"__DATA")), fat(image(segment(b"__DATA")))):
            file = self.opened(data)
            images = iter(file)
            parts = next(images).segments()
            next(parts)
            file.close()
            self.refuses(lambda: next(parts))
            self.refuses(lambda: next(images))

    def test_behind_a_with(self):
        with goblin_mach.open(self.path(image(segment(b"__DATA")))) as file:
            (one,) = file
            self.assertEqual(len(list(one.segments())), 1)
        self.refuses(lambda: list(one.segments()))

    def test_bytes_have_no_file(self):
        one = goblin_mach.Image(with_symbols(b"_a"))
        self.assertEqual([s.name for s in one.symbols()], ["_a"])


class Fat(Case):
    def test_a_bad_entry_and_the_next(self):
        good = with_symbols(b"_a")
        images = list(self.opened(fat(good, bytes(64), good[:20], with_symbols(b"_b"))))
        self.assertEqual([None if i.error is None else i.error.code for i in images], [None, 2, 1, None])
        self.assertEqual([[s.name for s in i.symbols()] for i in images if i.error is None], [["_a"], ["_b"]])
        for bad in images[1:3]:
            self.assertNotEqual(str(bad.error), "")
            self.assertEqual((bad.offset, bad.entry, bad.filetype, bad.is_64), (0, 0, 0, False))
            with self.assertRaises(Refused):
                next(bad.segments())

    def test_a_cut_table(self):
        data = fat(count=3) + struct.pack(">5I", CPU, 3, 8, 0, 0) + bytes(19)
        first, cut = goblin_mach.fat_entries(data)
        self.assertEqual((first.error, cut.error), (None, "the file ends in the record of entry 1"))
        images = list(self.opened(data))
        self.assertEqual([(i.error.code, i.error.words == cut.error) for i in images], [(3, False), (3, True)])
        (fault,) = (f for f in goblin_mach.container_faults(data) if f.rule == "records out of file")
        self.assertEqual((fault.found, fault.limit), (8 + 3 * 20, len(data)))

    def test_an_entry_past_the_end_has_no_bytes(self):
        data = fat(with_symbols(b"_a"))
        (past,) = self.opened(data[:-1])
        self.assertEqual(past.error.code, 3)
        (whole,) = self.opened(data)
        self.assertIsNone(whole.error)

    def test_archives_are_left_out(self):
        archive = b"!<arch>\n" + bytes(8)
        images = list(self.opened(fat(archive, with_symbols(b"_a"), archive)))
        self.assertEqual([[s.name for s in i.symbols()] for i in images], [["_a"]])

    def test_no_entries(self):
        self.assertEqual(list(self.opened(fat())), [])

    def test_what_is_no_fat_file(self):
        for data in (b"", b"\xca\xfe\xba\xbe", bytes(64)):
            with self.assertRaises(Refused):
                list(self.opened(data))
            self.assertEqual(list(goblin_mach.fat_entries(data)), [])

    def test_each_entry_is_printed(self):
        ran = run(["symbols", self.path(fat(with_symbols(b"_a"), bytes(64), with_symbols(b"_b")))])
        self.assertEqual([line.split()[-1] for line in ran.stdout.splitlines() if b"SECT" in line], [b"_a", b"_b"])
        self.assertEqual((ran.returncode, ran.stderr.count(b"\n"), ran.stderr[:13]), (1, 1, b"goblin-mach: "))


def words_of(words):
    return [sys.executable, "-m", "goblin_mach", *words]


def surroundings(**more):
    return {**os.environ, "PYTHONPATH": HERE, "PYTHONDONTWRITEBYTECODE": "1", **more}


def run(words, stdout=subprocess.PIPE, **more):
    """Runs the program."""
    return subprocess.run(words_of(words), stdin=subprocess.DEVNULL, stdout=stdout, stderr=subprocess.PIPE, env=surroundings(**more),
                          timeout=SECONDS, check=False)


def answers_ctrl_c():
    """Sets Ctrl-C as for programs on a terminal, even if the tests run in the background."""
    signal.signal(signal.SIGINT, signal.default_int_handler)


def ignores_ctrl_c():
    signal.signal(signal.SIGINT, signal.SIG_IGN)


class Program(Case):
    def begun(self, words, before, lines=3):
        """Returns a program that writes without end, once it has written its first items, and the last of these lines."""
        program = subprocess.Popen(words, stdin=subprocess.DEVNULL, stdout=subprocess.PIPE, stderr=subprocess.PIPE, env=surroundings(),
                                   preexec_fn=before)
        self.addCleanup(lambda: [program.kill(), program.wait(), program.stdout.close(), program.stderr.close()])
        return program, [program.stdout.readline() for _ in range(lines)][-1]

    def test_a_closed_pipe_ends_it_quietly(self):
        program, line = self.begun(words_of(["imports", self.path(many_binds())]), answers_ctrl_c)
        self.assertIn(b"_far", line)
        program.stdout.close()
        self.assertEqual(program.wait(SECONDS), -signal.SIGPIPE)
        self.assertEqual(program.stderr.read(), b"")

    def test_ctrl_c_ends_it_quietly(self):
        program, line = self.begun(words_of(["imports", self.path(many_binds())]), answers_ctrl_c)
        self.assertIn(b"_far", line)
        program.send_signal(signal.SIGINT)
        self.assertEqual(program.wait(SECONDS), -signal.SIGINT)
        self.assertEqual(program.stderr.read(), b"")

    def test_ctrl_c_that_is_ignored_stays_so(self):
        program, line = self.begun(words_of(["imports", self.path(many_binds())]), ignores_ctrl_c)
        program.send_signal(signal.SIGINT)
        more = [each.split()[1:] for each in itertools.islice(program.stdout, 20000)]  # far more than a pipe holds
        self.assertEqual(more, 20000 * [line.split()[1:]])

    def test_ctrl_c_ends_a_list(self):
        code = ("import goblin_mach, sys\ntry:\n    for image in goblin_mach.open(sys.argv[1]):\n        print('begun', flush=True)\n"
                "        for b in image.bindings(): pass\nexcept KeyboardInterrupt:\n    print('ended', flush=True)")
        program, line = self.begun([sys.executable, "-c", code, self.path(many_binds())], answers_ctrl_c, 1)
        self.assertEqual(line, b"begun\n")
        program.send_signal(signal.SIGINT)
        said = program.communicate(timeout=SECONDS)
        self.assertEqual((said, program.returncode), ((b"ended\n", b""), 0))

    def test_a_failed_write(self):
        with open("/dev/full", "wb") as full:
            ran = run(["symbols", self.path(with_symbols(b"_a"))], stdout=full)
        self.assertEqual((ran.returncode, ran.stderr[:13], ran.stderr.count(b"\n")), (2, b"goblin-mach: ", 1))

    def test_what_it_can_not_read(self):
        for words in (["symbols"], ["nothing", "file"], [], ["--jsn", "symbols", "file"]):
            ran = run(words)
            self.assertEqual((ran.returncode, ran.stdout, ran.stderr[:19]), (2, b"", b"usage: goblin-mach "), words)
        for path in (self.room + "/none", self.room, "/dev/null"):
            ran = run(["symbols", path, self.path(with_symbols(b"_a"))])
            self.assertEqual((ran.returncode, ran.stdout.split()[-1], ran.stderr.count(b"\n")), (2, b"_a", 1), path)

    def test_what_is_refused(self):
        for data in (b"", bytes(64), fat(bytes(64))):
            ran = run(["symbols", self.path(data)])
            self.assertEqual((ran.returncode, ran.stdout, ran.stderr.count(b"\n")), (1, b"", 1))

    def test_what_is_past_the_end(self):
        data = bytearray(with_symbols(b"_a", b"_b"))
        data[44:48] = struct.pack("<I", (1 << 32) - 1)
        ran = run(["symbols", self.path(data)])
        there = len(range(56, len(data), 16))
        self.assertEqual((ran.returncode, ran.stdout.count(b"\n")), (1, 2 + there))
        self.assertEqual(ran.stderr, b"goblin-mach: %s/file: %d more symbols past the end\n" % (self.room.encode(), (1 << 32) - 1 - there))

    def test_more_items_than_bytes(self):
        data = many_binds()
        ran = run(["imports", self.path(data)])
        self.assertEqual((ran.returncode, ran.stdout.count(b"\n"), ran.stderr.count(b"\n")), (1, 2 + len(data), 1))

    def test_a_list_that_is_refused(self):
        chains = command(0x80000034, struct.pack("<2I", 0x10000, 8))
        ran = run(["symbols", self.path(image(chains))])
        self.assertEqual((ran.returncode, ran.stdout.count(b"\n"), ran.stderr), (0, 1, b""))
        first = next(goblin_mach.Image(image(chains)).fixups())
        self.assertIsNotNone(first.error)


if __name__ == "__main__":
    unittest.main()
