"""Tests of what single commands say of an image, and of look-ups by names, addresses and offsets. They compare with values of the
repository's images, and with definitions over the package's lists, also on damaged copies."""

import itertools
import json
import random
import struct
import unittest
import uuid

import goblin_mach
import test_goblin_mach as made
import test_values as values
from goblin_mach import Refused
from goblin_mach.enums import LoadCommand

FAR = (0, 1, 0xFFFFFFFF, 1 << 63, (1 << 64) - 1)


def claimed(image):
    """Yields the sections that can be read: the number of each over all segments, from 1, and those of its segment and in it, from
    0."""
    before = 0
    for i, segment in enumerate(image.segments()):
        for k, section in enumerate(image.sections(segment).in_bounds()):
            if not section.error:
                yield before + k + 1, i, k, section
        before += segment.nsects


def numbered(image):
    """Returns those of them whose record is in their segment's command, each with its number over all segments."""
    front, each = (72, 80) if image.is_64 else (56, 68)
    room = [(it.size - front) // each for it in image.commands() if it.load_command in (LoadCommand.SEGMENT, LoadCommand.SEGMENT_64)]
    return ((number, section) for number, i, k, section in claimed(image) if k < room[i])


def section_at(image, address):
    return next(((k, each) for k, each in numbered(image) if each.addr <= address < each.addr + each.size), (None, None))


def symbols_named(image, name):
    return ((k, symbol) for k, symbol in enumerate(image.symbols().in_bounds()) if not symbol.error and symbol.name == name)


def symbol_named(image, name):
    """Returns the index of the first symbol with a name that is no debugging entry, with the symbol, or None."""
    return next(((k, symbol) for k, symbol in symbols_named(image, name) if not symbol.n_type & 0xE0), None)


def symbol_at(image, address):
    """Returns the index of the symbol that names an address, with the symbol, or None."""
    section, _ = section_at(image, address)
    found = [(k, each) for k, each in enumerate(image.symbols().in_bounds())
             if not each.error and each.n_type & 0xEE == 0x0E and each.section == section and each.value <= address]
    return max(found, key=lambda pair: (pair[1].value, pair[0]), default=None)


def function_at(image, address):
    _, held = section_at(image, address)
    starts = [each.address for each in image.function_starts() if not each.error]
    start = max((each for each in starts if held is not None and held.addr <= each <= address), default=None)
    return None if start is None else (start, min([each for each in starts if each > address] + [held.addr + held.size, (1 << 64) - 1]))


def moved(number, first, count, to):
    """Returns where a number among `count` from `first` on is, if these begin at `to`."""
    return number - first + to if 0 <= number - first < count else None


def address_of_offset(image, offset):
    found = (moved(offset, each.fileoff, min(each.filesize, each.vmsize), each.vmaddr) for each in image.segments())
    return next((each if each < 1 << 64 else None for each in found if each is not None), None)


def offset_of_address(image, address):
    found = (moved(address, each.vmaddr, min(each.filesize, each.vmsize), each.fileoff) for each in image.segments())
    return next((each if each < 1 << 64 else None for each in found if each is not None), None)


def is_text(name):
    return not any("\udc80" <= each <= "\udcff" for each in name)


def addresses(image):
    """Returns addresses of interest: where segments, sections, symbols and functions begin and end, and far ones."""
    found = {0, *FAR}
    for each in itertools.islice(image.segments(), 50):
        found.update((each.vmaddr, each.vmaddr + each.vmsize, each.vmaddr + each.filesize))
    for each in itertools.islice(image.sections(), 50):
        found.update((each.addr, each.addr + each.size, each.addr + each.size // 2))
    found.update(each.value for each in itertools.islice(image.symbols().in_bounds(), 50))
    found.update(each.address for each in itertools.islice(image.function_starts(), 50))
    return {(each + more) % (1 << 64) for each in found for more in (-1, 0, 1)}


SAID = ("uuid", "platform", "minos", "sdk", "tools", "source_version", "encryption", "dylinker")


class Said(unittest.TestCase):
    def test_of_each_command(self):
        image = values.image_of(values.COMMANDS)
        self.assertEqual(image.uuid, uuid.UUID("A0A1A2A3-A4A5-A6A7-A8A9-AAABACADAEAF"))
        self.assertEqual((image.platform, image.minos, image.sdk), (goblin_mach.Platform.MACOS, "8.1.3", "9.2.4"))
        self.assertEqual((image.source_version, image.encryption), ("3.21.1023.7.9", goblin_mach.Encryption(332, 333, 334)))
        self.assertEqual((image.dylinker, image.tools), ("load_dylinker-name", []))
        self.assertEqual([(each.text, each.error) for each in image.dyld_environment()], [("dyld_environment-name", None)])
        self.assertEqual(list(image.fileset_entries()), [goblin_mach.FilesetEntry("fileset_entry-entry_id", 4294967687, 4294967688, None)])
        self.assertEqual([(each.platform, each.minos_text, each.sdk_text) for each in image.build_versions()],
                         [(1, "8.1.3", "9.2.4"), (7, "10.3.0", "11.4.1"), (8, "26.5.1", "27.6.2"), (9, "28.0.3", "29.1.4"), (99, "33.5.3", "34.6.4"),
                          (11, "35.0.0", "36.1.1")])
        self.assertEqual([each.load_command.name for each in image.commands() if each.offset in {v.command for v in image.build_versions()}],
                         ["VERSION_MIN_MACOSX", "VERSION_MIN_IPHONEOS", "VERSION_MIN_TVOS", "VERSION_MIN_WATCHOS", "BUILD_VERSION", "BUILD_VERSION"])

    def test_of_a_library(self):
        image = values.image_of(values.SIGNED)
        self.assertEqual((image.platform.name, image.minos, image.sdk, image.uuid, image.source_version), ("MACOS", "11.0.0", "11.0.0", None, None))
        self.assertEqual([(each.build_tool.name, each.version_text) for each in image.tools], [(each.build_tool.name, each.version_text)
                                                                                                for each in image.build_tools()])
        self.assertEqual((image.encryption, image.dylinker, list(image.dyld_environment()), list(image.fileset_entries())), (None, None, [], []))

    def test_of_a_text_that_is_not_there(self):
        linker, variable = made.command(0xE, struct.pack("<I", 40), b"/usr\0"), made.command(0x27, struct.pack("<I", 12), b"A=\xff\0")
        image = goblin_mach.Image(made.image(linker, variable), 0, goblin_mach.LOSSY)
        with self.assertRaises(Refused):
            image.dylinker
        (variable,) = image.dyld_environment()
        self.assertIsNotNone(variable.error)

    def test_the_first_counts(self):
        image = goblin_mach.Image(made.image(made.command(0x1B, bytes(range(16))), made.command(0x1B, bytes(16)),
                                             made.command(0x2A, struct.pack("<Q", 1 << 40)), made.command(0x2A, struct.pack("<Q", 7)),
                                             made.command(0x2C, struct.pack("<4I", 1, 2, 0, 0)), made.command(0x21, struct.pack("<3I", 3, 4, 5))))
        self.assertEqual((image.uuid.bytes, image.source_version), (bytes(range(16)), "1.0.0.0.0"))
        self.assertEqual((image.encryption, image.encryption.is_encrypted), (goblin_mach.Encryption(1, 2, 0), False))


class LookUps(unittest.TestCase):
    def compare(self, image):
        """Compares each look-up of an image with its definition."""
        names = {each.name for each in itertools.islice(image.symbols().in_bounds(), 20) if not each.error}
        for name in names | {"", "_nothing"}:
            found, wanted = image.symbol(name), symbol_named(image, name)
            self.assertEqual(None if found is None else (found.index, found.symbol, found.distance), None if wanted is None else (*wanted, 0), name)
            self.assertEqual([(each.index, each.symbol, each.distance) for each in image.symbols_named(name)],
                             [(*each, 0) for each in symbols_named(image, name)], name)
        for address in addresses(image):
            found, wanted = image.symbol_at(address), symbol_at(image, address)
            self.assertEqual(None if found is None else (found.index, found.symbol, found.distance),
                             None if wanted is None else (*wanted, address - wanted[1].value), hex(address))
            self.assertEqual(image.function_at(address), function_at(image, address), hex(address))
            self.assertEqual(image.offset_of_address(address), offset_of_address(image, address), hex(address))
            self.assertEqual(image.address_of_offset(address), address_of_offset(image, address), hex(address))
        by_map = image.symbol_map()
        self.assertEqual([by_map.at(address) for address in addresses(image)], [image.symbol_at(address) for address in addresses(image)])
        for name in {each.name for each in image.segments()}:
            wanted = next(each for each in image.segments() if each.name == name) if is_text(name) else None
            self.assertEqual(image.segment(name), wanted)
        for names in {(each.segment, each.name) for _, each in itertools.islice(numbered(image), 20)}:
            wanted = next(each for _, each in numbered(image) if (each.segment, each.name) == names) if all(map(is_text, names)) else None
            self.assertEqual(image.section(*names), wanted)
        readable = list(itertools.takewhile(lambda each: not each.error, image.sections()))
        self.assertEqual(readable, [each for *_, each in itertools.islice(claimed(image), len(readable))])

    def test_of_samples(self):
        for path in [*values.SAMPLES, values.COMMANDS]:
            for _, image in goblin_mach.open(path).images():
                if image.error is None:
                    with self.subTest(path, image=image):
                        self.compare(image)

    def test_values(self):
        image = values.image_of(values.SIGNED)
        found = image.symbol("_answer")
        self.assertEqual((found.name, found.value, found.index, found.distance, image.symbol(b"_nothing")), ("_answer", 0x280, 0, 0, None))
        self.assertEqual((image.symbol_at(0x287).name, image.symbol_at(0x287).distance), ("_answer", 7))
        self.assertEqual((image.symbol_at(0x27F), image.symbol_at(0x288)), (None, None))
        self.assertEqual((len(image.symbol_map()), image.symbol_map().at(0x284), image.symbol_map().at(0x288)), (1, image.symbol_at(0x284), None))
        self.assertEqual((image.function_at(0x283), image.function_at(0x283).size), (goblin_mach.Function(0x280, 0x288), 8))
        self.assertEqual((image.address_of_offset(0x4010), image.offset_of_address(0x4010), image.address_of_offset(0x9000)), (0x4010, 0x4010, None))
        self.assertEqual(json.loads(found.json())["symbol"]["name"], "_answer")

    def test_ties_and_kinds(self):
        """Tests that of several symbols of one value the last is found. None is found in another section, and none that is undefined,
        absolute or for a debugger."""
        raw = b"".join(struct.pack("<16s16s2Q8I", name, b"__T", at, 16, 0, 0, 0, 0, 0, 0, 0, 0) for name, at in ((b"a", 0x1000), (b"b", 0x1010)))
        rows = [(0x0E, 1, 0x1000), (0x0F, 1, 0x1004), (0x0F, 1, 0x1004), (0x24, 1, 0x1005), (0x02, 0, 0x1006), (0x0F, 2, 0x1007), (0x1E, 2, 0x1012)]
        texts = b"".join(b"\0_%d" % k for k in range(len(rows))) + b"\0"
        body = b"".join(struct.pack("<IBBHQ", 1 + 3 * k, n_type, section, 0, value) for k, (n_type, section, value) in enumerate(rows))
        front = made.segment(b"__T", raw, 2)
        at = 32 + len(front) + 24
        image = goblin_mach.Image(made.image(front, made.command(2, struct.pack("<4I", at, len(rows), at + len(body), len(texts))), behind=body + texts))
        self.compare(image)
        found = [image.symbol_at(address) for address in (0xFFF, 0x1000, 0x1003, 0x1004, 0x100F, 0x1010, 0x1011, 0x1012, 0x101F, 0x1020)]
        self.assertEqual([None if each is None else each.index for each in found], [None, 0, 0, 2, 2, 5, 5, 6, 6, None])

    def test_of_numbers_that_are_none(self):
        image = values.image_of(values.SIGNED)
        for call in (image.symbol_at, image.function_at, image.address_of_offset, image.offset_of_address):
            for wrong in (-1, 1 << 64):
                with self.assertRaises(ValueError):
                    call(wrong)

    def test_of_numbers_that_are_not_whole(self):
        file = goblin_mach.open(values.SIGNED)
        image = file[0]
        calls = (image.symbol_at, image.symbol_map().at, image.function_at, image.section_at, image.section_of, image.slot_at, image.address_of_offset,
                 image.offset_of_address, image.symbols().__getitem__, file.__getitem__, lambda offset: goblin_mach.Image(image.data, offset),
                 lambda mode: goblin_mach.Image(image.data, 0, mode), goblin_mach.CpuType.of, goblin_mach.HeaderFlags.of)
        for call in calls:
            for wrong in (0.0, 1.5, "1", None):
                if not isinstance(wrong, str) or call != file.__getitem__:
                    with self.assertRaises(TypeError):
                        call(wrong)

    def test_skips_entries_for_a_debugger(self):
        """Tests that a symbol is found by its name though an entry for a debugger has the name too, and comes first."""
        rows, texts = [(0x20, 0, 0), (0x24, 1, 7), (0x0F, 1, 0x1000), (0x01, 0, 0)], b"\0_a\0_b\0"
        body = b"".join(struct.pack("<IBBHQ", 4 if k == 1 else 1, n_type, section, 0, value) for k, (n_type, section, value) in enumerate(rows))
        image = goblin_mach.Image(made.image(made.command(2, struct.pack("<4I", 56, len(rows), 56 + len(body), len(texts))), behind=body + texts))
        self.compare(image)
        self.assertEqual((image.symbol("_a").index, image.symbol("_a").value, image.symbol("_b")), (2, 0x1000, None))
        self.assertEqual([each.index for each in image.symbols_named("_a")], [0, 2, 3])
        self.assertEqual([each.index for each in image.symbols_named(b"_b")], [1])

    def hostile(self):
        """Yields damaged copies of the samples, and images that claim 2^32 - 1 records."""
        for path in values.SAMPLES:
            data = values.open_bytes(path)
            chance = random.Random(len(data))
            for _ in range(12):
                copy = bytearray(data)
                for _ in range(chance.randrange(1, 4)):
                    copy[chance.randrange(min(len(copy), 1200))] = chance.choice((0, 1, 0x7F, 0x80, 0xFF))
                yield bytes(copy)
            yield from (data[:length] for length in range(0, min(len(data), 1200), 97))
        yield made.image(made.segment(b"__A", count=0xFFFFFFFF), made.segment(b"__B"))
        yield made.image(made.command(2, struct.pack("<4I", 32, 0xFFFFFFFF, 32, 0xFFFFFFFF)), made.segment(b"__A", size=(1 << 64) - 1))

    def test_of_hostile_files(self):
        tried = 0
        for data in self.hostile():
            try:
                images = [image for _, image in goblin_mach.parse(data, goblin_mach.LOSSY).images() if image.error is None]
            except Refused:
                continue
            for image in images:
                for name in SAID:
                    try:
                        getattr(image, name)
                    except Refused:
                        self.assertEqual(name, "dylinker")
                for each in (image.build_versions(), image.dyld_environment(), image.fileset_entries(), image.sections()):
                    self.assertLessEqual(len(list(itertools.islice(each, len(data)))), len(data))
                try:
                    self.compare(image)
                except Refused:  # a look-up opens the image again, and says why it can't be read
                    pass
                tried += 1
        self.assertGreater(tried, 100)


class Kinds(unittest.TestCase):
    def test_of_bytes(self):
        for data, wanted in ((made.image(), "image"), (made.fat(made.image()), "fat"), (bytes(goblin_mach.write_fat([], True)), "fat64"),
                             (b"!<arch>\n", "archive"), (b"!<thin>\n", "archive"), (b"\x7fELF", "ELF"), (b"MZ", "PE"),
                             (b"\xca\xfe\xba\xbe\0\0\0\x34", "Java class"), (b"BC\xc0\xde", "bitcode"), (b"", "empty"), (b"hello", "text"),
                             (b"\xff", "unknown")):
            self.assertEqual(goblin_mach.kind_of(data), wanted)

    def test_names_that_are_escaped(self):
        for name, wanted in (("_a", "_a"), ("_\\", "_\\\\"), ("\x1b[2J\n", "\\x1b[2J\\x0a"), ("\udcff", "\\xff"), ("\u202e", "\\xe2\\x80\\xae"),
                             ("\u061c", "\\xd8\\x9c"), ("\xad\u200b", "\\xc2\\xad\\xe2\\x80\\x8b"), ("\U000e0041", "\\xf3\\xa0\\x81\\x81"),
                             (b"\xff\x7f", "\\xff\\x7f"), ("\u20ac", "\u20ac"), ("", "")):
            self.assertEqual(goblin_mach.escaped(name), wanted)


if __name__ == "__main__":
    unittest.main()
