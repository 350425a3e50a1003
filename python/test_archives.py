"""Tests of archives, fat files of 64 bits and written fat files. The expected values are computed by the rules of the format."""

import itertools
import os
import struct
import sys
import unittest

import goblin_mach
import test_goblin_mach as made
import lines
from goblin_mach import Archive, FatPart, Refused, write_fat

MAGIC = b"!<arch>\n"
X86_64, ARM64 = 0x01000007, 0x0100000C
LONG = b"long_name_of_a_file.o/\n"


def header(name, size, date=b"0", uid=b"0", gid=b"0", mode=b"644"):
    size = size if isinstance(size, bytes) else b"%d" % size
    return name.ljust(16) + date.ljust(12) + uid.ljust(6) + gid.ljust(6) + mode.ljust(8) + size.ljust(10) + b"`\n"


def image(cpu=X86_64, kind=3, names=()):
    data = bytearray(made.with_symbols(*names))
    data[4:12] = struct.pack("<II", cpu, kind)
    return bytes(data)


def indexed():
    """Returns GNU's index of two symbols of one member."""
    return MAGIC + header(b"/", 18) + struct.pack(">3I", 2, 86, 86) + b"_a\0_b\0" + header(b"x.o/", 0)


def symdef(order="<"):
    """Returns BSD's index, with names after the header."""
    table = struct.pack(order + "6I", 16, 0, 112, 3, 112, 8) + b"_a\0_b\0\0\0"
    return MAGIC + header(b"#1/12", 44) + b"__.SYMDEF\0\0\0" + table + header(b"x.o", 2) + b"xy"


# Each archive with its members. A member is its name, the offsets of its header and of its bytes, and how many bytes these are. The number of
# an error may follow the members.
MEMBERS = [
    (MAGIC, []),
    (MAGIC + header(b"a.o/", 1) + b"x\n" + header(b"b.o/", 0), [("a.o", 8, 68, 1), ("b.o", 70, 130, 0)]),
    (MAGIC + header(b"a.o/", 3) + b"xyz", [("a.o", 8, 68, 3)]),
    (MAGIC + header(b"a.o/", 2) + b"xy" + header(b"b.o/", 3) + b"xy", [("a.o", 8, 68, 2), 3]),
    (MAGIC + header(b"a.o/", 0) + header(b"b.o/", 0)[:-1] + b"x" + header(b"c.o/", 0), [("a.o", 8, 68, 0), 1]),
    (MAGIC + header(b"#1/8", 10) + b"a b.o\0\0\0xy", [("a b.o", 8, 76, 2)]),
    (MAGIC + header(b"#1/0", 2) + b"xy", [("", 8, 68, 2)]),
    (MAGIC + header(b"#1/4", 4) + b"a\0b\0", [("a\0b", 8, 72, 0)]),
    (MAGIC + header(b"//", 23) + LONG + b"\n" + header(b"/0", 2) + b"xy" + header(b"/5", 0) + header(b"b.o/", 0),
     [("long_name_of_a_file.o", 92, 152, 2), ("name_of_a_file.o", 154, 214, 0), ("b.o", 214, 274, 0)]),
    (MAGIC + header(b"//", 23) + LONG + b"\n" + header(b"/99", 2) + b"xy" + header(b"b.o/", 0), [(None, 92, 152, 2), ("b.o", 154, 214, 0)]),
    (MAGIC + header(b"/12", 2) + b"xy", [(None, 8, 68, 2)]),
    (MAGIC + header(b"a b/", 0) + header(b"a/b", 0) + header(b"c.o", 0), [("a b", 8, 68, 0), ("a", 68, 128, 0), ("c.o", 128, 188, 0)]),
    (MAGIC + header(b"\xff.o/", 0), [("\udcff.o", 8, 68, 0)]),
    (MAGIC + header(b"/", 18) + struct.pack(">3I", 2, 86, 86) + b"_a\0_b\0" + header(b"//", 23) + LONG + b"\n" + header(b"/0", 0),
     [("long_name_of_a_file.o", 170, 230, 0)]),
    (indexed(), [("x.o", 86, 146, 0)]),
    (symdef(), [("x.o", 112, 172, 2)]),
]

# Each archive with the symbols of its index. A symbol is its name and its member, or the number of the error.
SYMBOLS = [
    (MAGIC, []),
    (MAGIC + header(b"a.o/", 0), []),
    (indexed(), [("_a", 86), ("_b", 86)]),
    (symdef(), [("_a", 112), ("_b", 112)]),
    (symdef(">"), [("_a", 112), ("_b", 112)]),
    (MAGIC + header(b"/SYM64/", 26) + struct.pack(">3Q", 2, 94, 94)[:24] + b"\0\0" + header(b"x.o/", 0), [("", 94), ("", 94)]),
    (MAGIC + header(b"__.SYMDEF", 22) + struct.pack("<2I", 8, 1) + struct.pack("<2I", 90, 6) + b"x_main", [1]),
    (MAGIC + header(b"__.SYMDEF SORTED", 23) + struct.pack("<4I", 8, 1, 90, 7) + b"x_main\0"[:7] + b"\n", [("_main", 90)]),
    (MAGIC + header(b"__.SYMDEF_64", 40) + struct.pack("<4Q", 16, 0, 108, 8) + b"_far\0\0\0\0", [("_far", 108)]),
    (MAGIC + header(b"/", 15) + struct.pack(">3I", 2, 84, 84) + b"_a\0" + b"\n" + header(b"x.o/", 0), [("_a", 84), 1]),
    (MAGIC + header(b"/", 4) + struct.pack(">I", 2), [4]),
    (MAGIC + header(b"/", 2) + b"\0\0", [3]),
]


class Archives(made.Case):
    def test_members(self):
        for data, wanted in MEMBERS:
            with self.subTest(data):
                found = list(Archive(data))
                self.assertEqual([int(goblin_mach.ErrorCode[_code(m.error)]) if m.error else (m.name, m.offset, m.start, len(m.data)) for m in found], wanted)
                for member in found:
                    self.assertEqual(bytes(member.data), data[member.start:member.start + len(member.data)])
                    self.assertEqual((member.name is None, member.label[:3] == "at "), (bool(member.name_error or member.error),) * 2)

    def test_symbols(self):
        for data, wanted in SYMBOLS:
            with self.subTest(data):
                found = list(Archive(data).symbols())
                self.assertEqual([int(goblin_mach.ErrorCode[_code(s.error)]) if s.error else (s.name, s.member) for s in found], wanted)

    def test_numbers(self):
        first, other = Archive(MAGIC + header(b"a.o/", 0, b"1700000000", mode=b"100644") + header(b"b.o/", 0, b"", b"501", b"x", b"8"))
        self.assertEqual((first.date, first.uid, first.gid, first.mode), (1700000000, 0, 0, 0o100644))
        self.assertEqual((other.date, other.uid, other.gid, other.mode), (None, 501, None, None))

    def test_what_is_sought(self):
        archive = Archive(symdef())
        self.assertEqual((archive.kind, archive["x.o"], archive.member(b"x.o"), archive.defining("_b"), len(archive)), ("bsd",) + (archive[0],) * 3 + (1,))
        self.assertEqual((archive.member("y.o"), archive.defining("_c"), archive.defining("_")), (None, None, None))
        with self.assertRaises(KeyError):
            archive["y.o"]
        astray = Archive(MAGIC + header(b"/", 18) + struct.pack(">3I", 2, 86, 87) + b"_a\0_b\0" + header(b"x.o/", 0))
        self.assertEqual(astray.defining("_a").name, "x.o")
        with self.assertRaises(Refused) as met:
            astray.defining("_b")
        self.assertEqual(met.exception.code, 3)
        with self.assertRaises(Refused):
            Archive(MEMBERS[3][0]).member("b.o")  # its header can't be read
        with self.assertRaises(Refused):
            archive.defining(b"\xff")

    def test_what_is_no_archive(self):
        for data, code in ((b"", 3), (b"!<arch>", 3), (b"\x7fELF\0\0\0\0", 2), (b"!<thin>\n", 1), (MAGIC + b"x" * 59, 3), (MAGIC + header(b"a.o/", b"3x"), 1)):
            with self.subTest(data):
                with self.assertRaises(Refused) as met:
                    Archive(data)
                self.assertEqual(met.exception.code, code)

    def test_of_many_members(self):
        data = MAGIC + b"".join(header(b"%d/" % k, 0) for k in range(9000))
        archive = Archive(data)
        self.assertEqual([m.name for m in archive], [str(k) for k in range(9000)])
        self.assertEqual((archive[8999].name, [m.name for m in archive[2998:3001]], archive["8999"].offset), ("8999", ["2998", "2999", "3000"], 8 + 60 * 8999))


def _code(words):
    return next(code.name for code in goblin_mach.ErrorCode if goblin_mach.ERRORS.get(code) == words)


def library():
    """Returns an archive with an image, a text, an image that can't be opened, and another image."""
    members = [(b"a.o/", image(names=[b"_a"])), (b"t.txt/", b"text"), (b"bad.o/", image()[:20]), (b"b.o/", image(names=[b"_b", b"_c"]))]
    return MAGIC + b"".join(header(name, len(data)) + data + b"\n" * (len(data) % 2) for name, data in members)


class AllFour(made.Case):
    def test_images_of_an_archive(self):
        file = self.opened(library())
        labels = [(label, image.error is None) for label, image in file.images()]
        self.assertEqual(labels, [(f"{file.name}(a.o)", True), (f"{file.name}(bad.o)", False), (f"{file.name}(b.o)", True)])
        self.assertEqual(([len(image.symbols()) for image in file if not image.error], len(file), file.kind), ([1, 2], 3, "archive"))
        self.assertEqual((file[0].symbols()[0].name, file[-1].symbols()[1].name, [image.error is None for image in file[:2]]), ("_a", "_c", [True, False]))
        self.assertEqual(file[-1], list(file)[-1])

    def test_images_of_a_cut_archive(self):
        whole = library()
        *_, last = goblin_mach.parse(whole[:-9]).images()
        self.assertEqual((last[0][:4], last[1].error.code), ("(at ", 3))

    def test_fat_files_of_64_bits(self):
        first, second = image(), image(ARM64, 0, [b"_x"])
        data = bytes(write_fat([FatPart.of(first), FatPart.of(library_of(ARM64, 1)), FatPart(ARM64, 0, second, 3)], is_64=True))
        found = [(e.cputype, e.offset % (1 << e.align), e.error) for e in goblin_mach.fat_entries(data)]
        self.assertEqual(found, [(X86_64, 0, None), (ARM64, 0, None), (ARM64, 0, None)])
        file = self.opened(data)
        self.assertEqual((file.kind, len(file), [i.arch for i in file], file.image("arm64").symbols()[0].name), ("fat64", 2, ["x86_64", "arm64"], "_x"))
        self.assertEqual([label for label, _ in goblin_mach.parse(data).images()], ["arch x86_64", "arch unknown(16777228,1)(a.o)", "arch arm64"])
        self.assertEqual([label for label, _ in file.archives()], [f"{file.name}: arch unknown(16777228,1)"])
        self.assertEqual(list(file.container_faults()), [])
        (past,) = goblin_mach.container_faults(data[:-1])
        self.assertEqual((past.rule, past.found, past.limit, past.owner.command), ("slice out of file", len(data), len(data) - 1, 8 + 2 * 32))
        cut = list(self.opened(data[:60], goblin_mach.LOSSY))
        self.assertEqual([image.error is None for image in cut], [False, False])

    def test_labels_of_others(self):
        one = image()
        self.assertEqual([label for label, _ in self.opened(one).images()], [self.room + "/file"])
        data = made.fat(one, b"!<arch>\n" + b"x" * 60)
        self.assertEqual([(label, i.error is None) for label, i in goblin_mach.parse(data).images()], [("arch x86_64", True), ("arch x86_64", False)])

    def test_behind_close(self):
        file = self.opened(library())
        ((_, archive),) = file.archives()
        members = archive.members()
        file.close()
        for call in (lambda: next(members), lambda: archive[0], lambda: archive.member("a.o"), lambda: list(file.images()), lambda: list(file.archives()),
                     lambda: file.kind):
            with self.assertRaises(ValueError):
                call()

    def test_lines(self):
        rows = {"members": "112 172 2 0 0 0 420 0 0 x.o\n", "archive_symbols": "112 0 _a\n112 0 _b\n", "entries": ""}
        lines.main([self.room, self.path(symdef()), *rows])
        for word, wanted in rows.items():
            with open(os.path.join(self.room, word), encoding="utf-8") as written:
                self.assertEqual(written.read(), wanted)


def library_of(cpu, kind):
    data = image(cpu, kind)
    return MAGIC + header(b"a.o/", len(data)) + data


class Writing(made.Case):
    def fat(self, parts, is_64):
        """Returns the fat file of some parts, computed a second time."""
        width, records, out = (32, b"", b"") if is_64 else (20, b"", b"")
        end = 8 + width * len(parts)
        for part in parts:
            place = -(-end // (1 << part.align)) * (1 << part.align)
            out += bytes(place - end) + bytes(part.data)
            end = place + len(part.data)
            records += struct.pack(">2I2Q2I" if is_64 else ">5I", part.cputype, part.cpusubtype, place, len(part.data), part.align, *[0] * is_64)
        return struct.pack(">2I", 0xCAFEBABF if is_64 else 0xCAFEBABE, len(parts)) + records + out

    def test_files(self):
        one, two = FatPart(7, 3, b"abc", 5), FatPart(12, 9, bytearray(b"de"), 0)
        for parts, is_64 in itertools.product(([], [one], [two, one], [one, two, FatPart(18, 0, memoryview(b""), 15)]), (False, True)):
            self.assertEqual(write_fat(parts, is_64), self.fat(parts, is_64))

    def test_refusals(self):
        one = FatPart(7, 3, b"abc", 5)
        for parts in ([one, one._replace(cpusubtype=0x80000003)], [one._replace(align=16)]):
            with self.assertRaises(Refused) as met:
                write_fat(parts)
            self.assertEqual(met.exception.code, goblin_mach.ErrorCode.MALFORMED)
        for wrong in (-1, 1 << 32):
            with self.assertRaises(ValueError):
                write_fat([one._replace(cputype=wrong)])

    def test_what_a_file_becomes(self):
        for data, wanted in ((image(), (X86_64, 3, 12)), (image(ARM64, 0), (ARM64, 0, 14)), (library_of(ARM64, 0), (ARM64, 0, 3)),
                             (library_of(7, 3), (7, 3, 2))):
            part = FatPart.of(data)
            self.assertEqual((part.cputype, part.cpusubtype, part.align), wanted)
        two = MAGIC + header(b"a.o/", 28) + image()[:28] + header(b"b.o/", 28) + image(7)[:28]
        for data, code in ((b"hello", 2), (image()[:24], 3), (MAGIC, 1), (library(), 2), (two, 1)):
            with self.assertRaises(Refused) as met:
                FatPart.of(data)
            self.assertEqual(met.exception.code, code)


def write(folder):
    """Writes each archive of the tables to a folder, and fat files of both widths, for the test in C."""
    os.makedirs(folder)
    parts = [FatPart.of(image()), FatPart.of(library_of(ARM64, 0))]
    files = {f"{number:02}.a": data for number, (data, _) in enumerate([*MEMBERS, *SYMBOLS, (library(), [])])}
    for name, data in {**files, "fat": write_fat(parts), "fat64": write_fat(parts, is_64=True)}.items():
        with open(os.path.join(folder, name), "wb") as file:
            file.write(data)


if __name__ == "__main__":
    if sys.argv[1:2] == ["write"]:
        write(sys.argv[2])
    else:
        unittest.main()
