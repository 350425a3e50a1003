#!/usr/bin/env python3
"""c/tables_image.py FOLDER writes two small images that have each list of the C interface. tables.macho has 64 bits and is little-endian, and
tables32.macho has 32 bits and is big-endian. They have initializers, function starts, data in code, linker options, tools, notes, indirect symbols with
stubs and pointers, rebases, weak binds, and what single commands say. No linker writes such an image. The lists are as llvm-objdump prints
them."""
import struct
import sys

TEXT, DATA, LINKEDIT = 0x1000, 0x2000, 0x3000


def padded(body, to):
    return body + bytes(-len(body) % to)


class Image:
    def __init__(self, order, wide):
        self.order, self.wide = order, wide
        self.pointer = 8 if wide else 4
        self.commands = []

    def pack(self, form, *values):
        return struct.pack(self.order + form, *values)

    def address(self, *values):
        return self.pack(f"{len(values)}{'Q' if self.wide else 'I'}", *values)

    def command(self, number, body):
        body = padded(body, self.pointer)
        self.commands.append(self.pack("2I", number, 8 + len(body)) + body)

    def section(self, name, segment, addr, size, offset, flags, reserved1=0, reserved2=0):
        return (self.pack("16s16s", name, segment) + self.address(addr, size)
                + self.pack("7I", offset, 2, 0, 0, flags, reserved1, reserved2) + bytes(4 * self.wide))

    def segment(self, name, addr, vmsize, fileoff, filesize, rights, *sections):
        self.command(0x19 if self.wide else 1, self.pack("16s", name) + self.address(addr, vmsize, fileoff, filesize)
                     + self.pack("4I", rights, rights, len(sections), 0) + b"".join(sections))

    def data(self, number, at, body):
        self.command(number, self.pack("2I", at, len(body)))

    def symbols(self):
        rows, names = b"", b"\0"
        for name, kind, section, desc, value in ((b"_a", 1, 0, 0x100, 0), (b"_b", 1, 0, 0x200, 0), (b"_c", 15, 1, 0, TEXT), (b"_d", 1, 0, 0xFE00, 0),
                                                 (b"_e", 1, 0, 0xFF00, 0), (b"_s", 1, 0, 0, 0), (b"_z", 1, 0, 0x300, 0), (b"_m", 1, 0, 0x300, 16)):
            rows += self.pack("IBBH", len(names), kind, section, desc) + self.address(value)
            names += name + b"\0"
        return rows, names

    def build(self, front):
        """Returns the image, with so many bytes of header and commands. Builds it a second time if they turn out different."""
        p, self.commands = self.pointer, []
        text, data = 0x40, 16 * p
        rows, names = self.symbols()
        entries = self.pack("8I", 0, 1, 3, 0, 0x80000000, 0x40000000, 0xC0000000, 2)
        rebase = bytes([0x11, 0x21, 0, 0x52, 0x41, 0x60, 2, 0x70, p, 0x80, 2, p, 0])
        weak = b"\x48_c\0\x40_a\0\x51\x71" + bytes([p]) + b"\x90\xa0" + bytes([p]) + b"\x41_b\0\x60\x7f\xc0\2\0\0"
        starts, dice = b"\x08\x10\x0c\0", self.pack("IHHIHH", TEXT & 0xFFF, 8, 1, 0x20, 4, 4)
        parts = [bytes(range(text)), self.address(*(TEXT + 8 * k for k in range(16))), rows, entries, names, rebase, weak, starts, dice, b"note"]
        places, at = [], front
        for part in parts:
            places.append(at)
            at = len(padded(bytes(at + len(part)), 8))
        text_at, data_at, rows_at, entries_at, names_at, rebase_at, weak_at, starts_at, dice_at, note_at = places
        self.segment(b"__TEXT", TEXT, 0x1000, 0, text_at + text, 5,
                     self.section(b"__text", b"__TEXT", TEXT, 0x20, text_at, 0x80000400),
                     self.section(b"__stubs", b"__TEXT", TEXT + 0x20, 20, text_at + 0x20, 0x80000408, 0, 6))
        self.segment(b"__DATA", DATA, 0x1000, data_at, data, 3,
                     self.section(b"__mod_init_func", b"__DATA", DATA, 8 * p, data_at, 9),
                     self.section(b"__la_symbol_ptr", b"__DATA", DATA + 8 * p, 2 * p, data_at + 8 * p, 7, 3),
                     self.section(b"__got", b"__DATA", DATA + 10 * p, 2 * p, data_at + 10 * p, 6, 5),
                     self.section(b"__thread_ptrs", b"__DATA", DATA + 12 * p, p, data_at + 12 * p, 0x14, 7),
                     self.section(b"__past", b"__DATA", DATA + 13 * p, 2 * p, data_at + 13 * p, 6, 7),
                     self.section(b"__bss", b"__DATA", DATA + data, 64, 0, 1))
        self.segment(b"__LINKEDIT", LINKEDIT, 0x1000, rows_at, at - rows_at, 1)
        self.command(0xC, self.pack("4I", 24, 2, 0x10000, 0x10000) + b"/l\0")
        self.command(0x18 | 0x80000000, self.pack("4I", 24, 2, 0x10000, 0x10000) + b"/m\0")
        self.command(2, self.pack("4I", rows_at, 8, names_at, len(names)))
        self.command(0xB, self.pack("18I", 0, 0, 0, 0, 0, 0, 0, 0, 0, 0, 0, 0, entries_at, 8, 0, 0, 0, 0))
        self.command(0x80000022, self.pack("10I", rebase_at, len(rebase), 0, 0, weak_at, len(weak), 0, 0, 0, 0))
        self.data(0x26, starts_at, starts)
        self.data(0x29, dice_at, dice)
        self.command(0x2D, self.pack("I", 2) + b"-framework\0Cocoa\0")
        self.command(0x2D, self.pack("I", 1) + b"-lc\0")
        self.command(0x32, self.pack("8I", 1, 0xD0000, 0xE0000, 2, 3, 0x4500000, 1, 0x120000))
        self.command(0x1B, bytes(range(16)))
        self.command(0x1B, bytes(16))
        self.command(0x25, self.pack("2I", 0xA0203, 0xB0000))
        self.command(0x2A, self.pack("Q", 0x123456789ABCDEF))
        self.command(0x2C if self.wide else 0x21, self.pack("3I", text_at, 8, 0) + bytes(4 * self.wide))
        self.command(0xE, self.pack("I", 12) + b"/usr/lib/dyld\0")
        self.command(0x27, self.pack("I", 12) + b"DYLD_A=b\0")
        self.command(0x27, self.pack("I", 2 ** 31))
        self.command(0x80000035, self.pack("2Q2I", 2 ** 40, text_at, 32, 0) + b"com.a\0")
        self.command(0x31, self.pack("16s2Q", b"owner", note_at, 4))
        self.command(0x31, self.pack("16s2Q", b"sixteen bytes, 16", 2 ** 64 - 1, 0))
        self.command(0x31, self.pack("16s2Q", b"behind", note_at, 2 ** 32))
        commands = b"".join(self.commands)
        magic = 0xFEEDFACF if self.wide else 0xFEEDFACE
        cpu = 0x01000007 if self.wide else 18
        image = self.pack("7I", magic, cpu, 3 * self.wide, 2, len(self.commands), len(commands), 0x85) + bytes(4 * self.wide) + commands
        if len(image) != front:
            return self.build(len(image))
        for place, part in zip(places, parts):
            image = image.ljust(place, b"\0") + part
        return image.ljust(at, b"\0")


for name, order, wide in ((f"{sys.argv[1]}/tables.macho", "<", True), (f"{sys.argv[1]}/tables32.macho", ">", False)):
    with open(name, "wb") as file:
        file.write(Image(order, wide).build(0))
