#!/usr/bin/env python3
"""Makes Mach-O files whose reading may cost more than their size, and an ordinary one. Each has exactly as many bytes as requested.

    shapes.py SHAPE SIZE > FILE
    shapes.py --all FOLDER SIZE..    writes FOLDER/SHAPE.SIZE of each shape and each size
    shapes.py --names                prints the names of the shapes

A size is 4,000 to 100,000,000 bytes. From 4,000 bytes on each shape has its property:

    plain            an ordinary image: libraries, relocations, fixups, binds, a trie, symbols
    trie_shared      nodes of a trie that share one list of branches that lead nowhere
    trie_overlaid    the same with lists that each begin a branch after the one before, and end together
    trie_deep        nodes of one child each: a name as long as an eighth of the file
    reexports_far    re-exports with a branch to nothing; all names and labels end together, far off
    symbol_names     symbols that all have one name, half of the file
    symbol_tails     symbols whose names begin a letter after each other in one such text
    import_names     binds of chains to one import, whose name is half of the file
    commands_again   a library's command of size 0, read again for each of many; its name is the rest
    libraries_far    libraries whose names begin a letter after each other and end with the file
    libraries        libraries of one name, and binds that name each in its turn
    segments         segments that overlap in the file and in memory, and binds within one of them
    tables           symbol tables that have the same rows
    sections         sections that have one table of relocations
    fat_overlaid     a fat file whose entries all overlap
    binds_again      bind instructions that each bind 2^60 times
    page_starts      pages whose chains begin at the starts of one list
"""
import os
import struct
import sys

LEAST, MOST = 4000, 100_000_000
NOWHERE = 0x0FFFFFFF  # where a branch of a trie leads if it leads nowhere


class Maker:
    """Bytes, each written after the others."""

    def __init__(self):
        self.bytes = bytearray()

    def words(self, *values):
        self.bytes += struct.pack(f"<{len(values)}I", *values)

    def big_words(self, *values):
        self.bytes += struct.pack(f">{len(values)}I", *values)

    def halves(self, *values):
        self.bytes += struct.pack(f"<{len(values)}H", *values)

    def text(self, text):
        self.bytes += text

    def number(self, value):
        """Writes the lower 28 bits of a number as LEB128, in four bytes."""
        self.bytes += bytes([value & 0x7F | 0x80, value >> 7 & 0x7F | 0x80, value >> 14 & 0x7F | 0x80, value >> 21 & 0x7F])

    def letters(self, value):
        """Writes a number as seven letters of four bits each, the lowest first."""
        self.bytes += bytes(ord("a") + (value >> 4 * place) % 16 for place in range(7))

    def header(self, commands, length):
        """Writes the header of a library of 64 bits."""
        self.words(0xFEEDFACF, 0x01000007, 3, 6, commands, length, 0, 0)

    def segment(self, name, address, size, at, length, sections=0):
        """Writes LC_SEGMENT_64, whose sections follow."""
        self.words(0x19, 72 + 80 * sections)
        self.text(name.ljust(16, b"\0"))
        self.words(address, 0, size, 0, at, 0, length, 0, 7, 3, sections, 0)

    def section(self, relocations_at, relocations):
        """Writes a section of no bytes, with its table of relocations."""
        self.text(b"__section".ljust(16, b"\0") + b"__DATA".ljust(16, b"\0"))
        self.words(0, 0, 0, 0, 0, 0, relocations_at, relocations, 0, 0, 0, 0)

    def library(self):
        """Writes LC_LOAD_DYLIB, in 32 bytes."""
        self.words(0xC, 32, 24, 2, 0x10000, 0x10000)
        self.text(b"/l".ljust(8, b"\0"))

    def info(self, binds, binds_length, trie=0, trie_length=0):
        """Writes LC_DYLD_INFO_ONLY of binds, and of a trie."""
        self.words(0x80000022, 48, 0, 0, binds, binds_length, 0, 0, 0, 0, trie, trie_length)

    def symbol_table(self, at, symbols, names_at, names_length):
        self.words(2, 24, at, symbols, names_at, names_length)

    def begin_binds(self, segment):
        """Writes what binds begin with: a library, a type, a name and a segment. With the byte that ends the binds these are nine bytes."""
        self.text(b"\x11\x51\x40_a\0" + bytes([0x70 | segment, 0]))

    def pointer(self, value, is_bind, has_next):
        """Writes a pointer of a chain. The next one is eight bytes after it."""
        self.words(value, is_bind << 31 | has_next << 20)


# ---- chained fixups


class Chained:
    """Chained fixups over a segment of data. It has so many bytes, starts and pages, and so many imports, whose names have so many bytes."""

    def __init__(self, data, starts, pages, imports, names):
        self.data, self.starts, self.pages, self.imports = data, starts, pages, imports
        self.length = 62 + 2 * starts + 4 * imports + names

    def commands(self, made):
        """Writes the header and the commands of an image that has no other parts, in 224 bytes."""
        made.header(4, 192)
        made.segment(b"__TEXT", 0, 0x1000, 0, 224)
        made.segment(b"__DATA", 0x1000, self.data, 224, self.data)
        made.library()
        made.words(0x80000034, 16, 224 + self.data, self.length)

    def begin(self, made):
        """Writes what precedes the starts. The second of two segments has them, at 0x1000."""
        imports_at = 62 + 2 * self.starts
        made.words(0, 28, imports_at, imports_at + 4 * self.imports, self.imports, 1, 0)
        made.words(2, 0, 12)
        made.words(22 + 2 * self.starts, 0x00061000, 0x1000, 0, 0)
        made.halves(self.pages)


def has_next(index, pointers):
    return index % 512 != 511 and index + 1 != pointers


def import_names(made, size):
    pointers = size // 16
    pages = -(-pointers // 512)
    letters = size // 2 - (size // 4096 + 400)
    chained = Chained(8 * pointers, pages, pages, 1, letters + 1)
    chained.commands(made)
    for index in range(pointers):
        made.pointer(0, True, has_next(index, pointers))
    chained.begin(made)
    made.text(bytes(2 * pages))
    made.words(1)
    made.text(b"a" * letters + b"\0")


def page_starts(made, size):
    pages = min((size - (size // 1024 + 1100)) // 4096, 0x7000) + 1
    chained = Chained(4096 * (pages - 1) + 512, pages + 64, pages, 0, 0)
    chained.commands(made)
    made.text(bytes(chained.data))
    chained.begin(made)
    made.halves(*[0x8000 + pages] * pages)
    made.halves(*(8 * start for start in range(63)))
    made.halves(0x8000 + 504)


# ---- commands


def commands_again(made, size):
    made.header((size - 56) // 8, size - 56)
    made.words(0xC, 0, 24, 0, 0, 0)
    made.text(b"a" * (size - 56))


def fat_overlaid(made, size):
    entries = size // 40
    at = 8 + 20 * entries
    made.big_words(0xCAFEBABE, entries)
    for _ in range(entries):
        made.big_words(7, 3, at, size - at, 0)
    made.words(0xFEEDFACE, 7, 3, 6, 0, 0, 0)


def sections(made, size):
    count, rows = size // 160, (size // 2 - 104) // 8
    made.header(1, 72 + 80 * count)
    made.segment(b"__DATA", 0, 0x1000, 0, 0, count)
    for _ in range(count):
        made.section(104 + 80 * count, rows)
    for row in range(rows):
        made.words(row, 0)


def segments(made, size):
    count, binds = size // 144, size // 2 - 200
    made.header(count + 2, 72 * count + 80)
    for _ in range(count):
        made.segment(b"__OVER", 0, 4 * size, 0, size)
    made.library()
    made.info(112 + 72 * count, binds + 9)
    made.begin_binds(0)
    made.text(b"\x90" * binds + b"\0")


def one_segment(made, libraries, binds_length, size):
    """Writes a header, a segment of so many bytes and the command of binds. So many libraries must be written after them."""
    commands = 120 + 32 * libraries
    made.header(libraries + 2, commands)
    made.segment(b"__DATA", 0, size, 0, 0)
    made.info(commands + 32, binds_length + 9)


def libraries(made, size):
    count, binds = size // 64, (size // 2 - 200) // 6
    one_segment(made, count, 6 * binds, 8 * binds)
    for _ in range(count):
        made.library()
    made.begin_binds(0)
    for bind in range(binds):
        made.text(b"\x20")
        made.number(1 + bind % count)
        made.text(b"\x90")
    made.text(b"\0")


def binds_again(made, size):
    binds = (size - 200) // 20
    one_segment(made, 1, 20 * binds, 0x1000)
    made.library()
    made.begin_binds(0)
    made.text((b"\xc0" + b"\x80" * 8 + b"\x10\xf8" + b"\xff" * 8 + b"\x01") * binds + b"\0")


# ---- tries of exports, and names that overlap


def trie_command(made, length):
    made.header(1, 16)
    made.words(0x80000033, 16, 48, length)


def begin_trie(made, nodes, first, step):
    """Writes a root of so many nodes. Each lies `step` bytes after the one before."""
    made.text(b"\0")
    made.number(nodes)
    for node in range(nodes):
        made.text(b"\0")
        made.number(first + step * node)


def lead_nowhere(made, branches):
    for _ in range(branches):
        made.text(b"\0")
        made.number(NOWHERE)


def trie_shared(made, size):
    nodes, branches = size // 22, (size - 200) // 10
    first = 5 + 5 * nodes
    trie_command(made, first + 6 * nodes + 4 + 5 * branches)
    begin_trie(made, nodes, first, 6)
    for node in range(nodes):
        made.number(6 * (nodes - node) - 4)
        made.text(b"\0\0")
    made.number(branches)
    lead_nowhere(made, branches)


def trie_overlaid(made, size):
    """Makes lists whose count is the end of the number before it. The branch before it leads there."""
    nodes, others = size // 33, (size - 200) // 12
    first = 5 + 5 * nodes
    trie_command(made, first + 14 * nodes + 4 + 5 * others)
    begin_trie(made, nodes, first, 6)
    for node in range(nodes):
        made.number(6 * nodes + 2 * node - 4)
        made.text(b"\0\0")
    made.number(nodes + others)
    for node in range(nodes):
        made.text(b"\0\xff\xff\xff")
        made.number(nodes - node - 1 + others)
    lead_nowhere(made, others)


def trie_deep(made, size):
    nodes = (size - 52) // 8
    trie_command(made, 8 * nodes + 4)
    for node in range(nodes):
        made.text(b"\0\x01a\0")
        made.number(8 * node + 8)
    made.text(b"\x02\0\0\0")


def reexports_far(made, size):
    nodes, letters = size // 18, size // 2 - 100
    made.header(2, 48)
    made.library()
    made.words(0x80000033, 16, 80, 9 * nodes + letters + 10)
    begin_trie(made, nodes, 5 + 5 * nodes, 4)
    made.text(b"\x02\x08\x01\x01" * nodes)
    made.text(b"a" * letters + b"\0")
    made.number(NOWHERE)


def symbols_of(made, size, step):
    """Makes symbols whose names begin `step` letters after each other, within one text that is half of the file."""
    symbols, letters = size // 32, size // 2 - 60
    made.header(1, 24)
    made.symbol_table(56, symbols, 56 + 16 * symbols, letters + 2)
    for symbol in range(symbols):
        made.words(1 + step * symbol, 1, 0, 0)
    made.text(b"\0" + b"a" * letters + b"\0")


def symbol_names(made, size):
    return symbols_of(made, size, 0)


def symbol_tails(made, size):
    return symbols_of(made, size, 1)


def libraries_far(made, size):
    count = size // 48
    commands = 24 * count
    made.header(count, commands)
    for library in range(count):
        made.words(0xC, 24, commands - 23 * library, 2, 0x10000, 0x10000)
    made.text(b"a" * (size - 32 - commands))


def tables(made, size):
    count, rows = size // 48, (size // 2 - 60) // 16
    at = 32 + 24 * count
    made.header(count, 24 * count)
    for _ in range(count):
        made.symbol_table(at, rows, at + 16 * rows, 4)
    for _ in range(rows):
        made.words(1, 1, 0, 0)
    made.text(b"\0_a\0")


# ---- the ordinary image


class Plan:
    """What an ordinary image of at most so many bytes has: how many items of each kind, and where each list begins, after the one before."""

    def __init__(self, size):
        body = size - 1100
        self.libraries, self.imports = body // 256 + 1, body // 256 + 1
        self.relocations, self.pointers, self.binds, self.symbols = body // 64, body // 32, body // 128, body // 256
        self.inner = body // 2048  # nodes of the trie that have 16 branches
        pages = -(-self.pointers // 512)
        self.chained = Chained(8 * self.pointers, pages, pages, self.imports, 12 * self.imports)
        self.relocations_at = 344 + 32 * self.libraries
        self.data_at = self.relocations_at + 8 * self.relocations
        self.chained_at = self.data_at + self.chained.data
        self.binds_at = self.chained_at + self.chained.length
        self.trie_at = self.binds_at + 16 * self.binds + 9
        self.symbols_at = self.trie_at + 256 * self.inner + 4
        self.names_at = self.symbols_at + 16 * self.symbols


def plain(made, size):
    plan = Plan(size)
    plain_commands(made, plan)
    for row in range(plan.relocations):
        made.words(row, 0x0D000001)
    plain_fixups(made, plan)
    made.begin_binds(1)
    for bind in range(plan.binds):
        made.text(b"\x40_bind_")
        made.letters(bind)
        made.text(b"\0\x90")
    made.text(b"\0")
    plain_trie(made, plan.inner)
    plain_symbols(made, plan.symbols)


def plain_commands(made, plan):
    made.header(plan.libraries + 5, plan.relocations_at - 32)
    made.segment(b"__TEXT", 0, 0x1000, 0, plan.relocations_at, 1)
    made.section(plan.relocations_at, plan.relocations)
    made.segment(b"__DATA", 0x1000, plan.chained.data, plan.data_at, plan.chained.data)
    made.info(plan.binds_at, plan.trie_at - plan.binds_at, plan.trie_at, plan.symbols_at - plan.trie_at)
    made.symbol_table(plan.symbols_at, plan.symbols, plan.names_at, 16 * plan.symbols + 1)
    made.words(0x80000034, 16, plan.chained_at, plan.chained.length)
    for _ in range(plan.libraries):
        made.library()


def plain_fixups(made, plan):
    """Writes pointers, each fourth of them bound, and the chained fixups."""
    for index in range(plan.pointers):
        made.pointer(index % plan.imports, index % 4 == 0, has_next(index, plan.pointers))
    plan.chained.begin(made)
    made.text(bytes(2 * plan.chained.pages))
    for index in range(plan.imports):
        made.words(index * (12 << 9) & 0xFFFFFFFF | 1)
    for index in range(plan.imports):
        made.text(b"_fix")
        made.letters(index)
        made.text(b"\0")


def plain_trie(made, inner):
    """Writes a trie of so many nodes of 16 branches, ordered by their levels. Each node except the first is an export."""
    made.text(b"\x80\x80\0")
    for node in range(inner):
        made.text(b"\x10")
        for branch in range(16):
            made.text(b"_name_" + bytes([ord("a") + branch, 0]))
            child = 16 * node + 1 + branch
            made.number(196 * min(child, inner) + 4 * max(child - inner, 0))
        made.text(b"\x02\0\0")
    made.text(b"\0\x02\0\0" * (15 * inner) + b"\0")


def plain_symbols(made, symbols):
    for symbol in range(symbols):
        made.words(16 * symbol + 1, 0x010F, symbol, 0)
    made.text(b"\0")
    for symbol in range(symbols):
        made.text(b"_symbol_")
        made.letters(symbol)
        made.text(b"\0")


SHAPES = [
    plain,
    trie_shared,
    trie_deep,
    symbol_names,
    import_names,
    commands_again,
    fat_overlaid,
    segments,
    sections,
    tables,
    libraries,
    binds_again,
    page_starts,
    trie_overlaid,
    symbol_tails,
    libraries_far,
    reexports_far,
]
BY_NAME = {shape.__name__: shape for shape in SHAPES}


def file_of(shape, size):
    """Returns the bytes of a file."""
    made = Maker()
    shape(made, size)
    return bytes(made.bytes[:size].ljust(size, b"\0"))


def size_of(word):
    if word.isascii() and word.isdigit() and LEAST <= int(word) <= MOST:
        return int(word)
    sys.exit(f"shapes.py: a size is {LEAST} to {MOST}, and not '{word}'")


def shape_of(word):
    return BY_NAME.get(word) or sys.exit(f"shapes.py: no shape is named '{word}': {' '.join(BY_NAME)}")


def write_all(folder, sizes):
    for size in sizes:
        for name, shape in BY_NAME.items():
            with open(os.path.join(folder, f"{name}.{size}"), "wb") as file:
                file.write(file_of(shape, size))


def main(words):
    match words:
        case ["--names"]:
            print("\n".join(BY_NAME))
        case ["--all", folder, size, *more]:
            write_all(folder, [size_of(word) for word in [size, *more]])
        case [shape, size] if not shape.startswith("-"):
            sys.stdout.buffer.write(file_of(shape_of(shape), size_of(size)))
        case _:
            print("usage: shapes.py SHAPE SIZE > FILE\n       shapes.py --all FOLDER SIZE..\n       shapes.py --names", file=sys.stderr)
            return 2
    return 0


if __name__ == "__main__":
    sys.exit(main(sys.argv[1:]))
