#!/usr/bin/env python3
"""Writes files on which a reader may find no end, or take more than its share of time and memory.

  tools/hostile_files/make.py FOLDER [BYTES]

The small ones have up to some hundred bytes. The large ones have about BYTES bytes, 100,000 if no number is given; their cost may grow
faster than the file. Some of them a reader goes over again and again, if it keeps nothing of what it read. Each of these is there a second
time, with ten times as many bytes. `files` and `growing`, below, say what each file is.
"""
import os
import struct
import sys

MANY = 0xFFFFFFFF

# The numbers of load commands (mach-o/loader.h).
SEGMENT, SYMTAB, DYSYMTAB, DYLIB, ID_DYLIB, TWOLEVEL_HINTS, SEGMENT_64 = 0x1, 0x2, 0xB, 0xC, 0xD, 0x16, 0x19
REEXPORT_DYLIB, THREAD, UNIXTHREAD, PREBOUND_DYLIB, LINKER_OPTION, ENCRYPTION_INFO_64 = 0x8000001F, 0x4, 0x5, 0x10, 0x2D, 0x2C
DYLD_INFO_ONLY, FUNCTION_STARTS, DATA_IN_CODE, NOTE, BUILD_VERSION = 0x80000022, 0x26, 0x29, 0x31, 0x32
EXPORTS_TRIE, CHAINED_FIXUPS, RPATH, MAIN = 0x80000033, 0x80000034, 0x8000001C, 0x80000028
PROGRAM, LIBRARY = 2, 6


def words(*values):
    return struct.pack("<%dI" % len(values), *values)


def uleb(value, width=1):
    """Returns a number in LEB128, in at least so many bytes."""
    made = b""
    while value > 0x7F or len(made) + 1 < width:
        made += bytes([value & 0x7F | 0x80])
        value >>= 7
    return made + bytes([value])


def image(commands, tail=b"", bits=64, kind=LIBRARY, count=None):
    """Returns a header, these commands and what comes after them. `count`, if it is given, replaces their number."""
    magic, cpu = (0xFEEDFACF, 0x01000007) if bits == 64 else (0xFEEDFACE, 7)
    body = b"".join(commands)
    header = words(magic, cpu, 3, kind, len(commands) if count is None else count, len(body), 0) + bytes(4 if bits == 64 else 0)
    return header + body + tail


def begin(commands, bits=64):
    """Returns the place after the header and so many bytes of commands."""
    return (32 if bits == 64 else 28) + commands


def named(command, name):
    """Returns a command that names a library."""
    size = (24 + len(name) + 8) // 8 * 8
    return words(command, size, 24, 2, 0x10000, 0x10000) + name.ljust(size - 24, b"\0")


def segment(name, address=0, size=0x1000, at=0, length=0, sections=0, bits=64, body=b""):
    """Returns a segment and the records of its sections. `sections` is the count that it states."""
    if bits == 64:
        front = words(SEGMENT_64, 72 + len(body)) + name.ljust(16, b"\0") + struct.pack("<4Q", address, size, at, length)
    else:
        front = words(SEGMENT, 56 + len(body)) + name.ljust(16, b"\0") + words(address, size, at, length)
    return front + words(7, 3, sections, 0) + body


def section(number, relocations=0, relocations_at=0):
    """Returns a section of no bytes."""
    return b"__s".ljust(16, b"\0") + b"__DATA".ljust(16, b"\0") + struct.pack("<2Q", 0, 0) + words(0, 0, relocations_at, relocations, 0, number, 0, 0)


def info(at, rebase=b"", bind=b"", weak=b"", lazy=b"", trie=b""):
    """Returns LC_DYLD_INFO_ONLY over these parts, which lie one after the other from `at` on."""
    made = words(DYLD_INFO_ONLY, 48)
    for part in (rebase, bind, weak, lazy, trie):
        made += words(at, len(part))
        at += len(part)
    return made


def repeated(turns, skip, bits=64, lazy=False, offset=0):
    """Returns an image with one bind instruction, which binds `turns` times. After each time it goes on by `skip` bytes and a pointer."""
    opcodes = b"\x11\x51\x40_a\0\x70" + uleb(offset) + b"\xc0" + uleb(turns) + uleb(skip) + b"\0"
    fixed = [named(ID_DYLIB, b"/me"), named(DYLIB, b"/l"), segment(b"__DATA", 0, 0x1000, bits=bits)]
    at = begin(sum(map(len, fixed)) + 48, bits)
    parts = {"lazy": opcodes} if lazy else {"bind": opcodes}
    return image(fixed + [info(at, **parts)], opcodes, bits)


def again(bits):
    """Returns the skip that, with a pointer, is a whole turn of the addresses: each bind is at the place of the one before."""
    return 2**64 - bits // 8


def long_name(size):
    """Returns a name of letters of two bytes, which takes longer to test than one of ASCII."""
    return "é".encode() * (size // 2)


def symbol_table(count, tail):
    commands = 72 + 24
    at = begin(commands)
    fixed = [segment(b"__LINKEDIT", 0x1000, 0x1000, at, len(tail)), words(SYMTAB, 24, at, count, at + 16, len(tail) - 16)]
    return image(fixed, tail)


def full_info(command):
    """Returns an image with a command for bind opcodes and the like. Each range of it is as long as the field allows."""
    fixed = 48
    return image([words(command, fixed, *[begin(fixed), MANY] * 5)], bytes(16))


def dynamic_symbols():
    """Returns an image with LC_DYSYMTAB. Each of its tables has as many items as the field allows."""
    at = begin(24 + 80)
    one = struct.pack("<IBBHQ", 1, 1, 0, 0, 0) + b"\0_a\0"
    tables = words(DYSYMTAB, 80, 0, MANY, 0, MANY, 0, MANY, *[at, MANY] * 6)
    return image([words(SYMTAB, 24, at, MANY, at + 16, 4), tables], one)


def chains(header=None, starts=b"", imports=0, tail=b"", bits=64):
    """Returns an image with a command of chained fixups, over one segment of data that can be read."""
    data = struct.pack("<Q", 0)
    commands = 72 + 16
    at = begin(commands)
    if header is None:
        header = words(0, 28, 28 + len(starts), 28 + len(starts) + len(tail), imports, 1, 0)
    blob = header + starts + tail
    return image([segment(b"__DATA", 0x4000, 0x1000, at + len(blob), len(data)), words(CHAINED_FIXUPS, 16, at, len(blob))], blob + data)


def chain_starts(pages, segments=1, first=0, each=0):
    """Returns the starts of the chains: so many segments, all of them at one record of so many pages."""
    page = struct.pack("<IHHQIH", 22 + 2 * len(each or [0]), 0x1000, 6, 0, 0, pages) + struct.pack("<%dH" % len(each or [0]), *(each or [first]))
    offset = 4 + 4 * min(segments, 8)
    return words(segments, *[offset] * min(segments, 8)) + page


def shared_branches(size, found):
    """Returns an image with a trie of many nodes that share one list of branches. The branches lead nowhere, or to a node."""
    nodes, branches = size // 18, size // 8
    first = 1 + 3 + 4 * nodes
    shared = first + 5 * nodes
    made = b"\0" + uleb(nodes, 3) + b"".join(b"\0" + uleb(first + 5 * i, 3) for i in range(nodes))
    made += b"".join(uleb(shared - first - 5 * i - 3, 3) + b"\0\0" for i in range(nodes))
    made += uleb(branches, 3) + (b"\0" + uleb(found, 3)) * branches
    return image([words(EXPORTS_TRIE, 16, begin(16), len(made))], made)


def overlaid_branches(size, ends_together=True):
    """Returns an image with a trie of nodes whose lists of branches all lead nowhere. Each list begins a branch after the one before. All lists end
    together, or have one length.

    The count of a list is the last bytes of the number before it, which says where the branch before it leads.
    """
    nodes, others = size // 33, size // 13
    counts = [others + (nodes - i if ends_together else 0) for i in range(nodes + 1)]
    first = 1 + 4 + 5 * nodes
    made = b"\0" + uleb(nodes, 4) + b"".join(b"\0" + uleb(first + 6 * i, 4) for i in range(nodes))
    made += b"".join(uleb(6 * nodes + 2 * i - 4, 4) + b"\0\0" for i in range(nodes))
    made += uleb(counts[0], 4) + b"".join(b"\0\xff\xff\xff" + uleb(it, 4) for it in counts[1:])
    made += (b"\0" + uleb(2**28 - 1)) * others
    return image([words(EXPORTS_TRIE, 16, begin(16), len(made))], made)


def far_labels(size):
    """Returns an image with a trie of nodes of one branch, which leads nowhere. All their labels run on to one zero byte."""
    nodes = size // 18
    first = 1 + 4 + 5 * nodes
    made = b"\0" + uleb(nodes, 4) + b"".join(b"\0" + uleb(first + 4 * i, 4) for i in range(nodes))
    made += b"\x02\x04\x01\x01" * nodes + long_name(size // 2) + b"\0" + uleb(2**28 - 1)
    return image([words(EXPORTS_TRIE, 16, begin(16), len(made))], made)


def far_reexports(size):
    """Returns an image with a trie of nodes that are re-exports. All their names run on to one zero byte. The count of each node's branches is after
    that byte."""
    nodes = size // 32
    name = long_name(size // 3)
    turns = (5 * nodes + len(name)) // 2**14 + 1
    first = 1 + 4 + 5 * nodes
    made = b"\0" + uleb(nodes, 4) + b"".join(b"\0" + uleb(first + 5 * i, 4) for i in range(nodes))
    made += (uleb(turns * 2**14 + 0x42) + b"\x08\x01") * nodes + name + bytes(5 * nodes + 2**14 + 0x80)
    return image([named(DYLIB, b"/l"), words(EXPORTS_TRIE, 16, begin(32 + 16), len(made))], made)


def deep_trie(size):
    """Returns an image with a trie in which each node has one child after it: its names are as long as the trie."""
    made = b"".join(b"\0\x01a\0" + uleb(at + 7, 3) for at in range(0, size - 8, 7)) + b"\x02\0\0\0"
    return image([words(EXPORTS_TRIE, 16, begin(16), len(made))], made)


def deep_exports(size):
    """Returns an image with a trie like `deep_trie`, in which each node is an export too. The names of all are size^2 / 200 bytes."""
    made = b"".join(b"\x02\0\0\x01a\0" + uleb(at + 9, 3) for at in range(0, size - 8, 9)) + b"\x02\0\0\0"
    return image([words(EXPORTS_TRIE, 16, begin(16), len(made))], made)


def ladder(levels):
    """Returns an image with a trie of nodes whose two branches lead to the same next node: it has 2 to the power of `levels` paths."""
    made = b""
    for level in range(levels):
        after = len(made) + 2 + 2 * 4
        made += b"\0\x02" + b"a\0" + uleb(after, 2) + b"b\0" + uleb(after, 2)
    made += b"\x02\0\0\0"
    return image([words(EXPORTS_TRIE, 16, begin(16), len(made))], made)


def read_again(size):
    """Returns an image with a command of a library whose size is 0: it is read again for each of so many commands. Its name is the rest of the
    file."""
    record = words(DYLIB, 0, 24, 0, 0, 0)
    count = (size - 8) // 8
    magic = words(0xFEEDFACF, 0x01000007, 3, LIBRARY, count, size - 8, 0, 0)
    return magic + record + long_name(size - len(magic) - len(record))


def symbols_within(names, places):
    """Returns an image with symbols whose names begin at these places of some bytes."""
    first = 16 * len(places) - 15
    rows = [struct.pack("<IBBHQ", first + it, 1, 0, 0, 0) for it in places]
    return symbol_table(len(rows), b"".join(rows) + b"\0" + names + b"\0")


def symbol_names(size, step, end=b""):
    """Returns an image with symbols whose names begin `step` bytes after each other, within one that fills half of the bytes. If `step` is below 0, each
    name begins before the one before."""
    places = [abs(step) * i for i in range(size // 32)]
    return symbols_within(long_name(size // 2) + end, places if step >= 0 else places[::-1])


def symbols_by_turns(size):
    """Returns an image with symbols that have one of two names by turns. The names fill half of the bytes."""
    name = long_name(size // 4)
    return symbols_within(name + b"\0" + name, [0, len(name) + 1] * (size // 64))


def symbols_at(size):
    """Returns an image with symbols at 0x100000f00, in a section that holds it. Each name begins before the one before, and all run on to one zero byte."""
    names, many = long_name(size // 2), size // 32
    held = section(0x80000400)
    held = held[:32] + struct.pack("<2Q", 0x100000000, 0x1000) + held[48:]
    at = begin(152 + 24)
    first = 16 * many
    rows = b"".join(struct.pack("<IBBHQ", first + 2 * it, 0x0F, 1, 0, 0x100000F00) for it in reversed(range(many)))
    text = segment(b"__TEXT", 0x100000000, 0x1000, 0, at, 1, body=held)
    return image([text, words(SYMTAB, 24, at, many, at, first + len(names) + 1)], rows + names + b"\0")


def far_libraries(size):
    """Returns an image with libraries whose names begin a letter after each other, within one that ends with the file."""
    count = size // 48
    return image([words(DYLIB, 24, 24 * count - 22 * i, 2, 0, 0) for i in range(count)], long_name(size // 2))


def overlaid(size):
    """Returns a fat file in which each entry is all that comes after the table."""
    count = size // 40
    at = 8 + 20 * count
    entry = image([], b"", 32)
    rest = entry.ljust(size - at, b"\0")
    return struct.pack(">2I", 0xCAFEBABE, count) + struct.pack(">5I", 7, 3, at, len(rest), 0) * count + rest


def member(name, data):
    """Returns a member of an archive, with its header."""
    fields = name.ljust(16) + b"0".ljust(12) + b"0".ljust(6) * 2 + b"644".ljust(8) + str(len(data)).encode().ljust(10) + b"`\n"
    return fields + data + b"\n" * (len(data) % 2)


def archive_of_members(size):
    """Returns an archive of members without bytes."""
    return b"!<arch>\n" + member(b"a/", b"") * (size // 60)


def archive_of_names(size):
    """Returns an archive whose members all have one long name, which fills half of the bytes and has no end."""
    return b"!<arch>\n" + member(b"//", b"a" * (size // 2)) + member(b"/0", b"") * (size // 120)


def fat_archives(size):
    """Returns a fat file whose entries are all the same archive."""
    found = b"!<arch>\n" + member(b"a/", b"") * (size // 600)
    count = size // 40
    return struct.pack(">2I", 0xCAFEBABE, count) + struct.pack(">5I", 7, 3, 8 + 20 * count, len(found), 0) * count + found


def fat_archive(size):
    """Returns a fat file whose entries are all one archive, of half of the bytes, whose members have some."""
    found = b"!<arch>\n" + member(b"a/", b"12") * (size // 124)
    count = size // 40
    return struct.pack(">2I", 0xCAFEBABE, count) + struct.pack(">5I", 7, 3, 8 + 20 * count, len(found), 0) * count + found


def fat_image(size, bits=32):
    """Returns a fat file whose entries are all one image, of half of the bytes: symbols of one short name."""
    count = size // (40 if bits == 32 else 64)
    at = 8 + (20 if bits == 32 else 32) * count
    entry = symbols_within(b"_a", [0] * (size // 32))
    record = struct.pack(">5I", 0x1000007, 3, at, len(entry), 0) if bits == 32 else struct.pack(">2I2Q2I", 0x1000007, 3, at, len(entry), 0, 0)
    return struct.pack(">2I", 0xCAFEBABE if bits == 32 else 0xCAFEBABF, count) + record * count + entry


def tables(size):
    """Returns an image with commands of symbol tables that all lie over one table."""
    count = size // 48
    at = begin(24 * count)
    rows = (size - at) // 16
    symbol = struct.pack("<IBBHQ", 1, 1, 0, 0, 0)
    return image([words(SYMTAB, 24, at, rows, at, size - at)] * count, symbol * rows)


def relocations(size):
    """Returns an image with sections that all have one table of relocations."""
    count = size // 160
    at = begin(72 + 80 * count)
    rows = (size - at) // 8
    body = b"".join(section(i, rows, at) for i in range(count))
    return image([segment(b"__DATA", 0, 0x1000, 0, 0, count, 64, body)], bytes(8 * rows), kind=1)


def contents(size, number):
    """Returns an image with sections of one type that all hold the whole file, in which no zero is after them."""
    count = size // 160
    record = b"__text".ljust(16, b"\0") + b"__TEXT".ljust(16, b"\0") + struct.pack("<2Q", 0, size) + words(0, 0, 0, 0, number, 0, 0, 0)
    made = image([segment(b"__DATA", 0, 0x1000, 0, size, count, 64, record * count)])
    return made + b"a" * (size - len(made))


def far_section(size):
    """Returns an image with many segments without sections, and then one with a section, whose relocations all refer to that section by its number."""
    count, rows = size // 76, size // 160
    front = [segment(b"__S%d" % i) for i in range(count)]
    last = segment(b"__DATA", 0, 0x1000, 0, 0, 1, 64, section(0, rows, begin(72 * count + 152)))
    return image([*front, last], words(0, 1) * rows, kind=1)


def segments(size):
    """Returns an image with segments that all lie over each other, in the file and in memory."""
    count = size // 72
    return image([segment(b"__S%d" % i, 0, 0x1000, 0, size) for i in range(count)])


def same_sections(size):
    """Returns an image with segments that all claim the same sections: one command of size 0, which is read again and again."""
    count = size // 80
    command = words(SEGMENT_64, 0) + b"__S".ljust(16, b"\0") + struct.pack("<4Q", 0, 2**32, 0, 0) + words(7, 3, count, 0)
    body = b"".join(section(i) for i in range(count))
    return words(0xFEEDFACF, 0x01000007, 3, 1, size // 8, size, 0, 0) + command + body


def libraries(size):
    """Returns an image with libraries that all have one name, and with paths on which they are searched."""
    each = [named(DYLIB, b"/l"), words(RPATH, 16, 12) + b"/p\0\0"]
    return image(each * (size // 48))


def bind_again(size):
    """Returns an image with instructions that each bind 2^60 times at one place, one after the other."""
    one = b"\xc0" + uleb(2**60) + uleb(again(64))
    opcodes = b"\x11\x51\x40_a\0\x70\0" + one * (size // len(one)) + b"\0"
    fixed = [named(DYLIB, b"/l"), segment(b"__DATA")]
    at = begin(sum(map(len, fixed)) + 48)
    return image(fixed + [info(at, bind=opcodes)], opcodes)


def chain_of_imports(size):
    """Returns an image with a table of imports. The name of each is the rest of the file."""
    count = size // 8
    names = b"a" * (size // 2)
    starts = words(1, 0)
    header = words(0, 28, 28 + len(starts), 28 + len(starts) + 4 * count, count, 1, 0)
    return chains(header, starts, tail=words(*[1] * count) + names)


def pages(size):
    """Returns an image whose starts state many pages for a segment of 8 bytes. The chain of each page begins at the page's first byte."""
    count = min(size // 4, 65535)
    each = [0] * count
    return chains(starts=chain_starts(count, 1, 0, each))


def circle_of_libraries(count, fan, binds):
    """Returns a program and so many libraries, each of which re-exports `fan` others. The program binds names that none of them has, each name once,
    and from each library by turns."""
    names = [b"/library/%d" % i for i in range(count)]
    # A trie whose root has one branch, to an export at 0.
    trie = b"\0\1_a\0\5\2\0\0\0"
    made = {}
    for i, name in enumerate(names):
        fixed = [named(ID_DYLIB, name), *(named(REEXPORT_DYLIB, names[(i + j) % count]) for j in range(1, fan + 1))]
        at = begin(sum(map(len, fixed)) + 16)
        made[f"library{i}"] = image([*fixed, words(EXPORTS_TRIE, 16, at, len(trie))], trie)
    each = (b"\x20" + uleb(i % count + 1) + b"\x40_name%d\0\x90" % i for i in range(binds))
    opcodes = b"\x51\x70\0" + b"".join(each) + b"\0"
    fixed = [segment(b"__DATA", size=2**32), *(named(DYLIB, it) for it in names)]
    at = begin(sum(map(len, fixed)) + 48)
    return {"program": image([*fixed, info(at, bind=opcodes)], opcodes, kind=PROGRAM), **made}


def growing(size):
    """Returns files of some bytes. The comments say what a reader goes over in 1,000,000 bytes, if it reads each list and each name from its beginning
    to its end."""
    return {
        # 7 * 10^9 branches in lists that are the same list; 2.8 * 10^9 in lists that overlap.
        "trie_shared_%d" % size: shared_branches(size, 2**21 - 1),
        "trie_overlaid_%d" % size: overlaid_branches(size),
        # 3.4 * 10^10 bytes of labels.
        "trie_labels_%d" % size: far_labels(size),
        # 1.6 * 10^10 bytes of names: all are the same name, or each begins within the one before.
        "symbols_same_%d" % size: symbol_names(size, 0),
        "symbols_far_%d" % size: symbol_names(size, 2),
        # 10^10 bytes of names of libraries.
        "libraries_far_%d" % size: far_libraries(size),
        # 1.2 * 10^11 bytes of one name that is read for each of many commands.
        "names_%d" % size: read_again(size),
        # 1.6 * 10^9 sections, which are the same for each segment.
        "sections_same_%d" % size: same_sections(size),
    }


def files(size):
    """Returns the files: small ones, and large ones of up to so many bytes."""
    one = struct.pack("<IBBHQ", 1, 1, 0, 0, 0) + b"\0_a\0"
    return {
        # One instruction that binds 2^60 times at one place: within its segment, outside of it, and lazily.
        "repeat_32": repeated(2**60, again(32), 32),
        "repeat_64": repeated(2**60, again(64)),
        "repeat_outside": repeated(2**60, again(64), offset=0x1001),
        "repeat_lazy": repeated(2**60, again(64), lazy=True),
        # Binds whose places advance by 0, by a byte, and so far that they wrap around.
        "repeat_most": repeated(2**64 - 1, again(64)),
        "repeat_byte": repeated(2**60, 2**64 - 7),
        "repeat_round": repeated(2**60, 2**63 - 8),
        # Counts of 2^32 - 1, or the largest number of the field.
        "symbols_2_32": symbol_table(MANY, one),
        "dynamic_2_32": dynamic_symbols(),
        "fat_2_32": struct.pack(">2I", 0xCAFEBABE, MANY) + bytes(56),
        "commands_2_32": image([words(MAIN, 24, 0, 0, 0, 0)], count=MANY),
        "commands_again_2_32": image([words(MAIN, 0, 0, 0, 0, 0)], count=MANY),
        "sections_2_32": image([segment(b"__DATA", sections=MANY)]),
        "relocations_2_32": image([segment(b"__DATA", sections=1, body=section(0, MANY, 0))], kind=1),
        "tools_2_32": image([words(BUILD_VERSION, 24, 1, 0, 0, MANY)]),
        "hints_2_32": image([words(TWOLEVEL_HINTS, 16, 0, MANY)]),
        "strings_2_32": image([words(SYMTAB, 24, begin(24), 1, begin(24) + 16, MANY)], one),
        "info_2_32": full_info(DYLD_INFO_ONLY),
        "thread_2_32": image([words(THREAD, 16, 4, MANY), words(UNIXTHREAD, 16, 4, MANY)], kind=PROGRAM),
        "modules_2_32": image([words(PREBOUND_DYLIB, 24, 20, MANY, 20, 0)]),
        "options_2_32": image([words(LINKER_OPTION, 16, MANY, 0)], kind=1),
        "encrypted_2_32": image([words(ENCRYPTION_INFO_64, 24, 0, MANY, 1, 0)]),
        "file_bytes_2_64": image([segment(b"__TEXT", 0, 2**64 - 1, 0, 2**64 - 1)]),
        "data_in_code_2_32": image([words(DATA_IN_CODE, 16, 0, MANY)]),
        "trie_2_32": image([words(EXPORTS_TRIE, 16, 0, MANY)]),
        "trie_branches_255": image([words(EXPORTS_TRIE, 16, 48, 4)], b"\0\xff\0\0"),
        "trie_branches_2_64": image([words(EXPORTS_TRIE, 16, 48, 12)], b"\0" + b"\xff" * 9 + b"\x01\0"),
        "chains_imports_2_32": chains(imports=MANY),
        "chains_segments_2_32": chains(starts=chain_starts(1, MANY)),
        "chains_pages": chains(starts=chain_starts(65535)),
        "chains_loop": chains(starts=chain_starts(1, 1, 0x8000)),
        "note_2_64": image([words(NOTE, 40) + b"n".ljust(16, b"\0") + struct.pack("<2Q", 2**64 - 1, 2**64 - 1)]),
        # A trie whose paths are 2^60, over 60 nodes.
        "trie_ladder": ladder(60),
        # Files of up to `size` bytes.
        "trie_deep_%d" % size: deep_trie(size),
        # 5 * 10^9 bytes of names, which a reader with a limit does not make.
        "trie_levels_%d" % (10 * size): deep_exports(10 * size),
        "fat_overlaid_%d" % size: overlaid(size),
        "archive_members_%d" % size: archive_of_members(size),
        "archive_names_%d" % size: archive_of_names(size),
        "fat_archives_%d" % size: fat_archives(size),
        # Entries that are all one archive or one image, also of 1 MB.
        **{"fat_archive_%d" % it: fat_archive(it) for it in (size, 10 * size)},
        **{"fat_image_%d" % it: fat_image(it) for it in (size, 10 * size)},
        **{"fat_image_64_%d" % it: fat_image(it, 64) for it in (size, 10 * size)},
        "tables_%d" % size: tables(size),
        "relocations_%d" % size: relocations(size),
        "segments_%d" % size: segments(size),
        # Sections of strings, of pointers to functions and of their offsets: 6 * 10^7 bytes of each.
        **{"contents_%d_%d" % (it, size): contents(size, it) for it in (0x2, 0x9, 0x16)},
        "libraries_%d" % size: libraries(size),
        "binds_%d" % size: bind_again(size),
        "imports_%d" % size: chain_of_imports(size),
        "pages_%d" % size: pages(size),
        # Lists that overlap in another way; names of re-exports, which are all printed; and names that a reader doesn't find again if it
        # keeps only the last one that it could read.
        "trie_windows_%d" % size: overlaid_branches(size, ends_together=False),
        "trie_reexports_%d" % size: far_reexports(size),
        "symbols_back_%d" % size: symbol_names(size, -2),
        "symbols_turns_%d" % size: symbols_by_turns(size),
        "symbols_bad_%d" % size: symbol_names(size, 2, b"\xff"),
        **growing(size),
        **growing(10 * size),
        # 8 * 10^9 segments, if all are gone over to look up the section of each relocation.
        "relocations_far_%d" % (100 * size): far_section(100 * size),
        # 1.6 * 10^12 bytes of names, if all are read to look up one address.
        "symbols_at_%d" % (100 * size): symbols_at(100 * size),
    }


def main():
    if len(sys.argv) not in (2, 3):
        print(__doc__.split("\n\n")[1], file=sys.stderr)
        return 2
    folder = sys.argv[1]
    os.makedirs(folder, exist_ok=True)
    for name, made in files(int(sys.argv[2]) if len(sys.argv) > 2 else 100_000).items():
        with open(os.path.join(folder, name), "wb") as file:
            file.write(made)
    return 0


if __name__ == "__main__":
    sys.exit(main())
