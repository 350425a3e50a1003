#!/usr/bin/env python3
"""many_rows.py FOLDER: writes an image with 1,000 symbols, imports and exports and 200 sections to FOLDER/many. The lines that the programs
of c/examples and docs/C.md print for it are in FOLDER/symbols, commands, sections, imports, bindings, exports, faults, memory and create. An archive with
the image is FOLDER/many.a, and the lines for it are in FOLDER/members. A fat file of 20 entries, each of them the image, is FOLDER/fat, and
the lines for it are in FOLDER/entries."""
import struct
import sys

COUNT = 1000
ENTRIES = 20
SEGMENTS, SECTIONS = 10, 20  # segments, and sections in each, of four bytes each


def uleb(number):
    """Returns a number in three bytes, whatever it is."""
    return bytes([number & 127 | 128, number >> 7 & 127 | 128, number >> 14])


def trie():
    """Returns exports _e000 to _e999: a root with ten branches, each to a node with a hundred."""
    label = lambda text, start: text + b"\0" + uleb(start)
    size_of_root, size_of_node, size_of_leaf = 2 + 10 * 7, 2 + 100 * 6, 6
    first = size_of_root + 10 * size_of_node
    out = b"\0\x0a" + b"".join(label(b"_e%d" % a, size_of_root + a * size_of_node) for a in range(10))
    for a in range(10):
        out += b"\0\x64" + b"".join(label(b"%02d" % b, first + (100 * a + b) * size_of_leaf) for b in range(100))
    return out + b"".join(b"\x04\0" + uleb(k) + b"\0" for k in range(COUNT))


def archive(data):
    """Returns an archive in GNU's form, and its lines. It has an index of 100 symbols, and 100 members: first an image, then texts with long
    names."""
    header = lambda name, size: name.ljust(16) + b"0".ljust(12) + b"0".ljust(6) * 2 + b"644".ljust(8) + b"%-10d`\n" % size
    names = b"".join(b"a_member_with_a_long_name_%02d.txt/\n" % k for k in range(99))
    texts = b"".join(b"_t%02d\0" % k for k in range(100))
    front = 8 + 60 + 4 + 4 * 100 + len(texts) + 60 + len(names)
    first = front + front % 2
    index = struct.pack(">101I", 100, *[first] * 100) + texts
    out = b"!<arch>\n" + header(b"/", len(index)) + index + header(b"//", len(names)) + names
    out += b"\n" * (first - len(out)) + header(b"image.o/", len(data)) + data + b"\n" * (len(data) % 2)
    lines = ["%d image.o, %d symbols" % (len(data), COUNT)]
    for k in range(99):
        out += header(b"/%d" % (34 * k), k) + b"x" * k + b"\n" * (k % 2)
        lines.append("%d a_member_with_a_long_name_%02d.txt" % (k, k))
    return out, lines + ["_t%02d in %d" % (k, first) for k in range(100)]


def address(segment, section):
    return 0x100000 + 0x1000 * segment + 4 * section


def data_of(segment, section):
    return bytes([segment, section, 1, 0])


def sections_at(place):
    """Returns the commands of segments whose data follow one another from a place on."""
    out = b""
    for a in range(SEGMENTS):
        name, begin = b"__S%d" % a, place + 4 * SECTIONS * a
        out += struct.pack("<II16s4Q4I", 0x19, 72 + 80 * SECTIONS, name, address(a, 0), 0x1000, begin, 4 * SECTIONS, 3, 3, SECTIONS, 0)
        for b in range(SECTIONS):
            out += struct.pack("<16s16s2Q8I", b"__s%02d" % b, name, address(a, b), 4, begin + 4 * b, 2, 0, 0, 0, 0, 0, 0)
    return out


def image():
    """Returns the image, and the offsets of its commands, each with its name."""
    names = b"\0" + b"".join(b"_s%03d\0" % k for k in range(COUNT))
    symbols = b"".join(struct.pack("<IBBHQ", 1 + 6 * k, 0xF, 255, 0, k) for k in range(COUNT))
    binds = b"\x11\x51\x70\0" + b"".join(b"\x40_i%03d\0\x90" % k for k in range(COUNT)) + b"\0"
    exports = trie()
    data = b"".join(data_of(a, b) for a in range(SEGMENTS) for b in range(SECTIONS))
    sizes = [("LC_LOAD_DYLIB", 32), ("LC_SEGMENT_64", 72), ("LC_SYMTAB", 24), ("LC_DYLD_INFO_ONLY", 48)] + [("LC_SEGMENT_64", 72 + 80 * SECTIONS)] * SEGMENTS
    commands, at = [], 32
    for name, size in sizes:
        commands.append((at, name))
        at += size
    places = [at]
    for part in (symbols, names, binds, exports):
        places.append(places[-1] + len(part))
    library = struct.pack("<6I", 0xC, 32, 24, 0, 0, 0) + b"/l".ljust(8, b"\0")
    segment = struct.pack("<II16s4Q4I", 0x19, 72, b"__DATA", 0x1000, 8 * COUNT, 0, 0, 3, 3, 0, 0)
    table = struct.pack("<6I", 2, 24, places[0], COUNT, places[1], len(names))
    info = struct.pack("<12I", 0x80000022, 48, 0, 0, places[2], len(binds), 0, 0, 0, 0, places[3], len(exports))
    header = struct.pack("<8I", 0xFEEDFACF, 0x01000007, 3, 6, len(commands), at - 32, 0, 0)
    return header + library + segment + table + info + sections_at(places[4]) + symbols + names + binds + exports + data, commands


folder = sys.argv[1]
data, commands = image()
table = commands[2][0]
lines = {
    "symbols": ["%x _s%03d" % (k, k) for k in range(COUNT)],
    "commands": ["x86_64 DYLIB"] + ["0x%x %s" % command for command in commands],
    "sections": ["__S%d __s%02d %x %d" % (a, b, address(a, b), sum(data_of(a, b))) for a in range(SEGMENTS) for b in range(SECTIONS)],
    "imports": ["%x _i%03d" % (0x1000 + 8 * k, k) for k in range(COUNT)],
    "bindings": ["%x /l _i%03d" % (0x1000 + 8 * k, k) for k in range(COUNT)],
    "exports": ["%x _e%03d" % (k, k) for k in range(COUNT)],
    "memory": ["%d symbols" % COUNT],
    "entries": ["x86_64, %d symbols" % COUNT] * ENTRIES,
    "faults": ["symbol section: symbols at 0x%x: 0xff against 0x%x" % (table, SEGMENTS * SECTIONS)] * COUNT,
}
with open(folder + "/many", "wb") as file:
    file.write(data)
with open(folder + "/fat", "wb") as file:
    file.write(struct.pack(">2I", 0xCAFEBABE, ENTRIES) + struct.pack(">5I", 0x01000007, 3, 8 + 20 * ENTRIES, len(data), 0) * ENTRIES + data)
packed, lines["members"] = archive(data)
with open(folder + "/many.a", "wb") as file:
    file.write(packed)
second = -(-(4096 + len(data)) // 16384) * 16384
lines["create"] = ["x86_64 at 4096, %d bytes" % len(data), "arm64 at %d, %d bytes" % (second, len(data))]
for name, wanted in lines.items():
    with open(folder + "/" + name, "w") as file:
        file.write("".join(line + "\n" for line in wanted))
