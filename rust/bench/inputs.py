#!/usr/bin/env python3
"""Writes the files that rust/bench/run times: valid images with many items. The same arguments give the same bytes.

  rust/bench/inputs.py KIND N FILE

KIND is one of
  exports    a library with N exports
  deep       a library whose trie is one chain of N nodes, with an export at each hundredth
  wide       a library whose trie is one node with N leaves
  binds      an image with N binds, none of them lazy
  lazy       an image with N binds, a tenth of them lazy
  commands   an image with N load commands
  object     an object file with N symbols, and 0.4 N relocations in 100 sections
  full       an image with N exports, and N binds, a tenth of them lazy
  fat        a fat file of 8 such images, each with N / 8
"""
import random
import struct
import sys

PAGE = 4096
LIBRARIES = 40
WORDS = """Machine Operand Register Class Target Info Value Basic Block Function Module Type Constant Inst Builder Context Section Symbol Table
Reader Writer Stream Buffer Memory Map Set List Vector String Iterator Range Node Tree Graph Edge Path File System Error Status Result""".split()
SPACES = "llvm clang mlir std boost google protobuf detail internal net dnn media gpu skia".split()
VERBS = "get set is has create make find insert erase add update visit parse read write emit lower select fold match print".split()
TYPES = ["v", "j", "i", "PKc", "RKS_", "mm", "PNS_5ValueE", "NS_9StringRefE", "jRNS_11raw_ostreamE", "RNS_8FunctionE"]


def uleb(number):
    out = bytearray()
    while number > 127:
        out.append(number & 127 | 128)
        number >>= 7
    return bytes(out) + bytes([number])


def padded(data, to=8):
    return data + bytes(-len(data) % to)


def mangled(*words):
    return "".join("%d%s" % (len(word), word) for word in words)


def names(count, rng):
    """Returns names like those of a large library in C++, sorted."""
    found = set()
    while len(found) < count:
        owner = mangled(*rng.sample(SPACES, rng.choice((1, 2))), "".join(rng.sample(WORDS, rng.choice((2, 2, 3)))))
        for _ in range(rng.randrange(4, 60)):
            verb = rng.choice(VERBS) + "".join(rng.sample(WORDS, rng.choice((1, 1, 2))))
            found.add("__ZN%s%s%sE%s" % (rng.choice(("", "K")), owner, mangled(verb), rng.choice(TYPES)))
    return [name.encode() for name in sorted(rng.sample(sorted(found), count))]


# Tries: a node is [what its export says, or b"", its branches as (label, number of a node)].
def trie_of(rows):
    """Returns the nodes of a trie, each before its branches. The rows are (name, what its export says), sorted by name."""
    nodes = []

    def add(first, end, length):
        number = len(nodes)
        nodes.append([b"", []])
        if len(rows[first][0]) == length:
            nodes[number][0] = rows[first][1]
            first += 1
        while first < end:
            name, last = rows[first][0], first + 1
            while last < end and rows[last][0][length] == name[length]:
                last += 1
            same, other = length, rows[last - 1][0]
            while same < min(len(name), len(other)) and name[same] == other[same]:
                same += 1
            nodes[number][1].append((name[length:same], add(first, last, same)))
            first = last
        return number

    add(0, len(rows), 0)
    return nodes


def trie_bytes(nodes):
    """Returns the bytes of a trie; each node comes before its branches."""
    heads = [(uleb(len(what)) + what if what else b"\0") + uleb(len(branches)) for what, branches in nodes]
    places, moved = [0] * len(nodes), True
    while moved:
        place, found = 0, []
        for head, (_, branches) in zip(heads, nodes):
            found.append(place)
            place += len(head) + sum(len(label) + 1 + len(uleb(places[node])) for label, node in branches)
        moved, places = found != places, found
    rows = zip(heads, nodes)
    return b"".join(head + b"".join(label + b"\0" + uleb(places[node]) for label, node in branches) for head, (_, branches) in rows)


def exports(count, rng):
    places = rng.sample(range(count), count)
    return trie_bytes(trie_of([(name, uleb(rng.choice((0, 0, 0, 4))) + uleb(0x4000 + 16 * at)) for name, at in zip(names(count, rng), places)]))


def deep(count):
    what = [uleb(0) + uleb(0x4000 + at) if at % 100 == 99 or at == count - 1 else b"" for at in range(count)]
    return trie_bytes([[what[at], [(b"%c" % (97 + at % 26), at + 1)] if at < count - 1 else []] for at in range(count)])


def wide(count):
    leaves = [(b"%06x" % (at * 7919 % 0xFFFFFF), at + 1) for at in range(count)]
    return trie_bytes([[b"", leaves]] + [[uleb(0) + uleb(0x4000 + 16 * at), []] for at in range(count)])


def ordinal(library):
    return bytes([0x10 | library]) if library < 16 else b"\x20" + uleb(library)


def binds(count, rng):
    """Returns binds of segment 1 in all forms, and how many bytes of the segment they take."""
    out, at, left = bytearray(b"\x51"), 0, count
    for turn, name in enumerate(rng.choices(names(max(1, count // 6), rng), k=count)):
        if left == 0:
            break
        out += ordinal(1 + turn // 50 % LIBRARIES) + b"\x40" + name + b"\0" + b"\x71" + uleb(at)
        if rng.random() < 0.15:
            times, gap = min(left, rng.randrange(8, 40)), 8 * rng.randrange(6)
            out += b"\xc0" + uleb(times) + uleb(gap)
            at += times * (8 + gap)
        else:
            times = min(left, rng.choice((1, 1, 1, 2, 2, 3, 4, 6, 10)))
            for _ in range(times):
                gap = rng.choice((0, 1, 2, 3, 5, 20, 200))
                out += b"\x90" if gap == 0 else bytes([0xB0 | gap]) if gap < 16 else b"\xa0" + uleb(8 * gap)
                at += 8 + 8 * gap
        left -= times
    return bytes(out) + b"\0", at


def lazy_binds(count, rng, at):
    rows = [b"\x71" + uleb(at + 8 * k) + ordinal(1 + k % LIBRARIES) + b"\x40" + name + b"\0\x90\0" for k, name in enumerate(names(count, rng))]
    return b"".join(rows), at + 8 * count


# Images
def with_text(command, head, text):
    body = padded(head + text + b"\0")
    return struct.pack("<II", command, 8 + len(body)) + body


def library(command, name):
    return with_text(command, struct.pack("<4I", 24, 2, 0x10000, 0x10000), name)


def segment(name, address, size, offset, sections=()):
    head = struct.pack("<II16s4Q4I", 0x19, 72 + 80 * len(sections), name, address, size, offset, size, 3, 3, len(sections), 0)
    return head + b"".join(sections)


def header(kind, commands, cpu=(0x01000007, 3)):
    body = b"".join(commands)
    return struct.pack("<8I", 0xFEEDFACF, *cpu, kind, len(commands), len(body), 0x85, 0) + body


def image(parts, used=0, more=(), cpu=(0x01000007, 3)):
    """Returns a library: __TEXT, __DATA of `used` bytes, __LINKEDIT with binds, lazy binds and a trie, and more commands."""
    parts = [padded(part) for part in parts]
    size, end = -(-max(used, 8) // PAGE) * PAGE, sum(map(len, parts))
    head = PAGE * (2 + len(b"".join(more)) // PAGE)
    places = [head + size + sum(map(len, parts[:k])) if part else 0 for k, part in enumerate(parts)]
    (bind, lazy, trie), (bind_size, lazy_size, trie_size) = places, map(len, parts)
    commands = [
        segment(b"__TEXT", 0, head, 0),
        segment(b"__DATA", head, size, head),
        segment(b"__LINKEDIT", head + size, end, head + size),
        library(0xD, b"@rpath/libSample.dylib"),
        struct.pack("<12I", 0x80000022, 48, 0, 0, bind, bind_size, 0, 0, lazy, lazy_size, trie, trie_size),
        *(library(0xC, b"/usr/lib/system/libsystem_part%d.dylib" % k) for k in range(LIBRARIES)),
        *more,
    ]
    out = header(6, commands, cpu)
    return out + bytes(head - len(out) + size) + b"".join(parts)


def full(count, rng, cpu=(0x01000007, 3)):
    now, used = binds(count - count // 10, rng)
    late, used = lazy_binds(count // 10, rng, used)
    return image((now, late, exports(count, rng)), used, cpu=cpu)


def more_commands(count):
    """Yields commands. Of ten, four are libraries, two run paths, two segments of two sections, one a client and one a note."""
    for at in range(count):
        if at % 10 < 4:
            yield library(0xC if at % 10 < 3 else 0x80000018, b"/System/Library/Frameworks/Part%d.framework/Part%d" % (at, at))
        elif at % 10 < 6:
            yield with_text(0x8000001C, struct.pack("<I", 12), b"@loader_path/../Frameworks/%d" % at)
        elif at % 10 < 8:
            rows = [struct.pack("<16s16sQQ8I", b"__bss%d" % k, b"__SEG%d" % at, 64 * k, 64, 0, 3, 0, 0, 1, 0, 0, 0) for k in range(2)]
            yield segment(b"__SEG%d" % at, at << 32, 0, 0, rows)
        elif at % 10 < 9:
            yield with_text(0x14, struct.pack("<I", 12), b"client%d" % at)
        else:
            yield struct.pack("<II16sQQ", 0x31, 40, b"owner %d" % at, 0, 0)


def object_file(count, rng, sections=100, size=1024):
    each = count * 2 // 5 // sections
    head = 32 + 72 + 80 * sections + 24
    start = -(-head // 16) * 16
    place = start + size * sections
    rows = [struct.pack("<16s16sQQ8I", b"__sect%d" % k, b"__DATA", k * size, size, start + k * size, 3, place + 8 * each * k, each, 0, 0, 0, 0)
            for k in range(sections)]
    kinds = (0x2D000000, 0x0E000000, 0x1D000000, 0x3D000000)
    relocations = b"".join(struct.pack("<II", 4 * at % size, rng.randrange(count) & 0xFFFFFF | rng.choice(kinds)) for at in range(each * sections))
    table, strings = [], bytearray(b"\0")
    for at, name in enumerate(rng.sample(names(count, rng), count)):
        table.append(struct.pack("<IBBHQ", len(strings), *((0x0F, 1 + at % sections, 0, 0x4000 + 16 * at) if at % 10 else (1, 0, 0, 0))))
        strings += name + b"\0"
    at = place + len(relocations)
    symbols = struct.pack("<6I", 2, 24, at, count, at + 16 * count, len(strings))
    out = header(1, [segment(b"", 0, size * sections, start, rows), symbols])
    return out + bytes(place - len(out)) + relocations + b"".join(table) + bytes(strings)


def fat(count, rng):
    cpus = [(0x01000007, 3), (0x01000007, 8), *((0x0100000C, k) for k in range(6))]
    rows, body, place = b"", bytearray(), PAGE
    for cpu in cpus:
        data = padded(full(count // len(cpus), rng, cpu), PAGE)
        rows += struct.pack(">5I", *cpu, place, len(data), 12)
        body += data
        place += len(data)
    out = struct.pack(">II", 0xCAFEBABE, len(cpus)) + rows
    return out + bytes(PAGE - len(out)) + bytes(body)


def make(kind, count):
    """Returns the bytes of a file of a kind."""
    rng = random.Random("%s %d" % (kind, count))
    if kind == "binds":
        now, used = binds(count, rng)
        return image((now, b"", b""), used)
    if kind == "lazy":
        now, used = binds(count - count // 10, rng)
        late, used = lazy_binds(count // 10, rng, used)
        return image((now, late, b""), used)
    if kind == "commands":
        return image((b"", b"", b""), more=list(more_commands(count - 5 - LIBRARIES)))
    makers = {"object": object_file, "full": full, "fat": fat}
    if kind in makers:
        return makers[kind](count, rng)
    trie = {"exports": lambda: exports(count, rng), "deep": lambda: deep(count), "wide": lambda: wide(count)}[kind]()
    return image((b"", b"", trie))


def main(words):
    if len(words) != 3:
        print(__doc__, end="", file=sys.stderr)
        return 2
    data = make(words[0], int(words[1]))
    with open(words[2], "wb") as file:
        file.write(data)
    return 0


if __name__ == "__main__":
    sys.exit(main(sys.argv[1:]))
