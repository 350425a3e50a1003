#!/usr/bin/env python3
"""Measures the long lists of the programs beside LLVM 19, and prints them in the form of the table in docs/SPEED.md.

  packaging/lists.py FOLDER [RUNS]    measures the programs of a folder, such as target/release; RUNS is 9 if it is not given

The image has COUNT symbols, each of which is exported and is the target of a rebase, and COUNT binds of a tenth as many names. Each figure is the
least processor time of the runs, whose output goes to /dev/null."""

import os
import struct
import sys
import tempfile

COUNT = 200_000
PAGE = 0x1000
BASE = 0x1_0000_0000
OBJDUMP = ["llvm-objdump-19", "--macho"]
# A list, how LLVM prints it, and how a program does.
LISTS = [
    ("rebases", [*OBJDUMP, "--rebase"], ["machfixups", "--rebases"]),
    ("binds", [*OBJDUMP, "--bind"], ["machfixups", "--binds"]),
    ("exports", [*OBJDUMP, "--exports-trie"], ["machinfo", "exports"]),
    ("symbols, in the order of the table", ["llvm-nm-19", "-a", "-p"], ["machsyms", "-a", "-p"]),
    ("symbols, by name", ["llvm-nm-19", "-a"], ["machsyms", "-a"]),
]


def pages(size):
    return -(-size // PAGE) * PAGE


def uleb(value, width=1):
    """Returns a number in LEB128, in at least so many bytes."""
    made = b""
    while value > 0x7F or len(made) + 1 < width:
        made += bytes([value & 0x7F | 0x80])
        value >>= 7
    return made + bytes([value])


def trie_node(information, branches, place):
    """Returns the bytes of a node at a place, and of all below it. A branch is a label, and what makes the node that it leads to."""
    front = information + uleb(len(branches))
    begin, below = place + len(front) + sum(len(label) + 5 for label, _ in branches), b""
    for label, make in branches:
        front += label + b"\0" + uleb(begin + len(below), 4)
        below += make(begin + len(below))
    return front + below


def trie_below(numbers, unit):
    """Returns what makes the node for the exports of these numbers. Each node has two digits: LLVM reads at most 255 branches."""
    if unit == 0:
        information = uleb(0) + uleb(PAGE + 16 * numbers[0])
        return lambda place: uleb(len(information)) + information + b"\0"
    groups = [numbers[k : k + unit] for k in range(0, len(numbers), unit)]
    branches = [(b"%02d" % (group[0] // unit % 100), trie_below(group, unit // 100)) for group in groups]
    return lambda place: trie_node(b"\0", branches, place)


def binds():
    """Returns the opcodes of ten binds of each name, in the second half of the data."""
    names = COUNT // 10
    opcodes = b"".join(b"\x40_bound_%06d\0\xc0\x0a\x00" % k for k in range(names))
    return b"\x11\x51\x71" + uleb(8 * COUNT) + opcodes + b"\0"


def segment(name, address, size, place, length, section=b""):
    body = struct.pack("<2I16s4Q4I", 0x19, 72 + len(section), name, address, size, place, length, 7, 3, len(section) // 80, 0)
    return body + section


def section(name, owner, address, size, place):
    return struct.pack("<16s16s2Q8I", name, owner, address, size, place, 3, 0, 0, 0, 0, 0, 0)


def image_of_lists():
    """Returns the bytes of an image with these lists."""
    text, data = PAGE + pages(16 * COUNT), pages(16 * COUNT)
    names = b"\0" + b"".join(b"_symbol_%06d\0" % k for k in range(COUNT))
    rows = b"".join(struct.pack("<I2BHQ", 1 + 15 * k, 0xF, 1, 0, BASE + PAGE + 16 * k) for k in range(COUNT))
    trie = trie_node(b"\0", [(b"_symbol_", trie_below(range(COUNT), 10_000))], 0)
    rebases = b"\x11\x21\x00\x60" + uleb(COUNT) + b"\0"
    parts = [it + bytes(-len(it) % 8) for it in (rebases, binds(), trie, rows, names)]
    places = [text + data + sum(map(len, parts[:k])) for k in range(6)]
    size = places[5] - places[0]
    lengths = [len(it) for it in parts]
    commands = [
        segment(b"__TEXT", BASE, text, 0, text, section(b"__text", b"__TEXT", BASE + PAGE, text - PAGE, PAGE)),
        segment(b"__DATA", BASE + text, data, text, data, section(b"__data", b"__DATA", BASE + text, data, text)),
        segment(b"__LINKEDIT", BASE + text + data, pages(size), places[0], size),
        struct.pack("<6I24s", 0xC, 48, 24, 2, 0x10000, 0x10000, b"/usr/lib/libbound.dylib"),
        struct.pack("<12I", 0x80000022, 48, places[0], lengths[0], places[1], lengths[1], 0, 0, 0, 0, places[2], lengths[2]),
        struct.pack("<6I", 2, 24, places[3], COUNT, places[4], lengths[4]),
    ]
    body = b"".join(commands)
    front = struct.pack("<8I", 0xFEEDFACF, 0x01000007, 3, 8, len(commands), len(body), 0x85, 0) + body
    pointers = b"".join(struct.pack("<Q", BASE + PAGE + 16 * k) for k in range(COUNT))
    return front.ljust(text, b"\0") + pointers.ljust(data, b"\0") + b"".join(parts)


def processor_time(words):
    """Runs a program, and returns its seconds of the processor. It must end with status 0."""
    child = os.fork()
    if child == 0:
        nothing = os.open("/dev/null", os.O_WRONLY)
        os.dup2(nothing, 1)
        os.execvp(words[0], words)
    _, status, used = os.wait4(child, 0)
    if status:
        sys.exit(f"packaging/lists.py: {' '.join(words)} failed")
    return used.ru_utime + used.ru_stime


def table(program, file, runs):
    """Prints the seconds of each list. `program` returns the path of the program of a name."""
    print("| List | LLVM 19 | Text | To LLVM | `--json` | To LLVM |\n|---|---|---|---|---|---|")
    for name, others, own in LISTS:
        own = [program(own[0]), *own[1:]]
        calls = ([*others, file], [*own, file], [*own, "--json", file])
        rounds = [[processor_time(it) for it in calls] for _ in range(runs)]
        llvm, text, json = map(min, zip(*rounds))
        print(f"| {name} | {llvm:.3f} | {text:.3f} | {text / llvm:.2f} | {json:.3f} | {json / llvm:.2f} |")


def main():
    if len(sys.argv) not in (2, 3):
        sys.exit(__doc__)
    with tempfile.NamedTemporaryFile() as file:
        file.write(image_of_lists())
        file.flush()
        table(lambda name: os.path.join(sys.argv[1], name), file.name, int(sys.argv[2]) if len(sys.argv) == 3 else 9)


if __name__ == "__main__":
    main()
