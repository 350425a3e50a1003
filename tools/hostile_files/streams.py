#!/usr/bin/env python3
"""Compares what machfixups and machinfo print of damaged streams with a second reading of the rules, which knows nothing of the library.

  tools/hostile_files/streams.py [--seed N] [--files N] [--images N] [--try] [FOLDER]

Each file is a fat file of images. Their rebases, weak binds and function starts are sound streams that were damaged: bytes are changed, put in or
left out, and the range is cut short or extended. The programs are those that `rt run` or `rt ci` has built, crates/NAME/out/NAME. With --try they
are those of `rt try`, which builds anew for each file. It is run by hand, since its files are drawn by chance: --seed draws the same ones again. If
the answers differ on an image, it is kept in FOLDER (the current one), and both answers are printed. The last line is 'N passed, M failed', in
images."""
import argparse
import os
import random
import re
import subprocess
import sys
import tempfile

TOP = os.path.dirname(os.path.dirname(os.path.dirname(os.path.abspath(__file__))))
LIMIT = 40
WORD = 1 << 64


class Fault(Exception):
    """The words of a refusal, as the programs print them."""


# The image, without its streams.

BASE = 0x1_0000_0000


def numbers(width, *values):
    return b"".join((it % (1 << 8 * width)).to_bytes(width, "little") for it in values)


class Image:
    """An image of three segments. The second has 0x800 bytes of data in 0x1000 of memory. What the commands say of the streams may be wrong."""

    def __init__(self, rng, wide):
        self.wide, self.width = wide, 8 if wide else 4
        self.base = BASE if wide else 0x1000
        self.segments = [
            ("__TEXT", self.base, 0x1000, 0, 0x1000),
            ("__DATA", self.base + 0x1000, 0x1000, 0x1000, 0x800),
            ("__LINKEDIT", self.base + 0x2000, 0x1000, 0x2000, 0x1000),
        ]
        self.data = bytes(rng.randrange(256) for _ in range(0x800))
        self.streams = {}

    def bytes(self):
        """Returns the file, and for each stream the place and the size by its command."""
        body, places = b"", {}
        for name, (stream, size) in self.streams.items():
            places[name] = (0x2400 + len(body), size)
            body += stream
        rebase, weak, starts = (places[it] for it in ("rebases", "weak", "starts"))
        self.segments[2] = (*self.segments[2][:4], 0x400 + len(body))
        commands = [self.segment(*it) for it in self.segments]
        commands.append(numbers(4, 0x80000022, 48, *rebase, 0, 0, *weak, 0, 0, 0, 0))
        commands.append(numbers(4, 0x26, 16, *starts))
        joined = b"".join(commands)
        magic, cpu, reserved = (0xFEEDFACF, 0x1000007, bytes(4)) if self.wide else (0xFEEDFACE, 7, b"")
        front = numbers(4, magic, cpu, 3, 2, len(commands), len(joined), 0x85) + reserved
        file = (front + joined).ljust(0x1000, b"\0") + self.data + b"\xee" * 0x800 + bytes(0x400) + body
        return file, places

    def segment(self, name, vmaddr, vmsize, fileoff, filesize):
        named = name.encode().ljust(16, b"\0")
        if self.wide:
            return numbers(4, 0x19, 72) + named + numbers(8, vmaddr, vmsize, fileoff, filesize) + numbers(4, 3, 3, 0, 0)
        return numbers(4, 1, 56) + named + numbers(4, vmaddr, vmsize, fileoff, filesize, 3, 3, 0, 0)


# The second reading.


class Cut:
    """Bytes up to the end of a command's range, and the place of the next one that is read."""

    def __init__(self, file, place, size):
        self.end = min(len(file), place + size)
        self.bytes, self.place, self.upto = file[: self.end], place, place + size

    def byte(self):
        if self.place >= self.end:
            raise Fault(f"offset {self.place} is past the end")
        self.place += 1
        return self.bytes[self.place - 1]

    def spelled(self, what):
        """Returns the value of a LEB128 number, and how many bits its groups of seven have. It has at most ten bytes, and fits into 64 bits."""
        start, groups = self.place, []
        self.byte()
        self.place = start
        while self.place < self.end and len(groups) < 10:
            groups.append(self.bytes[self.place] & 0x7F)
            self.place += 1
            if not self.bytes[self.place - 1] & 0x80:
                if len(groups) < 10 or groups[9] in ((0, 1) if what == "a ULEB128" else (0, 0x7F)):
                    return sum(it << 7 * n for n, it in enumerate(groups)), 7 * len(groups)
                break
        raise Fault(f"{what} number has at most ten bytes, {self.end - start} bytes left")

    def uleb(self):
        return self.spelled("a ULEB128")[0]

    def sleb(self):
        value, bits = self.spelled("an SLEB128")
        value -= (1 << bits) if value >> bits - 1 & 1 else 0
        return (value + WORD // 2) % WORD - WORD // 2

    def text(self):
        if self.place >= self.end:
            raise Fault(f"offset {self.place} is past the end")
        left = self.bytes[self.place :]
        text, zero, _ = left.partition(b"\0")
        try:
            found = text.decode("utf-8")
        except UnicodeDecodeError:
            raise Fault(f"a text is not UTF-8, {len(left)} bytes left") from None
        if not zero:
            raise Fault("malformed: a name runs past its stream")
        self.place += len(text) + 1
        return found


class Reading:
    """What is in a stream: its items as lines, up to the first fault, or to one more than LIMIT."""

    def __init__(self, image, file, place, size):
        self.image, self.cut = image, Cut(file, place, size)
        self.kind = self.at = 0
        self.segment, self.name, self.flags, self.addend, self.lines = None, None, 0, 0, []
        self.file = file

    def all(self):
        try:
            while len(self.lines) <= LIMIT and self.cut.place < self.cut.upto and self.instruction():
                pass
        except Fault as fault:
            self.lines.append(f"unreadable: {fault}")
        return self.lines

    def turns(self, count, skip):
        """Takes the turns of one instruction. Each adds an item, and goes on by the pointer's width and the skip."""
        while count and len(self.lines) <= LIMIT:
            self.item()
            self.advance(skip + self.image.width)
            count -= 1

    def advance(self, by):
        self.at = (self.at + by) % WORD

    def place_of(self, kind, unnamed, outside):
        """Returns the name of the segment of the item that comes now, and the item's address."""
        if not 1 <= self.kind <= 3 or self.segment is None or unnamed:
            raise Fault(f"malformed: {kind}")
        if self.segment >= len(self.image.segments):
            raise Fault(outside)
        name, vmaddr, vmsize, _, _ = self.image.segments[self.segment]
        if self.at + self.image.width > vmsize or vmaddr + self.at >= WORD:
            raise Fault(outside)
        return name, vmaddr + self.at


class Rebases(Reading):
    def instruction(self):
        byte = self.cut.byte()
        opcode, low = byte >> 4, byte & 15
        if opcode == 0:
            return False
        if opcode == 1:
            self.kind = low
        elif opcode == 2:
            self.at, self.segment = self.cut.uleb(), low
        elif opcode == 3:
            self.advance(self.cut.uleb())
        elif opcode == 4:
            self.advance(low * self.image.width)
        elif opcode == 5:
            self.turns(low, 0)
        elif opcode == 6:
            self.turns(self.cut.uleb(), 0)
        elif opcode == 7:
            self.turns(1, self.cut.uleb())
        elif opcode == 8:
            count = self.cut.uleb()
            self.turns(count, self.cut.uleb())
        else:
            raise Fault("malformed: an opcode is unknown")
        return True

    def item(self):
        words = "malformed: a rebase is outside its segment, or its address does not fit in 64 bits"
        name, address = self.place_of("a rebase lacks its segment or its type", False, words)
        _, _, _, fileoff, filesize = self.image.segments[self.segment]
        width = self.image.width if self.kind == 1 else 4
        data = self.file[fileoff : fileoff + filesize][self.at : self.at + width]
        kind = ["", "", " text-absolute", " text-relative"][self.kind]
        target = int.from_bytes(data, "little")
        self.lines.append(f"{address:#x} {name} - rebase {self.holder(target)} - {target:#x}{kind}")

    def holder(self, target):
        """Returns the name of the first segment that holds the target. A number that is relative to its own address has none."""
        names = [name for name, vmaddr, vmsize, _, _ in self.image.segments if vmaddr <= target < vmaddr + vmsize]
        return names[0] if names and self.kind != 3 else "-"


class WeakBinds(Reading):
    def instruction(self):
        byte = self.cut.byte()
        opcode, low = byte >> 4, byte & 15
        if opcode == 0:
            return False
        if opcode in (1, 2, 3):
            raise Fault("malformed: a weak bind names a provider")
        if opcode == 4:
            self.name, self.flags = self.cut.text(), low
            if low & 8:
                self.lines.append(f"- - - strong - {self.name}")
        elif opcode == 5:
            self.kind = low
        elif opcode == 6:
            self.addend = self.cut.sleb()
        elif opcode == 7:
            self.at, self.segment = self.cut.uleb(), low
        elif opcode == 8:
            self.advance(self.cut.uleb())
        elif opcode == 9:
            self.turns(1, 0)
        elif opcode == 10:
            self.turns(1, self.cut.uleb())
        elif opcode == 11:
            self.turns(1, low * self.image.width)
        elif opcode == 12:
            count = self.cut.uleb()
            self.turns(count, self.cut.uleb())
        else:
            raise Fault("malformed: an opcode is unknown")
        return True

    def item(self):
        words = "malformed: a bind is outside its segment, or its place does not fit in 64 bits"
        name, address = self.place_of("a bind lacks its name, its segment or its type", self.name is None, words)
        if self.image.segments[self.segment][3] + self.at >= WORD:
            raise Fault(words)
        addend = f" {self.addend}" if self.addend else ""
        self.lines.append(f"{address:#x} {name} - weak - {self.name}{addend}{' weak' if self.flags & 1 else ''}")


def starts_of(image, file, place, size):
    """Returns where functions begin. Each number is the distance from the one before, the first is from the base, and a zero ends them."""
    cut, at, lines = Cut(file, place, size), image.base, []
    try:
        while size and cut.place < cut.upto:
            step = cut.uleb()
            if step == 0:
                break
            at += step
            if at >= WORD:
                raise Fault("malformed: a function's address does not fit in 64 bits")
            lines.append(f"{at:#x}")
    except Fault as fault:
        lines.append(f"refused: {fault}")
    return lines


# Sound streams, and how they are damaged.


def uleb(value, width=1):
    made = b""
    while value > 0x7F or len(made) + 1 < width:
        made += bytes([value & 0x7F | 0x80])
        value >>= 7
    return made + bytes([value])


def number(rng):
    """Returns a number as streams have it: small, near an end of the segment, or near that of 64 bits. At times it has more bytes than it needs."""
    value = rng.randrange(64)
    if rng.random() < 0.25:
        value = rng.choice([rng.randrange(0x800), 0xFF8 + rng.randrange(16), WORD - rng.randrange(1, 64), rng.randrange(WORD)])
    return uleb(value, rng.choice([1, 1, 1, 1, 2, 3, 10]))


def rebase_stream(rng):
    made = bytes([0x11, 0x21]) + uleb(rng.randrange(0, 0x400, 8))
    for _ in range(rng.randrange(6)):
        low = rng.randrange(6)
        rebases = [bytes([0x50 | low]), b"\x60" + uleb(low), b"\x70" + number(rng), b"\x80" + uleb(low) + number(rng)]
        settings = [bytes([0x10 | low]), bytes([0x20 | rng.randrange(4)]) + number(rng)]
        made += rng.choice([*rebases, *settings, b"\x30" + number(rng), bytes([0x40 | low])])
    return made + rng.choice([b"", b"\0", b"\0\0"])


def weak_stream(rng):
    made = bytes([0x40 | rng.choice([0, 1, 8, 9])]) + b"_a\0" + bytes([0x51, 0x71]) + uleb(rng.randrange(0, 0x400, 8))
    for _ in range(rng.randrange(6)):
        low = rng.randrange(4)
        name = rng.choice([b"_b\0", b"\0", b"\xc3\xa9\0", b"_long_name_of_a_function\0"])
        binds = [b"\x90", b"\xa0" + number(rng), bytes([0xB0 | low]), b"\xc0" + uleb(low) + number(rng)]
        settings = [bytes([0x40 | rng.randrange(16)]) + name, b"\x60" + number(rng), bytes([0x50 | low]), bytes([0x70 | rng.randrange(4)]) + number(rng)]
        made += rng.choice([*binds, *settings, b"\x80" + number(rng)])
    return made + rng.choice([b"", b"\0", b"\0\0"])


def start_stream(rng):
    return b"".join(number(rng) for _ in range(rng.randrange(8))) + rng.choice([b"", b"\0", b"\0\x05"])


def damaged(rng, stream):
    """Damages a stream. Returns its bytes, and the size that the command says."""
    made = bytearray(stream)
    for _ in range(rng.choice([0, 1, 1, 2, 4])):
        at = rng.randrange(len(made) + 1)
        what = rng.randrange(3)
        if what == 0:
            made[at:at] = bytes([rng.randrange(256)])
        elif made and what == 1:
            made[min(at, len(made) - 1)] = rng.choice([rng.randrange(256), 0x80, 0xFF, 0, 0x90, 0xC0])
        elif made:
            del made[min(at, len(made) - 1)]
    size = rng.choice([len(made)] * 6 + [max(len(made) - rng.randrange(1, 4), 0), len(made) + rng.randrange(1, 5), 0])
    return bytes(made), size


def image_of(rng):
    """Returns the bytes of an image, and the lines of machfixups and of machinfo for it."""
    image = Image(rng, rng.random() < 0.7)
    for name, make in (("rebases", rebase_stream), ("weak", weak_stream), ("starts", start_stream)):
        image.streams[name] = damaged(rng, make(rng))
    file, places = image.bytes()
    lines = []
    for name, reading in (("rebases", Rebases), ("weak", WeakBinds)):
        lines.append(reading(image, file, *places[name]).all())
    return file, lines, starts_of(image, file, *places["starts"])


def fat_of(images):
    """Returns a fat file of these images, each on a boundary of 16 bytes."""
    table, body, start = [], b"", (8 + 20 * len(images) + 15) // 16 * 16
    for image in images:
        table.append((0x1000007, 3, start + len(body), len(image), 4))
        body += image + bytes(-len(image) % 16)
    front = b"".join(it.to_bytes(4, "big") for it in (0xCAFEBABE, len(images), *[number for row in table for number in row]))
    return front.ljust(start, b"\0") + body


def run(program, words, path, tries):
    folder = f"{TOP}/crates/{program}"
    if tries:
        ran = subprocess.run(["rt", "try", "--steps", "1", "--data", f"file={path}", "--", *words, "file"], cwd=folder, capture_output=True)
    else:
        ran = subprocess.run([f"{folder}/out/{program}", *words, path], capture_output=True)
    return ran.stdout.decode("utf-8", "replace")


def one_space(line):
    """Returns a line with one space between two columns."""
    return " ".join(it for it in line.split(" ") if it)


def escaped(line):
    """Returns a line with the control characters of its names as the programs print them."""
    return re.sub(r"[\x00-\x1f\x7f]", lambda it: f"\\x{ord(it[0]):02x}", line.replace("\\", "\\\\"))


def entries(text, count):
    """Returns the lines of each entry of a fat file, without a heading, with one space between two words."""
    found, at = [[] for _ in range(count)], -1
    for line in text.split("\n"):
        if re.fullmatch(rf"arch {at + 1}( \(\w+\))?", line):
            at += 1
        elif line and not line.startswith("ADDRESS ") and 0 <= at < count:
            found[at].append(one_space(line))
    return found


def main():
    words = argparse.ArgumentParser(description=__doc__.split("\n", 1)[0])
    words.add_argument("--seed", type=int, default=random.randrange(1 << 32))
    words.add_argument("--files", type=int, default=100)
    words.add_argument("--images", type=int, default=100)
    words.add_argument("--try", dest="tries", action="store_true")
    words.add_argument("folder", nargs="?", default=".")
    asked = words.parse_args()
    print(f"streams: --seed {asked.seed} --files {asked.files} --images {asked.images}", flush=True)
    passed = failed = items = faults = 0
    for number_of_file in range(asked.files):
        rng = random.Random(f"{asked.seed} {number_of_file}")
        made = [image_of(rng) for _ in range(asked.images)]
        with tempfile.TemporaryDirectory() as room:
            path = f"{room}/file"
            with open(path, "wb") as it:
                it.write(fat_of([it[0] for it in made]))
            told = [entries(run("machfixups", [word], path, asked.tries), asked.images) for word in ("--rebases", "--weak")]
            starts = entries(run("machinfo", ["starts"], path, asked.tries), asked.images)
            for number_of_image, (_, (rebases, weak), wanted_starts) in enumerate(made):
                same = True
                for wanted, got in ((rebases, told[0]), (weak, told[1]), (wanted_starts, starts)):
                    wanted, got = [one_space(escaped(line)) for line in wanted], got[number_of_image]
                    items, faults = items + len(got), faults + any(it.startswith(("unreadable", "refused")) for it in got)
                    if wanted[: LIMIT + 1] != got[: LIMIT + 1]:
                        same = False
                        print(f"file {number_of_file}, image {number_of_image}: wanted {wanted}, got {got[:LIMIT]}")
                passed, failed = passed + same, failed + (not same)
                if not same:
                    with open(f"{asked.folder}/streams-{asked.seed}-{number_of_file}-{number_of_image}.macho", "wb") as it:
                        it.write(made[number_of_image][0])
    print(f"streams: {items} lines, {faults} lists that end with a fault")
    print(f"{passed} passed, {failed} failed")
    return 1 if failed or not passed else 0


if __name__ == "__main__":
    sys.exit(main())
