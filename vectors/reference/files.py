"""Whole files: what kind they are, fat files, archives, and fat files written. docs/FORMAT-CONTAINERS.md."""

from dataclasses import dataclass

from .image import MAGICS, open_image
from .reading import (WORD, Fault, Layout, attempt, bad_magic, malformed, number, quoted, read, require, too_big,
                      too_short)

ARCHIVE, THIN = b"!<arch>\n", b"!<thin>\n"
FAT, FAT_64 = 0xCAFEBABE, 0xCAFEBABF
KIND_MASK = 0xFFFFFF

# ---- fat files

FAT_ARCH = {
    False: Layout("FatArch", "cputype cpusubtype offset size align"),
    True: Layout("FatArch64", "cputype cpusubtype offset:8 size:8 align reserved"),
}


class FatFile:
    """The table of a fat file of 32 or of 64 bits."""

    def __init__(self, data, wide):
        self.data, self.arch = data, FAT_ARCH[wide]
        self.count = int.from_bytes(data[4:8], "big") if len(data) >= 8 else 0
        self.end = self.place(self.count)

    def place(self, index):
        return 8 + self.arch.size * index

    def record(self, index):
        """Reads record `index`, which is below the count."""
        return self.arch.read(self.data, self.place(index), ">")

    def records(self):
        """Gives the records in order, up to the first that isn't there, which is a fault."""
        for index in range(self.count):
            yield self.record(index)

    def whole_records(self):
        """Gives the records that lie in the bytes."""
        return (self.record(index) for index in range(min(self.count, (len(self.data) - 8) // self.arch.size)))

    def slice(self, arch):
        """Gives the bytes of an entry, or none if they are out of the file."""
        end = arch.offset + arch.size
        return self.data[arch.offset:end] if end <= len(self.data) else b""


def fat_file(data):
    """Reads the table of a fat file of either width; None if the magic is another. A table without a whole header has no records."""
    magic = int.from_bytes(data[:4], "big")
    return FatFile(data, magic == FAT_64) if len(data) >= 4 and magic in (FAT, FAT_64) else None


def begins_as_image(data):
    return len(data) >= 4 and int.from_bytes(data[:4], "big") in MAGICS


# ---- archives

@dataclass
class Member:
    """A member of an archive: the places of its header and of its bytes."""
    header: int
    field: bytes
    long_name: bytes
    start: int
    size: int
    next: int
    numbers: tuple

    @property
    def word(self):
        return self.field.split(b" ", 1)[0]


def digits(field, base=10):
    """Gives the number of a header's field; None if it is no number."""
    spelled = field.rstrip(b" ")
    allowed = b"01234567" if base == 8 else b"0123456789"
    return int(spelled, base) if spelled and all(digit in allowed for digit in spelled) else None


def long_name_length(field, size):
    """Gives how many bytes a long name has; None if the name is short."""
    if not field.startswith(b"#1/"):
        return None
    length = digits(field[3:].split(b" ", 1)[0])
    if length is None or length > size:
        raise malformed()
    return length


def member_header(data, place):
    """Reads the header of a member, with the first fault that it has."""
    header = read(data, place, 60)
    size = digits(header[48:58])
    if header[58:] != b"`\n" or size is None:
        raise malformed()
    if size:
        read(data, place + 60, size)
    field = header[:16]
    length = long_name_length(field, size)
    start = place + 60 + (length or 0)
    numbers = (digits(header[16:28]), digits(header[28:34]), digits(header[34:40]), digits(header[40:48], 8))
    long_name = None if length is None else data[place + 60:start].rstrip(b"\0")
    return Member(place, field, long_name, start, size - (length or 0), place + 60 + size + size % 2, numbers)


class Archive:
    """The start of an archive: its kind, its index, the long names, and where its members begin."""

    def __init__(self, data):
        start = read(data, 0, 8)
        if start == THIN:
            raise malformed()
        if start != ARCHIVE:
            raise bad_magic(int.from_bytes(start[:4], "big"))
        self.data, self.kind, self.index, self.names, self.first = data, "gnu", None, b"", 8
        if len(data) > 8:
            self.begin(member_header(data, 8))

    def begin(self, member):
        names = (b"__.SYMDEF", b"__.SYMDEF SORTED", b"__.SYMDEF_64")
        plain = member.field.rstrip(b" ")
        if member.long_name is None and plain not in names:
            return self.begin_gnu(member)
        self.kind = "bsd"
        name = plain if member.long_name is None else member.long_name
        if name in names or (member.long_name is not None and name == b"__.SYMDEF_64 SORTED"):
            self.take_index(member, 8 if b"64" in name else 4)

    def begin_gnu(self, member):
        if member.word in (b"/", b"/SYM64/"):
            self.take_index(member, 8 if b"64" in member.word else 4)
        if self.first < len(self.data):
            names = member_header(self.data, self.first)
            if names.word == b"//":
                self.names, self.first = self.bytes(names), names.next

    def take_index(self, member, width):
        self.index, self.width, self.first = self.bytes(member), width, member.next

    def bytes(self, member):
        return self.data[member.start:member.start + member.size]

    def members(self):
        """Gives the members in order, up to the first fault."""
        place = self.first
        while place < len(self.data):
            member = member_header(self.data, place)
            yield member
            place = member.next

    def member_at(self, place):
        if place < 8:
            raise malformed()
        return member_header(self.data, place)

    def name(self, member):
        """Gives the bytes of a member's name, or the fault that it has."""
        if member.long_name is not None:
            return member.long_name
        if self.kind == "bsd" or member.word in (b"/", b"//"):
            return member.word
        if member.field.startswith(b"/"):
            return self.line_of_names(digits(member.word[1:]))
        return member.field.split(b"/", 1)[0].rstrip(b" ")

    def line_of_names(self, place):
        end = -1 if place is None else self.names.find(b"\n", place)
        if end <= (place or 0) or self.names[end - 1:end] != b"/":
            raise malformed()
        return self.names[place:end - 1]

    def symbols(self):
        """Gives the symbols of the index as pairs of a name and the place of a member, up to the first fault."""
        if self.index is None:
            return iter(())
        return gnu_symbols(self.index, self.width) if self.kind == "gnu" else bsd_symbols(self.index, self.width)

    def find(self, name):
        """Gives the member of the first symbol of that name, or None."""
        place = next((place for symbol, place in self.symbols() if symbol == name), None)
        return None if place is None else self.member_at(place)


def gnu_symbols(table, width):
    count = number(table, 0, width, ">")
    place = width + width * count
    if place > len(table):
        raise too_short(count, "symbols")
    for index in range(count):
        end = table.find(b"\0", place)
        if end < 0:
            raise malformed()
        yield table[place:end], number(table, width + width * index, width, ">")
        place = end + 1


def bsd_table(table, width, order):
    """Reads how many symbols BSD's index has, and its names."""
    size = number(table, 0, width, order)
    if size % (2 * width):
        raise malformed()
    if width + size + width > len(table):
        raise too_short(size // (2 * width), "symbols")
    length, start = number(table, width + size, width, order), width + size + width
    if length > len(table) - start:
        raise too_big(length, len(table) - start)
    return size // (2 * width), table[start:start + length]


def bsd_order(table, width):
    """Selects the byte order of BSD's index: little-endian if that can be read."""
    try:
        return "<", bsd_table(table, width, "<")
    except Fault as first:
        try:
            return ">", bsd_table(table, width, ">")
        except Fault:
            raise first from None


def bsd_symbols(table, width):
    order, (count, names) = bsd_order(table, width)
    for index in range(count):
        entry = width + 2 * width * index
        place = number(table, entry, width, order)
        end = names.find(b"\0", place) if place < len(names) else -1
        if end < 0:
            raise malformed()
        yield names[place:end], number(table, entry + width, width, order)


# ---- answers

def kind_of_file(data, lossy, archives):
    """Gives the line of `mach`, or of `input` if archives and fat files of 64 bits are opened too."""
    if archives and data[:8] in (ARCHIVE, THIN):
        Archive(data)
        return "archive"
    require(len(data) >= 4)
    magic = number(data, 0, 4, ">")
    if magic == FAT or magic == FAT_64 and archives:
        return f"{'fat' if magic == FAT else 'fat64'} {number(read(data, 0, 8), 4, 4, '>')}"
    open_image(data, 0, lossy)
    return "image"


def mach(data, vector):
    return kind_of_file(data, vector.mode == "lossy", archives=False)


def input_(data, _):
    return kind_of_file(data, lossy=False, archives=True)


def entries(data, _):
    fat = fat_file(data)
    for arch in fat.records() if fat else ():
        yield f"entry cpu {arch.cputype:#x} {arch.cpusubtype:#x} at {arch.offset:#x} size {arch.size} align {arch.align}"


def item(data, owner, place):
    """Writes the line of an item by whether it opens as an image."""
    opened = attempt(open_image, data)
    return f"other{owner} at {place:#x} {opened.line()}" if isinstance(opened, Fault) else f"image{owner} at {place:#x}"


def archive_items(data, base, owner):
    """Gives an item for each member of an archive that begins at `base`; a fault is the last."""
    try:
        archive, empty = Archive(data), True
        for member in archive.members():
            empty = False
            yield item(archive.bytes(member), f"{owner} member {shown_name(archive, member)}", base + member.start)
        if empty:
            yield f"archive{owner} at {base:#x}"
    except Fault as fault:
        yield fault


def fat_items(fat):
    """Gives the items of all entries of a fat file."""
    if fat.count > len(fat.data) // fat.arch.size:
        raise too_short(fat.count, "arches")
    for index in range(fat.count):
        arch = attempt(fat.record, index)
        if isinstance(arch, Fault):
            yield arch
            continue
        data, owner = fat.slice(arch), f" entry {index}"
        if data[:8] in (ARCHIVE, THIN):
            yield from archive_items(data, arch.offset, owner)
        else:
            yield item(data, owner, arch.offset)


def images(data, vector):
    kind = input_(data, vector).split()[0]
    if kind == "image":
        return iter(["image at 0x0"])
    return archive_items(data, 0, "") if kind == "archive" else fat_items(fat_file(data))


def archive_kind(data, _):
    return "thin" if data[:8] == THIN else Archive(data).kind if data[:8] == ARCHIVE else "none"


def shown_name(archive, member):
    name = attempt(archive.name, member)
    return f"({name})" if isinstance(name, Fault) else quoted(name)


def member_line(archive, member):
    date, owner, group, mode = ("none" if value is None else value for value in member.numbers)
    return (f"member {shown_name(archive, member)} header {member.header:#x} at {member.start:#x} size {member.size} "
            f"date {date} owner {owner} group {group} mode {mode}")


def members(data, _):
    archive = Archive(data)
    return (member_line(archive, member) for member in archive.members())


def archive_symbols(data, _):
    return (f"symbol {quoted(name)} member {place:#x}" for name, place in Archive(data).symbols())


def archive_find(data, vector):
    archive = Archive(data)
    member = archive.find(vector.wanted_name)
    return member_line(archive, member) if member else "none"


def member_named(data, vector):
    archive = Archive(data)
    named = (member for member in archive.members() if attempt(archive.name, member) == vector.wanted_name)
    member = next(named, None)
    return member_line(archive, member) if member else "none"


# ---- fat files written

def judge_parts(parts):
    """Refuses the parts of a fat file for a large alignment, or two of one cpu."""
    cpus = {(cputype, cpusubtype & KIND_MASK) for _, cputype, cpusubtype, _ in parts}
    if any(align > 15 for *_, align in parts) or len(cpus) < len(parts):
        raise malformed()


def written(parts, wide):
    """Writes a fat file of parts, each with its bytes, cputype, cpusubtype and alignment."""
    judge_parts(parts)
    long, reserved = (8, bytes(4)) if wide else (4, b"")
    end = 8 + (32 if wide else 20) * len(parts)
    head, body = bytearray((FAT_64 if wide else FAT).to_bytes(4, "big") + len(parts).to_bytes(4, "big")), bytearray()
    table = end
    for data, cputype, cpusubtype, align in parts:
        place = -(-end // (1 << align)) << align
        if max(place, len(data)) >> (8 * long):
            raise malformed()
        fields = ((cputype, 4), (cpusubtype, 4), (place, long), (len(data), long), (align, 4))
        head += b"".join(value.to_bytes(size, "big") for value, size in fields) + reserved
        body += bytes(place - table - len(body)) + data
        end = place + len(data)
    return head + body


def write_fat(data, vector):
    parts = []
    for offset, length, *cpu in vector.parts:
        parts.append((read(data, offset, length), *cpu))
    file = bytes(written(parts, vector.number == 64))
    yield f"size {len(file)}"
    for place in range(0, len(file), 16):
        if any(file[place:place + 16]):
            yield f"{place:#x}: {file[place:place + 16].hex()}"


# ---- the faults of a fat file's table

CONTAINER_RULES = ("records-out-of-file", "slice-out-of-file", "slice-in-records", "slice-alignment", "slice-unaligned", "slice-again",
                   "slice-of-other-cpu", "slices-share")


def sweep(ranges):
    """Gives pairs of ranges that share a place: one that begins before the furthest end so far, and the range with that end.

    A range is its start, its end and its owner. Ranges without bytes share nothing."""
    furthest = None
    for item in sorted((item for item in ranges if item[0] < item[1]), key=lambda item: item[0]):
        if furthest and item[0] < furthest[1]:
            yield item, furthest
        if furthest is None or item[1] > furthest[1]:
            furthest = item


def image_cputype(data):
    """Gives the cputype that the image at 0 says; None if no image's magic and number are there."""
    if not begins_as_image(data) or len(data) < 8:
        return None
    return number(data, 4, 4, "<" if data[0] in (0xCE, 0xCF) else ">")


def slices_again(archs):
    """Gives each record whose cpu an earlier record has: its number, the cpu, and the first record's number. Sorts them by cpu."""
    first = {}
    for cpu, index in sorted(((arch.cputype << 24) + (arch.cpusubtype & KIND_MASK), index) for index, arch in enumerate(archs)):
        earlier = first.setdefault(cpu, index)
        if earlier != index:
            yield index, cpu, earlier


def container_rows(fat):
    """Gives what each rule says of the table: whether it is broken, the rule, the owner, what is found, the limit, the other owner."""
    archs, size = list(fat.whole_records()), len(fat.data)
    owners = [("slice", fat.place(index), index) for index in range(len(archs))]
    yield fat.end > size, "records-out-of-file", ("header", 0, 0), fat.end, size
    for arch, owner in zip(archs, owners):
        start, end, unit = arch.offset, arch.offset + arch.size, 1 << min(arch.align, 15)
        cputype = image_cputype(fat.data[start:start + 8])
        yield start == end or end > size, "slice-out-of-file", owner, end, size
        yield start < fat.end, "slice-in-records", owner, start, fat.end
        yield arch.align > 15, "slice-alignment", owner, arch.align, 15
        yield arch.align <= 15 and start % unit, "slice-unaligned", owner, start, unit
        yield cputype not in (None, arch.cputype), "slice-of-other-cpu", owner, arch.cputype, cputype
    for index, cpu, earlier in slices_again(archs):
        yield True, "slice-again", owners[index], cpu, cpu + 1, owners[earlier]
    slices = [(arch.offset, arch.offset + arch.size, owner) for arch, owner in zip(archs, owners)]
    yield from ((True, "slices-share", owner, start, end, other) for (start, _, owner), (_, end, other) in sweep(slices))


def fault_lines(rows, rules):
    """Writes the faults among rows, sorted by rule. An owner is a part, the place of its command or record, and a number there."""
    order = {rule: place for place, rule in enumerate(rules)}
    for _, *row in sorted((row for row in rows if row[0]), key=lambda row: order[row[1]]):
        yield fault_line(*row)


def fault_line(rule, owner, found, limit, other=None):
    line = f"fault {rule} of {shown_owner(owner)} found {min(found, WORD - 1):#x} limit {min(limit, WORD - 1):#x}"
    return line + (f" other {shown_owner(other)}" if other else "")


def shown_owner(owner):
    part, place, index = owner
    return f"{part} {place:#x} {index}"


def container(data, _):
    fat = fat_file(data)
    return fault_lines(container_rows(fat), CONTAINER_RULES) if fat else ()


SINGLES = {"mach": mach, "input": input_, "archive-kind": archive_kind, "archive-find": archive_find, "member-named": member_named}
LISTS = {"entries": entries, "images": images, "members": members, "archive-symbols": archive_symbols, "write-fat": write_fat,
         "container": container}
