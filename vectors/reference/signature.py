"""Code signatures: what the system takes of one, and what differs from what was signed. docs/FORMAT-SIGNATURE.md."""

import hashlib
from functools import cached_property
from itertools import islice

from .reading import (Fault, attempt, bad_magic, bad_offset, name_of_16, number, quoted, read, require, text, too_big, too_short)

SIGNATURE_MAGIC, DIRECTORY_MAGIC = 0xFADE0CC0, 0xFADE0C02
ALTERNATES = range(0x1000, 0x1005)
XML, PLIST = 5, 1
NO_BLOB = (1, 3, 4, 6)
LAST_SPECIAL = 11
MAGICS = {0: DIRECTORY_MAGIC, 2: 0xFADE0C01, 5: 0xFADE7171, 7: 0xFADE7172, 8: 0xFADE8181, 9: 0xFADE8181, 10: 0xFADE8181,
          11: 0xFADE8181, 0x10000: 0xFADE0B01, **dict.fromkeys(ALTERNATES, DIRECTORY_MAGIC)}

# The function, the length and the rank of each hash type.
HASHES = {1: (hashlib.sha1, 20, 0), 2: (hashlib.sha256, 32, 2), 3: (hashlib.sha256, 20, 1), 4: (hashlib.sha384, 48, 3)}

# How many bytes a directory's fields have, from a version on.
FIELDS = ((0x20500, 96), (0x20400, 88), (0x20300, 64), (0x20200, 52), (0x20100, 48), (0, 44))


class Index:
    """Blobs with an index: its bytes, and the slot and the offset of each blob."""

    def __init__(self, data, count):
        self.data = memoryview(data)
        self.index = [tuple(number(data, 12 + 8 * blob + at, 4, ">") for at in (0, 4)) for blob in range(count)]

    def blob(self, offset):
        """Reads the bytes of the blob at an offset."""
        length = number(read(self.data, offset, 8), 4, 4, ">")
        require(length >= 8)
        return read(self.data, offset, length)

    @cached_property
    def first_offsets(self):
        """Returns the offset of the first blob of each slot."""
        return dict(reversed(self.index))

    def blob_of(self, slot):
        """Reads the first blob of a slot; None if there is none."""
        return self.blob(self.first_offsets[slot]) if slot in self.first_offsets else None


class Signature(Index):
    """A signature: its blobs, and its code directories."""

    def __init__(self, data):
        magic, length, count = (number(read(data, 0, 12), at, 4, ">") for at in (0, 4, 8))
        if magic != SIGNATURE_MAGIC:
            raise bad_magic(magic)
        require(length >= 12)
        if length > len(data):
            raise too_big(length, len(data))
        if 12 + 8 * count > length:
            raise too_short(count, "blobs")
        super().__init__(memoryview(data)[:length], count)

    def directories(self):
        """Gives the slot and the directory, or its fault, for each directory in the order of the index."""
        return [(slot, attempt(lambda at: Directory(self.blob(at)), offset)) for slot, offset in self.index
                if slot == 0 or slot in ALTERNATES]

    def directory(self):
        """Gives the directory that counts."""
        directories = [directory for _, directory in self.directories()]
        for directory in directories:
            if isinstance(directory, Fault):
                raise directory
        ranks = {directory.rank: directory for directory in directories}
        require(directories and len(ranks) == len(directories))
        return ranks[max(ranks)]


class Directory:
    """A code directory: its bytes and its fields."""

    def __init__(self, data):
        self.data = data
        if number(data, 0, 4, ">") != DIRECTORY_MAGIC:
            raise bad_magic(number(data, 0, 4, ">"))
        read(data, 0, 44)
        self.version, self.flags, self.hash_offset, self.identifier_offset = (self.word(at) for at in (8, 12, 16, 20))
        self.special, self.slots = self.word(24), self.word(28)
        require(0x20001 <= self.version <= 0x2F000)
        self.fields = next(size for version, size in FIELDS if self.version >= version)
        read(data, 0, self.fields)
        self.hash_size, self.hash_type, _, self.page_size = data[36:40]
        require(self.hash_type in HASHES)
        self.function, size, self.rank = HASHES[self.hash_type]
        require(size == self.hash_size and self.page_size <= 31)
        self.judge_slots()

    def judge_slots(self):
        if self.hash_offset > len(self.data):
            raise bad_offset(self.hash_offset)
        if self.special * self.hash_size > self.hash_offset:
            raise too_short(self.special, "special slots")
        if self.slots * self.hash_size > len(self.data) - self.hash_offset:
            raise too_short(self.slots, "code slots")

    def word(self, place, size=4):
        return number(self.data, place, size, ">")

    def later_word(self, place, size=4):
        """Gives a field that the version may lack. A field that it lacks is 0."""
        return self.word(place, size) if place < self.fields else 0

    @property
    def scatter_offset(self):
        return self.later_word(44)

    @property
    def limit(self):
        return self.later_word(56, 8) or self.word(32)

    @property
    def identifier(self):
        return self.name(self.identifier_offset)

    @property
    def team(self):
        return self.name(self.later_word(48))

    def name(self, place):
        """Reads the name at a place; None if the place is 0."""
        if place == 0:
            return None
        if place >= len(self.data):
            raise bad_offset(place)
        rest = bytes(self.data[place:])
        require(b"\0" in rest)
        return text(rest, 0)

    @property
    def pages(self):
        """Returns how many pages the limit needs."""
        return -(-self.limit >> self.page_size) if self.page_size else min(self.limit, 1)

    def page(self, index):
        """Returns the range of a page."""
        size = 1 << self.page_size if self.page_size else self.limit
        return index * size, min((index + 1) * size, self.limit)

    def slot(self, index):
        """Returns the hash of code slot `index`, or of special slot `-index`."""
        place = self.hash_offset + index * self.hash_size
        return self.data[place:place + self.hash_size]

    def hash(self, data):
        return self.function(data).digest()[:self.hash_size]

    @property
    def cdhash(self):
        return self.hash(self.data)[:20]


# ---- faults: the kind, the slot, the index, what is found, the limit, and the fault of a read

def fault(kind, slot, index=0, found=0, limit=0, error=None):
    return f"fault {kind} slot {slot:#x} index {index} found {found:#x} limit {limit:#x}" + (f" error {error}" if error else "")


def blob_faults(signature):
    for index, (slot, offset) in enumerate(signature.index):
        blob = attempt(signature.blob, offset)
        if isinstance(blob, Fault):
            yield fault("blob", 0, index, error=blob)
            continue
        magic = number(blob, 0, 4, ">")
        if slot in NO_BLOB or MAGICS.get(slot, magic) != magic:
            yield fault("magic", slot, index, magic)


def name_faults(slot, directory):
    for kind in ("identifier", "team"):
        try:
            getattr(directory, kind)
        except Fault as error:
            yield fault(kind, slot, error=error)


def page_faults(slot, directory, data, start):
    """Gives the faults of the covered bytes of an image whose signature begins at `start`."""
    limit, scattered = directory.limit, directory.scatter_offset
    if limit < start and not scattered:
        yield fault("short", slot, 0, limit, start)
    if scattered:
        yield fault("scattered", slot, 0, scattered)
    elif limit > len(data):
        yield fault("limit", slot, 0, limit, len(data))
    elif directory.slots != directory.pages:
        yield fault("slots", slot, 0, directory.slots, directory.pages)
    else:
        for index in range(directory.slots):
            begin, end = directory.page(index)
            if directory.hash(data[begin:end]) != directory.slot(index):
                yield fault("page", slot, index, begin, end)


def special_kind(directory, special, there):
    """Gives the kind of the fault of a special slot, or None. `there` is what the slot seals, None or a fault."""
    sealed = any(directory.slot(-special))
    if special > LAST_SPECIAL:
        return "unknown" if sealed else None
    if isinstance(there, Fault):
        return None
    if there is None:
        return "absent" if sealed and special not in NO_BLOB else None
    if not sealed:
        return "unsealed"
    return None if directory.hash(there) == directory.slot(-special) else "special"


def special_faults(slot, directory, signature, plist):
    for special in range(1, directory.special + 1):
        there = attempt(signature.blob_of, special) if special <= LAST_SPECIAL else None
        kind = special_kind(directory, special, plist if special == PLIST and there is None else there)
        if kind:
            yield fault(kind, slot, special)
    for blob, _ in signature.index:
        if LAST_SPECIAL < blob < 0x1000:
            yield fault("unknown", slot, blob)
        elif directory.special < blob <= LAST_SPECIAL:
            yield fault("unsealed", slot, blob)


def faults(signature, data, start, plist):
    """Gives the lines of all faults of a signature that begins at `start` of the image's bytes."""
    yield from blob_faults(signature)
    try:
        signature.directory()
    except Fault as error:
        yield fault("directory", 0, error=error)
        return
    for slot, directory in signature.directories():
        yield from name_faults(slot, directory)
        yield from page_faults(slot, directory, data, start)
        yield from special_faults(slot, directory, signature, plist)


# ---- of an image

def signature_of(image):
    """Reads the signature of an image, with the place where it begins; None without one."""
    command = next(image.of("LC_CODE_SIGNATURE"), None)
    if command is None:
        return None
    size, start = command.body.datasize, command.body.dataoff
    return Signature(read(image.data, start, size) if size else b""), start


def plist_of(image):
    """Returns the bytes of the section that is sealed as `info.plist`, or None."""
    for _, _, section in islice(image.readable_sections(), len(image.data)):
        if name_of_16(section.segname) == b"__TEXT" and name_of_16(section.sectname) == b"__info_plist":
            data = attempt(read, image.data, section.offset, section.size)
            return None if isinstance(data, Fault) else data
    return None


def image_faults(image, _):
    signed = signature_of(image)
    return faults(signed[0], image.data, signed[1], plist_of(image)) if signed else ()


def as_signed(image, _):
    signed = signature_of(image)
    return "yes" if signed and not any(faults(signed[0], image.data, signed[1], plist_of(image))) else "no"


def shown(name):
    return "none" if name is None else f"({name})" if isinstance(name, Fault) else quoted(name)


def signature(image, _):
    signed = signature_of(image)
    if signed is None:
        return "unsigned"
    directory = signed[0].directory()
    identifier, team = (shown(attempt(getattr, directory, name)) for name in ("identifier", "team"))
    xml = attempt(signed[0].blob_of, XML)
    length = "none" if xml is None else f"({xml})" if isinstance(xml, Fault) else len(xml) - 8
    return (f"signature {identifier} team {team} version {directory.version:#x} flags {directory.flags:#x} hash "
            f"{directory.hash_type} limit {directory.limit} pages {directory.pages} page-size {directory.page_size} "
            f"entitlements {length} cdhash {directory.cdhash.hex()}")


SINGLES = {"signature": signature, "as-signed": as_signed}
LISTS = {"signature-faults": image_faults}
