"""Chained fixups, and with the opcodes all bindings and rebases of an image (docs/FORMAT-DYLD.md, parts 4 and 5)."""

from collections import namedtuple

from .opcodes import Binding, binding_line, opcode_bindings, opcode_rebases
from .providers import is_provider
from .reading import WORD, Fault, Layout, attempt, bad_offset, bits, number, read, require, signed, text, words

HEADER = Layout("Header", "fixups_version starts_offset imports_offset symbols_offset imports_count imports_format symbols_format")
STARTS = Layout("Starts", "size page_size:2 pointer_format:2 segment_offset:8 max_valid_pointer page_count:2")
PAGE_SIZES = (0x1000, 0x4000)
NO_FIXUP, SEVERAL, LAST = 0xffff, 0x8000, 0x8000

# A format: the bytes of a pointer, the unit of `next`, and the function that reads a pointer's bits. It also says whether targets count
# from the base, and which bit is the last of an import's number.
Format = namedtuple("Format", "width unit read from_base import_last")
Pointer = namedtuple("Pointer", "next kind value addend auth")
# Chains of a segment: its number, the segment, the record of its starts, and the place of that record in the payload.
Span = namedtuple("Span", "index segment starts place")
Fixup = namedtuple("Fixup", "index segment offset pointer")


class Chains:
    """The payload of an image's chained fixups, with its header."""

    def __init__(self, image, body):
        self.image, self.order, self.base = image, image.order, image.base()
        if body.dataoff >= len(image.data):
            raise bad_offset(body.dataoff)
        self.payload = read(image.data, body.dataoff, body.datasize)
        self.header = HEADER.read(self.payload, 0, self.order)
        require(self.header.fixups_version == 0 and self.header.symbols_format == 0 and self.header.imports_format in (1, 2, 3))
        self.count = number(self.payload, self.header.starts_offset, 4, self.order)

    def number(self, place, width):
        return number(self.payload, place, width, self.order)

    def spans(self):
        """Yields the segments with chains. Each is tested when its turn comes."""
        end_of_record = end_of_data = 0
        for index in range(self.count):
            start = self.number(self.header.starts_offset + 4 + 4 * index, 4)
            if start == 0:
                continue
            place = self.header.starts_offset + start
            starts = STARTS.read(self.payload, place, self.order)
            require(starts.pointer_format in FORMATS and starts.page_size in PAGE_SIZES)
            require(22 + 2 * starts.page_count <= starts.size)
            require(index < len(self.image.segments))
            segment = self.image.segments[index]
            require(self.base + starts.segment_offset == segment.vmaddr)
            require(place >= end_of_record and segment.fileoff >= end_of_data)
            end_of_record, end_of_data = place + starts.size, segment.fileoff + len(segment.data)
            yield Span(index, segment, starts, place)

    def start(self, span, index):
        """Reads a start, whose two bytes must lie inside the size of the record."""
        require(22 + 2 * index + 2 <= span.starts.size)
        return self.number(span.place + 22 + 2 * index, 2)

    def fixups(self):
        for span in self.spans():
            for page in range(span.starts.page_count):
                yield from self.page(span, page)

    def page(self, span, page):
        start = self.start(span, page)
        if start == NO_FIXUP:
            return
        if start < SEVERAL:
            yield from self.chain(span, page, start)
            return
        index, end, last = start % SEVERAL, 0, False
        while not last:
            start = self.start(span, index)
            last, place, index = start >= LAST, start % SEVERAL, index + 1
            require(place >= end)
            for fixup in self.chain(span, page, place):
                end = fixup.offset - page * span.starts.page_size + FORMATS[span.starts.pointer_format].width
                yield fixup

    def chain(self, span, page, place):
        """Yields the fixups of one chain, by the place of the first in its page."""
        shape = FORMATS[span.starts.pointer_format]
        more = True
        while more:
            require(place < span.starts.page_size)
            offset = page * span.starts.page_size + place
            require(offset + shape.width <= len(span.segment.data) and span.segment.vmaddr + offset < WORD)
            word = number(span.segment.data, offset, shape.width, self.order)
            pointer = shape.read(word, shape, self.base, span.starts.max_valid_pointer)
            require(pointer.kind != "bind" or pointer.value < self.header.imports_count)
            yield Fixup(span.index, span.segment, offset, pointer)
            more, place = pointer.next, place + pointer.next

    def import_of(self, index):
        """Returns the name, the ordinal and the addend of an import, and whether it is weak."""
        kind = self.header.imports_format
        size = {1: 4, 2: 8, 3: 16}[kind]
        record = read(self.payload, self.header.imports_offset + index * size, size)
        word = number(record, 0, 8 if kind == 3 else 4, self.order)
        if kind == 3:
            ordinal, weak, name = signed_above(bits(word, 0, 15), 0xfff0, 0x10000), bits(word, 16, 16), bits(word, 32, 63)
        else:
            ordinal, weak, name = signed_above(bits(word, 0, 7), 0xf0, 0x100), bits(word, 8, 8), bits(word, 9, 31)
        addend = 0 if kind == 1 else signed(number(record, size // 2, size // 2, self.order), 4 * size)
        return text(self.payload, self.header.symbols_offset + name), ordinal, addend, weak

    def binding(self, fixup):
        name, ordinal, addend, weak = self.import_of(fixup.pointer.value)
        require(is_provider(ordinal, self.image.libs))
        offset, addend = fixup.segment.fileoff + fixup.offset, addend + fixup.pointer.addend
        require(offset < WORD and -WORD // 2 <= addend < WORD // 2)
        return Binding(name, ordinal, f"at {fixup.segment.vmaddr + fixup.offset:#x} {offset:#x}", addend, bool(weak), False)


def signed_above(value, greatest, less):
    return value - less if value > greatest else value


def read_arm64e(word, shape, base, _):
    """Reads a pointer of formats 1, 7, 9, 10 and 12."""
    after, is_bind, is_signed = bits(word, 51, 61) * shape.unit, bits(word, 62, 62), bits(word, 63, 63)
    auth = (bits(word, 49, 50), bits(word, 32, 47), bits(word, 48, 48)) if is_signed else None
    if is_bind:
        addend = 0 if is_signed else signed(bits(word, 32, 50), 19)
        return Pointer(after, "bind", bits(word, 0, shape.import_last), addend, auth)
    if is_signed:
        return Pointer(after, "rebase", (base + bits(word, 0, 31)) % WORD, 0, auth)
    target = bits(word, 0, 42) + (bits(word, 43, 50) << 56)
    return Pointer(after, "rebase", (target + (base if shape.from_base else 0)) % WORD, 0, None)


def read_64(word, shape, base, _):
    """Reads a pointer of formats 2 and 6."""
    after = bits(word, 51, 62) * shape.unit
    if bits(word, 63, 63):
        return Pointer(after, "bind", bits(word, 0, shape.import_last), bits(word, 24, 31), None)
    target = bits(word, 0, 35) + (bits(word, 36, 43) << 56)
    return Pointer(after, "rebase", (target + (base if shape.from_base else 0)) % WORD, 0, None)


def read_32(word, shape, _, greatest):
    """Reads a pointer of format 3. A target above the greatest valid one is a plain number."""
    after = bits(word, 26, 30) * shape.unit
    if bits(word, 31, 31):
        return Pointer(after, "bind", bits(word, 0, shape.import_last), bits(word, 20, 25), None)
    target = bits(word, 0, 25)
    if target > greatest:
        return Pointer(after, "value", (target - (0x04000000 + greatest) // 2) % (1 << 32), 0, None)
    return Pointer(after, "rebase", target, 0, None)


FORMATS = {
    1: Format(8, 8, read_arm64e, False, 15),
    2: Format(8, 4, read_64, False, 23),
    3: Format(4, 4, read_32, False, 19),
    6: Format(8, 4, read_64, True, 23),
    7: Format(8, 4, read_arm64e, True, 15),
    9: Format(8, 8, read_arm64e, True, 15),
    10: Format(8, 4, read_arm64e, False, 15),
    12: Format(8, 8, read_arm64e, True, 23),
}


def chains_of(image):
    body = image.last("LC_DYLD_CHAINED_FIXUPS")
    return Chains(image, body) if body else None


def signed_words(auth):
    if auth is None:
        return ""
    key, diversity, by_address = auth
    return words(f"key {key} diversity {diversity}", "by-address" if by_address else "")


def fixups(image, _):
    chains = chains_of(image)
    for fixup in chains.fixups() if chains else ():
        pointer = fixup.pointer
        what = f"bind {pointer.value} addend {pointer.addend}" if pointer.kind == "bind" else f"{pointer.kind} {pointer.value:#x}"
        yield words(f"{what} at {fixup.segment.vmaddr + fixup.offset:#x} segment {fixup.index} offset {fixup.offset:#x}",
                    signed_words(pointer.auth))


def all_bindings(image):
    yield from opcode_bindings(image)
    chains = chains_of(image)
    for fixup in chains.fixups() if chains else ():
        if fixup.pointer.kind == "bind":
            yield chains.binding(fixup)


def bindings(image, _):
    return (binding_line(image, bind) for bind in all_bindings(image))


def rebases(image, _):
    yield from opcode_rebases(image, None)
    chains = chains_of(image)
    for fixup in chains.fixups() if chains else ():
        if fixup.pointer.kind == "rebase":
            yield words(f"rebase pointer at {fixup.segment.vmaddr + fixup.offset:#x} segment {fixup.index} "
                        f"offset {fixup.offset:#x} target {fixup.pointer.value:#x}", signed_words(fixup.pointer.auth))


INIT_POINTERS, INIT_OFFSETS = 0x09, 0x16


def pointer_reader(image):
    """Returns a function that gives the target of a stored pointer. With chains it reads one as the segment of the first fixup stores them."""
    chains = chains_of(image)
    first = next(chains.fixups(), None) if chains else None
    if first is None:
        return lambda word: word
    starts = next(span.starts for span in chains.spans() if span.index == first.index)
    shape = FORMATS[starts.pointer_format]

    def target(word):
        pointer = shape.read(word, shape, chains.base, starts.max_valid_pointer)
        return pointer.value if pointer.kind == "rebase" else word
    return target


def initializers(image, _):
    target = pointer_reader(image)
    for section in image.readable_sections():
        record = section.record
        kind = record.flags & 0xff
        if kind not in (INIT_POINTERS, INIT_OFFSETS):
            continue
        held = attempt(image.section_data, record)
        if isinstance(held, Fault):
            yield held
            continue
        width = image.pointer if kind == INIT_POINTERS else 4
        for place in range(0, len(held) - width + 1, width):
            word = number(held, place, width, image.order)
            value = target(word) if kind == INIT_POINTERS else (image.base() + word) % WORD
            yield f"initializer at {(record.addr + place) % WORD:#x} target {value:#x} segment {section.segment} section {section.section}"


LISTS = {"initializers": initializers, "fixups": fixups, "bindings": bindings, "rebases": rebases}
