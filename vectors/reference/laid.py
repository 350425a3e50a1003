"""What the rules of layout read of an image: segments, sections, symbols, and the claims. docs/FORMAT-IMAGE.md, part 9.

An owner is a part, the place of a command, and a number there. A range is its start, its end and its owner.
"""

from collections import namedtuple
from functools import cached_property

from .image import LIBRARY_KINDS, ZERO_FILL
from .opcodes import DYLD_INFO
from .records import HEADER, SECTION, SEGMENT_SIZE, SYMBOL

OBJECT, EXECUTABLE, CORE, LIBRARY, STUB, DSYM = 1, 2, 4, 6, 9, 10
FINAL = (2, 6, 7, 8)
JUDGED = (*FINAL, OBJECT, STUB, DSYM)
WIDE_PAGES = (0x0100000C, 0x0200000C)
EXECUTE = 4
HEADER_OWNER = ("header", 0, 0)

SEGMENTS = ("LC_SEGMENT", "LC_SEGMENT_64")
ENCRYPTION = ("LC_ENCRYPTION_INFO", "LC_ENCRYPTION_INFO_64")
LINKEDIT = {
    "LC_CODE_SIGNATURE": "signature", "LC_SEGMENT_SPLIT_INFO": "split-info", "LC_FUNCTION_STARTS": "function-starts",
    "LC_DATA_IN_CODE": "data-in-code", "LC_DYLIB_CODE_SIGN_DRS": "signature-requirements",
    "LC_LINKER_OPTIMIZATION_HINT": "linker-hints", "LC_DYLD_EXPORTS_TRIE": "export-trie",
    "LC_DYLD_CHAINED_FIXUPS": "chained-fixups", "LC_ATOM_INFO": "atom-info", "LC_FUNCTION_VARIANTS": "function-variants",
    "LC_FUNCTION_VARIANT_FIXUPS": "function-variant-fixups",
}

# The tables of LC_DYSYMTAB: the fields of their place and count, and the bytes of an item in 32 and in 64 bits.
DYNAMIC_TABLES = (
    ("table-of-contents", "tocoff", "ntoc", 8, 8), ("modules", "modtaboff", "nmodtab", 52, 56),
    ("external-references", "extrefsymoff", "nextrefsyms", 4, 4), ("indirect-symbols", "indirectsymoff", "nindirectsyms", 4, 4),
    ("external-relocations", "extreloff", "nextrel", 8, 8), ("local-relocations", "locreloff", "nlocrel", 8, 8),
)
OPCODE_TABLES = (("rebase-opcodes", "rebase"), ("bind-opcodes", "bind"), ("weak-bind-opcodes", "weak_bind"),
                 ("lazy-bind-opcodes", "lazy_bind"), ("export-trie", "export"))

Range = namedtuple("Range", "start end owner")


def range_of(owner, start, length):
    return Range(start, start + length, owner)


def within(inner, outer):
    return outer.start <= inner.start and inner.end <= outer.end


class Segment:
    """A segment with its ranges in memory and in the file, and those of its sections that lie in its command."""

    def __init__(self, laid, segment):
        self.record, self.owner = segment, ("segment", segment.offset, 0)
        self.memory = range_of(self.owner, segment.vmaddr, segment.vmsize)
        self.file = range_of(self.owner, segment.fileoff, segment.filesize)
        wide = laid.image.is_64
        room = max(segment.cmdsize - SEGMENT_SIZE[wide], 0) // SECTION[wide].size
        self.sections = [Section(laid, self, index) for index in range(min(segment.nsects, room))]


class Section:
    """A section with its ranges, and what is wrong with them."""

    def __init__(self, laid, segment, index):
        record = laid.image.section(segment.record, index)
        self.record, self.segment, self.owner = record, segment, ("section", segment.record.offset, index + 1)
        self.memory, self.file = range_of(self.owner, record.addr, record.size), range_of(self.owner, record.offset, record.size)
        self.type = record.flags & 0xFF
        self.has_addresses = record.size > 0 and segment.record.vmsize > 0
        in_none = self.type in ZERO_FILL or laid.kind == STUB or laid.kind == DSYM and record.offset == 0
        self.has_bytes = record.size > 0 and not in_none
        self.in_file = self.file.end <= laid.size
        self.out_of_memory = self.has_addresses and not within(self.memory, segment.memory)
        self.out_of_bytes = self.has_bytes and self.in_file and not within(self.file, segment.file)


class Laid:
    """What the rules read of an image."""

    def __init__(self, image):
        self.image, self.data, self.size = image, image.data, len(image.data)
        self.kind = image.header.filetype
        self.final, self.judged = self.kind in FINAL, self.kind in JUDGED
        self.page = 16384 if image.header.cputype in WIDE_PAGES else 4096
        start, last = HEADER[image.is_64].size, image.commands[-1:]
        self.declared_end = start + image.header.sizeofcmds
        self.chain_end = last[0].offset + last[0].cmdsize if last else start
        self.used = min(self.declared_end, self.chain_end)
        self.segments = [Segment(self, segment) for segment in image.segments]
        self.executable = [segment for segment in self.segments if segment.record.initprot & EXECUTE]
        self.sections = [section for segment in self.segments for section in segment.sections]
        self.library_count = sum(1 for _ in image.of(*LIBRARY_KINDS))
        self.symtab, self.dysymtab = self.last("LC_SYMTAB"), self.last("LC_DYSYMTAB")
        self.nsyms = self.symtab.body.nsyms if self.symtab else 0
        self.claims = [claim for claim in claims_of(self) if claim.start < claim.end]

    def last(self, *names):
        """Returns the last command of these names, or None."""
        return next((command for command in reversed(self.image.commands) if command.name in names), None)

    def lies_in_file(self, start, length):
        return start + length <= self.size

    def records(self, layout, part, command, start, count):
        """Returns the records of a command's table that are in the bytes, each with its owner."""
        count = min(count, max(self.size - start, 0) // layout.size)
        return [(layout.read(self.data, start + layout.size * index, self.image.order), (part, command.offset, index))
                for index in range(count)]

    @cached_property
    def symbols(self):
        if self.symtab is None:
            return []
        return self.records(SYMBOL[self.image.is_64], "symbols", self.symtab, self.symtab.body.symoff, self.nsyms)


def claims_of(laid):
    """Gives the ranges of the file that the commands name, in the order of the commands."""
    yield Range(0, laid.used, HEADER_OWNER)
    segments = iter(laid.segments)
    for command in laid.image.commands:
        if command.name in SEGMENTS:
            yield from segment_claims(next(segments))
        else:
            for part, start, length in named_ranges(command, laid.image.is_64):
                yield range_of((part, command.offset, 0), start, length)


def segment_claims(segment):
    yield segment.file
    for section in segment.sections:
        if section.has_bytes:
            yield section.file
        yield range_of(("relocations", *section.owner[1:]), section.record.reloff, 8 * section.record.nreloc)


def named_ranges(command, wide):
    """Gives part, start and length of each range that a command other than a segment names."""
    name, body = command.name, command.body
    if name == "LC_SYMTAB":
        yield "symbols", body.symoff, SYMBOL[wide].size * body.nsyms
        yield "strings", body.stroff, body.strsize
    elif name == "LC_DYSYMTAB":
        for part, place, count, *sizes in DYNAMIC_TABLES:
            yield part, getattr(body, place), sizes[wide] * getattr(body, count)
    elif name in DYLD_INFO:
        for part, field in OPCODE_TABLES:
            yield part, getattr(body, field + "_off"), getattr(body, field + "_size")
    elif name in LINKEDIT and body:
        yield LINKEDIT[name], body.dataoff, body.datasize
    elif name in ENCRYPTION:
        yield "encrypted", body.cryptoff, body.cryptsize
    elif name in ("LC_NOTE", "LC_SYMSEG"):
        yield "note" if name == "LC_NOTE" else "gdb-symbols", body.offset, body.size
    elif name == "LC_TWOLEVEL_HINTS":
        yield "twolevel-hints", body.offset, 4 * body.nhints
