"""The rules of layout: what lies where the format and its readers don't allow it. docs/FORMAT-IMAGE.md, part 9.

A row is what a rule says of one thing: whether the rule is broken, the rule, the owner, what is found, the limit, and the other
owner, if there is one. Each function gives the rows of its subject, and keeps those of one rule in order. `layout` sorts them by
rule.
"""

from .dyld_rules import chain_rows, stream_rows
from .files import fault_lines, sweep
from .image import LIBRARY_KINDS, open_image
from .laid import (CORE, ENCRYPTION, EXECUTABLE, HEADER_OWNER, LIBRARY, LINKEDIT, OBJECT, SEGMENTS, STUB, Laid, Range, within)
from .opcodes import DYLD_INFO
from .reading import name_of_16, number
from .records import COMMAND_HEADER, DATA_IN_CODE, LAYOUT_BY_COMMAND, SECTION, SEGMENT_SIZE

# The rules in their order.
RULES = """
    file-kind commands-out-of-file command-size command-unaligned command-out-of-commands command-count segment-width
    commands-end-early command-again dynamic-symbols-alone out-of-file segment-beyond-addresses segment-file-larger
    segment-address-unaligned segment-place-unaligned segment-name-again segment-rights segments-share-memory segments-share-file
    no-segment-of-header section-out-of-memory section-out-of-bytes section-elsewhere section-alignment section-unaligned
    section-of-other sections-share-memory claims-share header-shared out-of-linkedit encrypted-not-executable symbol-section
    symbol-name symbol-range symbol-range-kind symbol-library indirect-symbol indirect-section symbol-range-order
    entry-out-of-code no-entry text-misplaced text-empty id-missing id-unexpected binds rebases weak-binds function-starts
    chained-fixups import-library import-name data-out-of-code data-shared
""".split()

TWO_LEVEL = 0x80
THREADS = ("LC_THREAD", "LC_UNIXTHREAD")
LEAST_VERSIONS = ("LC_VERSION_MIN_MACOSX", "LC_VERSION_MIN_IPHONEOS", "LC_VERSION_MIN_TVOS", "LC_VERSION_MIN_WATCHOS")
ROUTINES = ("LC_ROUTINES", "LC_ROUTINES_64")
ENTRIES = ("LC_MAIN", "LC_UNIXTHREAD")

# The commands that have exactly the bytes of their record, and the sets. Of each set one command may occur.
EXACT = {"LC_SYMTAB", "LC_DYSYMTAB", *DYLD_INFO, *LINKEDIT, "LC_UUID", "LC_MAIN", "LC_SOURCE_VERSION", *LEAST_VERSIONS,
         *ENCRYPTION, *ROUTINES, "LC_TWOLEVEL_HINTS", "LC_PREBIND_CKSUM", "LC_NOTE", "LC_SYMSEG"}
SETS = [(name,) for name in ("LC_SYMTAB", "LC_DYSYMTAB", "LC_ID_DYLIB", "LC_LOAD_DYLINKER", "LC_ID_DYLINKER", "LC_UUID",
                             "LC_SOURCE_VERSION", "LC_TWOLEVEL_HINTS", "LC_PREBIND_CKSUM", *LINKEDIT)]
SETS += [DYLD_INFO, ENTRIES, LEAST_VERSIONS, ROUTINES, ENCRYPTION]
SET_OF = {name: names for names in SETS for name in names}

# The field of a command's text.
TEXTS = {
    **dict.fromkeys((*LIBRARY_KINDS, "LC_ID_DYLIB", "LC_LOAD_DYLINKER", "LC_ID_DYLINKER", "LC_DYLD_ENVIRONMENT",
                     "LC_PREBOUND_DYLIB", "LC_LOADFVMLIB", "LC_IDFVMLIB", "LC_FVMFILE"), "name"),
    "LC_RPATH": "path", "LC_SUB_FRAMEWORK": "umbrella", "LC_SUB_UMBRELLA": "sub_umbrella", "LC_SUB_CLIENT": "client",
    "LC_SUB_LIBRARY": "sub_library", "LC_FILESET_ENTRY": "entry_id", "LC_TARGET_TRIPLE": "triple",
}
NO_TABLES = ("header", "segment", "section", "relocations", "encrypted", "note")

# The stabs whose n_sect numbers a section, and the section types that have slots.
STABS_OF_SECTIONS = (0x24, 0x26, 0x28, 0x2E, 0x44, 0x4E, 0x64, 0xA4, 0xC0, 0xE0)
STUBS = 8
SLOT_TYPES = (6, 7, STUBS, 0x10, 0x14)


def shared(rule, ranges):
    """Gives the rows of a sweep."""
    return ((True, rule, here.owner, here.start, there.end, there.owner) for here, there in sweep(ranges))


def again(rule, things, numbers):
    """Gives a row for each thing. It is broken if an earlier thing has the same key. A thing is a pair of a key and an owner."""
    first = {}
    for key, owner in things:
        earlier = first.setdefault(key, owner)
        yield (earlier is not owner, rule, owner, *numbers(owner), earlier)


# ---- the header and the commands

def header_rows(laid):
    kind, used, ends = laid.kind, laid.used, (laid.chain_end, laid.declared_end)
    yield not laid.judged, "file-kind", HEADER_OWNER, kind, 0
    yield laid.declared_end > laid.size, "commands-out-of-file", HEADER_OWNER, laid.declared_end, laid.size
    yield ends[0] < ends[1], "commands-end-early", HEADER_OWNER, *ends
    holds = any(segment.file.start == 0 and segment.file.end >= used for segment in laid.segments)
    yield laid.final and not holds, "no-segment-of-header", HEADER_OWNER, 0, used
    yield kind == EXECUTABLE and not laid.last(*ENTRIES), "no-entry", HEADER_OWNER, 0, 0
    yield kind in (LIBRARY, STUB) and not laid.last("LC_ID_DYLIB"), "id-missing", HEADER_OWNER, kind, 0


def record_size(command):
    if command.name in THREADS:
        return 8
    return 12 if command.name == "LC_LINKER_OPTION" else LAYOUT_BY_COMMAND.get(command.name, COMMAND_HEADER).size


def states_end(laid, command):
    """Returns where the states that lie in a thread end, counted from the command."""
    place = 8
    while place + 8 <= command.cmdsize:
        end = place + 8 + 4 * number(laid.data, command.offset + place + 4, 4, laid.image.order)
        if end > command.cmdsize:
            break
        place = end
    return place


def counted_size(laid, command):
    """Returns the size that a command has with what it counts."""
    if command.name in SEGMENTS:
        wide = command.name == "LC_SEGMENT_64"
        return SEGMENT_SIZE[wide] + SECTION[wide].size * command.body.nsects
    if command.name == "LC_BUILD_VERSION":
        return 24 + 8 * command.body.ntools
    return states_end(laid, command) if command.name in THREADS else command.cmdsize


def command_rows(laid):
    segment = 0x19 if laid.image.is_64 else 1
    alone, no_library = laid.symtab is None, laid.kind not in (LIBRARY, STUB)
    for command in laid.image.commands:
        owner, name, size, end = ("command", command.offset, 0), command.name, command.cmdsize, command.offset + command.cmdsize
        record, counted = record_size(command), counted_size(laid, command)
        unit = 4 if not laid.image.is_64 or (name == "LC_THREAD" and laid.kind == CORE) else 8
        yield size < record or name in EXACT and size > record, "command-size", owner, size, record
        yield size % unit, "command-unaligned", owner, size, unit
        yield end > laid.declared_end, "command-out-of-commands", owner, end, laid.declared_end
        yield size != counted, "command-count", owner, size, counted
        yield name in SEGMENTS and command.cmd != segment, "segment-width", owner, command.cmd, segment
        yield alone and name == "LC_DYSYMTAB", "dynamic-symbols-alone", owner, command.cmd, 2
        yield no_library and name == "LC_ID_DYLIB", "id-unexpected", owner, laid.kind, 0
    kinds = {("command", command.offset, 0): command.cmd for command in laid.image.commands}
    things = ((SET_OF[command.name], ("command", command.offset, 0)) for command in laid.image.of(*SET_OF))
    yield from again("command-again", things, lambda owner: (kinds[owner], 1))


def text_rows(laid):
    for command in laid.image.of(*TEXTS):
        if not command.body:
            continue
        owner, begin, size = ("text", command.offset, 0), getattr(command.body, TEXTS[command.name]), command.cmdsize
        start, misplaced, is_read = command.offset + begin, not record_size(command) <= begin < size, command.name != "LC_PREBOUND_DYLIB"
        misplaced = misplaced or is_read and laid.data.find(b"\0", start, command.offset + size) < 0
        yield misplaced, "text-misplaced", owner, begin, size
        yield not misplaced and is_read and laid.data[start] == 0, "text-empty", owner, begin, size


def entry_rows(laid):
    command = next(laid.image.of(*ENTRIES), None)
    if laid.kind != EXECUTABLE or command is None:
        return
    is_main = command.name == "LC_MAIN"
    entry = command.body.entryoff if is_main else laid.image.instruction_pointer(command)
    ranges = (segment.file if is_main else segment.memory for segment in laid.executable)
    in_code = any(start <= entry < end for start, end, _ in ranges)
    yield not in_code or is_main and entry < laid.used, "entry-out-of-code", ("entry", command.offset, 0), entry, laid.used


# ---- claims

def claim_rows(laid):
    used, linkedit = laid.used, next((it.file for it in laid.segments if it.record.name == b"__LINKEDIT"), None)
    for claim in laid.claims:
        start, end, owner = claim
        part, in_file = owner[0], end <= laid.size
        yield part != "header" and not in_file, "out-of-file", owner, end, laid.size
        yield part == "segment" and 0 < start < used or part == "encrypted" and start < used, "header-shared", owner, start, used
        table = laid.final and in_file and part not in NO_TABLES
        yield table and not (linkedit and within(claim, linkedit)), "out-of-linkedit", owner, end, linkedit.end if linkedit else 0
    yield from shared("claims-share", [claim for claim in laid.claims
                                       if claim.end <= laid.size and claim.owner[0] not in ("segment", "encrypted")])
    first = next(laid.image.of(*ENCRYPTION), None)
    place = first and first.body.cryptsize and ("encrypted", first.offset, 0)
    claim = next((claim for claim in laid.claims if claim.owner == place), None)
    if claim and laid.final:
        in_code = any(within(claim, segment.file) for segment in laid.executable)
        yield not in_code, "encrypted-not-executable", claim.owner, claim.end, 0


# ---- segments and sections

def segment_rows(laid):
    final, page, most = laid.final, laid.page, 1 << 8 * laid.image.pointer
    for segment in laid.segments:
        it, owner = segment.record, segment.owner
        yield segment.memory.end > most, "segment-beyond-addresses", owner, segment.memory.end, most
        yield it.filesize > it.vmsize > 0, "segment-file-larger", owner, it.filesize, it.vmsize
        yield final and it.vmsize and it.vmaddr % page, "segment-address-unaligned", owner, it.vmaddr, page
        yield final and it.filesize and it.fileoff % page, "segment-place-unaligned", owner, it.fileoff, page
        yield final and it.initprot & 7 & ~it.maxprot, "segment-rights", owner, it.initprot, it.maxprot
    if final:
        yield from again("segment-name-again", ((it.record.name, it.owner) for it in laid.segments), lambda _: (0, 0))
    if laid.judged:
        yield from shared("segments-share-memory", [segment.memory for segment in laid.segments])
        yield from shared("segments-share-file", [segment.file for segment in laid.segments])


def section_rows(laid):
    for it in laid.sections:
        owner, record, segment, unit = it.owner, it.record, it.segment, 1 << min(it.record.align, 16)
        of = segment.owner
        yield it.out_of_memory, "section-out-of-memory", owner, it.memory.end, segment.memory.end, of
        yield it.out_of_bytes, "section-out-of-bytes", owner, it.file.end, segment.file.end, of
        placed = it.has_bytes and it.has_addresses and it.in_file and not it.out_of_memory and not it.out_of_bytes
        distances = it.file.start - segment.file.start, it.memory.start - segment.memory.start
        yield laid.final and placed and distances[0] != distances[1], "section-elsewhere", owner, *distances, of
        yield record.align > 15, "section-alignment", owner, record.align, 15
        aligned = not it.has_addresses or it.out_of_memory or record.align > 15 or record.addr % unit == 0
        yield not aligned, "section-unaligned", owner, record.addr, unit
        other = name_of_16(record.segname) != segment.record.name
        yield laid.kind != OBJECT and other, "section-of-other", owner, 0, 0, of
        yield from slot_rows(laid, it)
    yield from shared("sections-share-memory", [section.memory for section in laid.sections if section.has_addresses])


def slot_rows(laid, section):
    """Gives the row of the symbols of a section's slots, if it has slots."""
    record = section.record
    if laid.dysymtab is None or section.type not in SLOT_TYPES or record.size == 0:
        return
    unit, count = record.reserved2 if section.type == STUBS else laid.image.pointer, laid.dysymtab.body.nindirectsyms
    if unit == 0 or record.size % unit:
        yield True, "indirect-section", section.owner, record.size, unit
    else:
        end = record.reserved1 + record.size // unit
        yield end > count, "indirect-section", section.owner, end, count


# ---- symbols

def is_stab(symbol):
    return symbol.n_type & 0xE0 != 0


def is_external(symbol):
    return symbol.n_type & 1 != 0


def is_imported(symbol):
    return symbol.n_type & 0xE in (0, 0xC)


def symbol_rows(laid):
    if laid.symtab is None:
        return
    start, size, libraries = laid.symtab.body.stroff, laid.symtab.body.strsize, laid.library_count
    sections = sum(segment.record.nsects for segment in laid.segments)
    last_zero = laid.data.rfind(b"\0", start, start + size) - start if laid.lies_in_file(start, size) else size
    named = laid.final and laid.image.header.flags & TWO_LEVEL
    for it, owner in laid.symbols:
        plain, kind, ordinal = not is_stab(it), it.n_type & 0xE, it.n_desc >> 8
        defined = plain and kind == 0xE
        beyond = (defined or it.n_type in STABS_OF_SECTIONS) and it.n_sect > sections
        yield beyond or defined and it.n_sect == 0, "symbol-section", owner, it.n_sect, sections
        unnamed = it.n_strx and (it.n_strx >= size or it.n_strx > last_zero)
        of_other = it.n_type & 0xEE == 0xA and it.n_value >= size
        yield unnamed or of_other, "symbol-name", owner, it.n_strx if unnamed else it.n_value, size
        undefined = plain and is_external(it) and (kind == 0xC or kind == 0 and it.n_value == 0)
        yield named and undefined and libraries < ordinal < 0xFE, "symbol-library", owner, ordinal, libraries


# What a symbol has to be in each range of LC_DYSYMTAB.
KINDS = {
    "local": lambda symbol: not is_external(symbol) or is_stab(symbol) or symbol.n_type & 0x10,
    "extdef": lambda symbol: is_external(symbol) and (is_stab(symbol) or not is_imported(symbol)),
    "undef": lambda symbol: is_external(symbol) and is_imported(symbol) and not is_stab(symbol),
}


def symbol_range_rows(laid):
    if laid.dysymtab is None or laid.symtab is None:
        return
    body, place, in_table, in_order = laid.dysymtab.body, 0, True, None
    for index, (name, belongs) in enumerate(KINDS.items()):
        first, count, owner = getattr(body, f"i{name}sym"), getattr(body, f"n{name}sym"), ("symbol-ranges", laid.dysymtab.offset, index)
        beyond = count > 0 and first + count > laid.nsyms
        yield beyond, "symbol-range", owner, first + count, laid.nsyms
        strange = next((pair for pair in laid.symbols[first:first + count] if not belongs(pair[0])), None)
        if strange:
            yield True, "symbol-range-kind", strange[1], strange[0].n_type, 0
        in_table = in_table and not beyond
        in_order = in_order or (count > 0 and first != place and (True, "symbol-range-order", owner, first, place))
        place += count
    end = (place != laid.nsyms, "symbol-range-order", ("symbol-ranges", laid.dysymtab.offset, 3), laid.nsyms, place)
    if in_table:
        yield in_order or end


def indirect_rows(laid):
    body = laid.dysymtab.body if laid.dysymtab else None
    if body is None or not laid.lies_in_file(body.indirectsymoff, 4 * body.nindirectsyms):
        return
    for index in range(body.nindirectsyms):
        entry = number(laid.data, body.indirectsymoff + 4 * index, 4, laid.image.order)
        owner = ("indirect-symbols", laid.dysymtab.offset, index)
        yield laid.nsyms <= entry < 0x40000000, "indirect-symbol", owner, entry, laid.nsyms


# ---- data in code

def data_rows(laid):
    command = laid.last("LC_DATA_IN_CODE")
    if command is None or not laid.lies_in_file(command.body.dataoff, command.body.datasize):
        return
    entries = laid.records(DATA_IN_CODE, "data-in-code", command, command.body.dataoff, command.body.datasize // DATA_IN_CODE.size)
    code = [segment.memory for segment in laid.executable if segment.record.vmsize]
    whole = Range(min((it.start for it in code), default=0), max((it.end for it in code), default=0), None)
    before, other = None, None
    for it, owner in entries:
        start = laid.image.base() + it.offset
        inside = code and within(Range(start, start + it.length, owner), whole)
        yield it.length and not inside, "data-out-of-code", owner, start, whole.end
        end = before.offset + before.length if before else 0
        shares = before and before.length and it.length and it.offset < end and before.offset < it.offset + it.length
        yield shares, "data-shared", owner, it.offset, end, other
        before, other = it, owner


SUBJECTS = (header_rows, command_rows, text_rows, entry_rows, claim_rows, segment_rows, section_rows, symbol_rows, symbol_range_rows,
            indirect_rows, stream_rows, chain_rows, data_rows)


def layout(image, _):
    """Gives the faults of the file that begins with the image."""
    laid = Laid(open_image(image.data[image.offset:], 0, image.lossy) if image.offset else image)
    return fault_lines((row for subject in SUBJECTS for row in subject(laid)), RULES)


LISTS = {"layout": layout}
