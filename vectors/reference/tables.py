"""Tables that commands place or hold, slots, and sections looked up (docs/FORMAT-IMAGE.md, parts 6, 7 and 8)."""

from .image import placed
from .providers import provider_of
from .reading import WORD, Fault, attempt, malformed, number, quoted, read, require, text, uleb
from .records import BUILD_TOOL, DATA_IN_CODE

SLOT_KINDS = {6: "pointer", 7: "lazy-pointer", 8: "stub", 0x10: "lazy-library-pointer", 0x14: "thread-local-pointer"}
STUBS = 8
SPECIAL_ENTRIES = {0x80000000: "local", 0x40000000: "absolute", 0xc0000000: "local-absolute"}
MH_TWOLEVEL = 0x80


def function_starts(image, _):
    body = image.last("LC_FUNCTION_STARTS")
    if not body:
        return
    place, end = body.dataoff, body.dataoff + body.datasize
    data, address = image.data[:end], image.base()
    while place < end:
        distance, place = uleb(data, place)
        if distance == 0:
            return
        address += distance
        require(address < WORD)
        yield f"start {address:#x}"


def data_in_code(image, _):
    body = image.last("LC_DATA_IN_CODE")
    for index in range(body.datasize // 8 if body else 0):
        item = attempt(DATA_IN_CODE.read, image.data, body.dataoff + 8 * index, image.order)
        yield item if isinstance(item, Fault) else f"data {item.offset:#x} length {item.length} kind {item.kind}"


def linker_options(image, _):
    for command in image.of("LC_LINKER_OPTION"):
        place, end = command.offset + 12, min(len(image.data), command.offset + command.cmdsize)
        for _ in range(command.body.dataoff):
            require(place < end)
            option = text(image.data, place, end)
            place += len(option) + 1
            require(place <= end)
            yield f"option {quoted(option)} of {command.offset:#x}"


def build_tools(image, _):
    for command in image.of("LC_BUILD_VERSION"):
        for index in range(command.body.ntools):
            place = 24 + BUILD_TOOL.size * index
            require(place + BUILD_TOOL.size <= command.cmdsize)
            tool = BUILD_TOOL.read(image.data, command.offset + place, image.order)
            yield f"tool {tool.tool} version {tool.version:#x} of {command.offset:#x}"


def notes(image, _):
    return (attempt(note, image, command) for command in image.of("LC_NOTE"))


def note(image, command):
    body = command.body
    owner = quoted(text(body.data_owner, 0))
    if body.size:
        read(memoryview(image.data), body.offset, body.size)
    place = f" at {body.offset:#x}" if body.size else ""
    return f"note {owner}{place} size {body.size} of {command.offset:#x}"


def entry(image, table, index):
    """Reads an entry of the table of indirect symbols: a symbol's number, or the words for an entry that is no symbol."""
    word = number(image.data, table.indirectsymoff + 4 * index, 4, image.order)
    return SPECIAL_ENTRIES.get(word, word)


def indirect_symbols(image, _):
    table = image.last("LC_DYSYMTAB")
    for index in range(table.nindirectsyms if table else 0):
        item = attempt(entry, image, table, index)
        yield item if isinstance(item, Fault) else f"indirect {item}"


def slot_size(image, record):
    return record.reserved2 if record.flags & 0xff == STUBS else image.pointer


def has_slots(section):
    return not isinstance(section.record, Fault) and section.record.flags & 0xff in SLOT_KINDS and section.record.size > 0


def slot_entry(image, table, record, index):
    """Returns the address of a slot and its entry. A fault of these ends the slots of the section."""
    address = record.addr + index * slot_size(image, record)
    require(address < WORD)
    require(record.reserved1 + index < table.nindirectsyms)
    return address, entry(image, table, record.reserved1 + index)


def slot_line(image, section, index, address, of):
    """Returns the line of a slot. A fault of its symbol is a fault of this slot alone."""
    if not isinstance(of, str):
        require(image.symtab and of < image.symtab.nsyms)
        of = f"{of} {quoted(image.symbol(of)[1])}"
    record = section.record
    return (f"slot {SLOT_KINDS[record.flags & 0xff]} at {address:#x} size {slot_size(image, record)} segment {section.segment} "
            f"section {section.section} index {record.reserved1 + index} of {of}")


def slots_of(image, table, section):
    size = slot_size(image, section.record)
    if size == 0:
        yield malformed()
        return
    for index in range(section.record.size // size):
        found = attempt(slot_entry, image, table, section.record, index)
        if isinstance(found, Fault):
            yield found
            return
        yield attempt(slot_line, image, section, index, *found)


def slots(image, _):
    table = image.last("LC_DYSYMTAB")
    for section in image.numbered_sections() if table else ():
        if isinstance(section.record, Fault):
            yield section.record
        elif has_slots(section):
            yield from slots_of(image, table, section)


def holds(section, address):
    return (not isinstance(section.record, Fault)
            and section.record.addr <= address < section.record.addr + section.record.size)


def slot_at(image, vector):
    table = image.last("LC_DYSYMTAB")
    section = next((section for section in image.readable_sections() if has_slots(section) and holds(section, vector.address)),
                   None)
    if not table or not section:
        return "none"
    size = slot_size(image, section.record)
    require(size)
    index = (vector.address - section.record.addr) // size
    if index >= section.record.size // size:
        return "none"
    return slot_line(image, section, index, *slot_entry(image, table, section.record, index))


def provider(image, record):
    """Returns the line for the library that the linker wrote down for an undefined symbol."""
    kind = record.n_type & 0x0e
    undefined = not record.n_type & 0xe0 and (kind == 0x0c or kind == 0 and record.n_value == 0)
    if not image.header.flags & MH_TWOLEVEL or not undefined:
        return "none"
    ordinal = record.n_desc >> 8
    return f"provider {provider_of({0xfe: -2, 0xff: -1}.get(ordinal, ordinal), image.libs)}"


def providers(image, _):
    for item in image.symbols():
        yield item if isinstance(item, Fault) else attempt(provider, image, item[0])


def found(section):
    if isinstance(section.record, Fault):
        raise section.record
    record = section.record
    return (f"found {placed(record)} segment {section.segment} section {section.section} at {record.addr:#x} "
            f"size {record.size:#x} offset {record.offset:#x} align {record.align} relocations {record.nreloc} at "
            f"{record.reloff:#x} flags {record.flags:#x} reserved {record.reserved1:#x} {record.reserved2:#x}")


def section_at(image, vector):
    return next((found(section) for section in image.readable_sections() if holds(section, vector.address)), "none")


def numbered(image, wanted):
    """Returns the section of a number, which counts the sections of all segments from 1, or None."""
    left = wanted - 1
    for index, segment in enumerate(image.segments):
        if 0 <= left < segment.nsects:
            return image.numbered_section(index, left)
        left -= segment.nsects
    return None


def section_of(image, vector):
    section = numbered(image, vector.number)
    return "none" if section is None else found(section)


def strings(image, vector):
    """Yields the strings of the section of a number. The last may lack its zero."""
    section = numbered(image, vector.number)
    if section is None:
        yield "none"
        return
    if isinstance(section.record, Fault):
        raise section.record
    place = 0
    held = image.section_data(section.record)
    while place < len(held):
        string = bytes(held[place:]).split(b"\0", 1)[0]
        yield f"string {place:#x} {quoted(string)}"
        place += len(string) + 1


LISTS = {"function-starts": function_starts, "data-in-code": data_in_code, "linker-options": linker_options,
         "build-tools": build_tools, "notes": notes, "indirect-symbols": indirect_symbols, "slots": slots,
         "providers": providers, "strings": strings}
SINGLES = {"slot-at": slot_at, "section-at": section_at, "section-of": section_of}
