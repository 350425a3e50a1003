"""Whether a file is sound, and what is found in it. The definitions are those of crates/mach_audit/specs."""

from itertools import chain, islice

from . import chains, opcodes, trie
from .files import ARCHIVE, THIN, Archive, begins_as_image, container, fat_file, kind_of_file
from .image import open_image
from .layout import layout
from .reading import WORD, Fault, attempt, malformed, too_short
from .records import RELOCATION, SECTION, SEGMENT_SIZE, SYMBOL
from .signature import image_faults

MOST_KEPT = 10
NO_LIMIT = WORD - 1


# ---- parts of an image: an item is its place, with the fault if it can't be read

def begun(data, start, size, count):
    """Returns how many of `count` records of a size, from a place on, begin in the bytes."""
    return min(count, max(-((start - len(data)) // size), 0))


def items_of(word, records):
    """Gives an item for each record."""
    for index, record in enumerate(records):
        yield f"{word} {index}", record if isinstance(record, Fault) else None


def items_to_fault(word, items):
    """Gives the items of a list up to the fault that ends it, which is the last."""
    index = 0
    try:
        for index, _ in enumerate(items, 1):
            yield f"{word} {index - 1}", None
    except Fault as fault:
        yield f"{word} {index}", fault


def part(word, items, limit):
    """Gives what is found in the first items of a part, and whether there are more."""
    items = iter(items)
    faults = [(place, fault) for place, fault in islice(items, limit) if fault]
    yield from (f"item {place} {fault.line()}" for place, fault in faults[:MOST_KEPT])
    if len(faults) > MOST_KEPT:
        yield f"more {word} {len(faults) - MOST_KEPT}"
    if next(items, None):
        yield f"limit-met {word}"


def records(word, items, claimed, there, limit):
    """Gives what is found in records, of which some are there and more may be claimed."""
    yield from part(word, items, limit)
    if claimed > there:
        yield f"past-the-end {word} {min(claimed - there, WORD - 1)}"


def section_findings(image, limit):
    layout_of = SECTION[image.is_64]
    counts = [begun(image.data, segment.offset + SEGMENT_SIZE[image.is_64], layout_of.size, segment.nsects) for segment in image.segments]
    items = chain.from_iterable(items_of(f"sections {of}", (image.numbered_section(of, index).record for index in range(count)))
                                for of, count in enumerate(counts))
    return records("sections", items, sum(segment.nsects for segment in image.segments), sum(counts), limit)


def relocation_findings(image, limit):
    found = [(section, section.record.reloff, section.record.nreloc) for section in image.numbered_sections()]
    counts = [begun(image.data, start, RELOCATION.size, count) for _, start, count in found]
    items = chain.from_iterable(
        items_of(f"relocations {section.segment} {section.section}",
                 (attempt(RELOCATION.read, image.data, start + RELOCATION.size * index, image.order) for index in range(count)))
        for (section, start, _), count in zip(found, counts))
    return records("relocations", items, sum(count for _, _, count in found), sum(counts), limit)


def symbol_findings(image, limit):
    table = image.symtab
    count = begun(image.data, table.symoff, SYMBOL[image.is_64].size, table.nsyms) if table else 0
    items = items_of("symbols", (attempt(image.symbol, index) for index in range(count)))
    return records("symbols", items, table.nsyms if table else 0, count, limit)


def signature_findings(image):
    try:
        faults = list(image_faults(image, None))
    except Fault as fault:
        yield f"unreadable {fault.line()}"
        return
    yield from (line.replace("fault", "signature", 1) for line in faults[:MOST_KEPT])
    if len(faults) > MOST_KEPT:
        yield f"more signature {len(faults) - MOST_KEPT}"


def layout_findings(lines):
    return (line.replace("fault", "layout", 1) for line in lines)


def part_findings(image, limit):
    limit = min(limit, len(image.data))
    sections = list(section_findings(image, limit))
    yield from sections
    if not sections:
        yield from relocation_findings(image, limit)
    yield from symbol_findings(image, limit)
    for word, items in (("exports", trie.walk(image, None)), ("imports", opcodes.iter_imports(image, None)),
                        ("fixups", chains.fixups(image, None)), ("bindings", chains.all_bindings(image))):
        yield from part(word, items_to_fault(word, items), limit)
    yield from signature_findings(image)
    yield from layout_findings(layout(image, None))


# ---- images, archives and fat files: a finding is its place, and what is found

def image_findings(data, limit, opens):
    """Gives what is found in an image. `opens` raises the fault for which the bytes don't open strictly."""
    try:
        opens(data)
    except Fault as fault:
        lossy = attempt(open_image, data, 0, True)
        yield f"{'refused' if isinstance(lossy, Fault) else 'lossy'} {fault.line()}"
        if not isinstance(lossy, Fault):
            yield from part_findings(lossy, limit)
    else:
        yield from part_findings(open_image(data), limit)


def archive_findings(data, limit, at):
    """Gives what is found in the members of an archive. The fault that ends them counts as one."""
    archive = attempt(Archive, data)
    if isinstance(archive, Fault):
        yield at, f"archive {archive.line()}"
        return
    members = archive.members()
    for count in range(limit):
        member = attempt(next, members, None)
        if member is None:
            return
        if isinstance(member, Fault):
            yield at, f"archive {member.line()}"
            return
        yield from ((f"{at} member {count}", found) for found in image_findings(archive.bytes(member), limit, open_image))
    if attempt(next, members, None) is not None:
        yield at, "limit-met members"


def open_entry(data):
    """Opens the image of an entry. Bytes that begin as no image, or are fewer than 16, are malformed."""
    if len(data) < 16 or not begins_as_image(data):
        raise malformed()
    open_image(data)


def entry_findings(data, limit, at):
    if len(data) >= 16 and data[:8] == ARCHIVE:
        return archive_findings(data, limit, at)
    return ((at, found) for found in image_findings(data, limit, open_entry))


def table_of(fat):
    """Reads the records of a fat file, or raises the fault for which its table can't be read."""
    if fat.count > len(fat.data) // fat.arch.size:
        raise too_short(fat.count, "arches")
    return list(fat.records())


def fat_findings(fat, limit):
    table = attempt(table_of, fat)
    if isinstance(table, Fault):
        yield "", f"table {table.line()}"
    else:
        yield from (("", found) for found in layout_findings(container(fat.data, None)))
    if fat.count == 0:
        yield "", "no-entries"
    if isinstance(table, Fault):
        return
    left, count = len(fat.data), 0
    for arch in table[:limit]:
        entry = fat.slice(arch)
        left -= len(entry)
        if left < 0:
            break
        yield from entry_findings(entry, limit, f" entry {count}")
        count += 1
    if count < fat.count:
        yield "", "limit-met entries"


def findings(data, limit):
    if data[:8] in (ARCHIVE, THIN):
        return archive_findings(data, limit, "")
    fat = fat_file(data)
    if fat and len(data) >= 8:
        return fat_findings(fat, limit)
    return (("", found) for found in image_findings(data, limit, lambda it: kind_of_file(it, False, archives=False)))


def audit(data, vector):
    verdict = "sound"
    for at, found in findings(data, vector.number if vector.numbers else NO_LIMIT):
        yield f"finding{at} {found}"
        is_met = found.startswith("limit-met ")
        verdict = "unended" if is_met and verdict != "faulty" else "faulty"
    yield f"verdict {verdict}"


LISTS = {"audit": audit}
