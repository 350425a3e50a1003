"""How an image is hardened: the verdicts of docs/PROGRAMS.md, machinfo."""

from .entitlements import DER, XML, Unreadable, content, entitlements
from .image import ARM64
from .reading import Fault, attempt, malformed, name_of_16, text
from .records import SECTION, SEGMENT_SIZE, SYMBOL
from .signature import signature_of

NO_HEAP_EXECUTION, PIE, STACK_EXECUTION = 0x1000000, 0x200000, 0x20000
CANARIES = (b"___stack_chk_fail\0", b"___stack_chk_guard\0")
UNDEFINED, OPTION = (0x0, 0xC), 0x3C
CMS = 0x10000
ATTACH = (b"get-task-allow", b"com.apple.security.get-task-allow")


def is_writable_code(protection):
    return protection & 6 == 6


def section_names(image, segment):
    """Yields the names of the sections that lie in the segment's command."""
    size, head = SECTION[image.is_64].size, SEGMENT_SIZE[image.is_64]
    for command in image.of("LC_SEGMENT", "LC_SEGMENT_64"):
        if command.offset == segment.offset:
            held = min(segment.nsects, (command.cmdsize - head) // size)
            for index in range(held):
                yield name_of_16(image.section(segment, index).sectname)


def is_restricted(image):
    return any(segment.name == b"__RESTRICT" and b"__restrict" in section_names(image, segment) for segment in image.segments)


def symbols(image):
    """Yields the record of each symbol that is in the bytes."""
    layout = SYMBOL[image.is_64]
    for index in range(image.symtab.nsyms if image.symtab else 0):
        record = attempt(layout.read, image.data, image.symtab.symoff + layout.size * index, image.order)
        if isinstance(record, Fault):
            return
        yield record


def has_canary(image):
    """Returns whether an undefined symbol has the name of a canary, with the zero byte that ends it."""
    return any(not record.n_type & 0xE0 and record.n_type & 0x0E in UNDEFINED and
               image.data[image.symtab.stroff + record.n_strx:].startswith(CANARIES) for record in symbols(image))


def is_stripped(image):
    """Returns whether there is no symbol that `strip` removes: a local one, or one for a debugger. One whose name can't be read isn't
    looked at."""
    kinds = (record.n_type for record in symbols(image)
             if not isinstance(attempt(text, image.data, image.symtab.stroff + record.n_strx), Fault))
    return not any(kind != OPTION if kind & 0xE0 else not kind & 1 for kind in kinds)


def of_image(image):
    header = image.header
    if not image.is_64:
        yield "no-heap-execution", header.flags & NO_HEAP_EXECUTION
    yield "pie", header.flags & PIE
    yield "stack-execution", header.flags & STACK_EXECUTION
    yield "pointer-authentication", header.cputype == ARM64 and header.cpusubtype & 0xFFFFFF == 2
    yield "stack-canary", has_canary(image)
    yield "writable-code", any(is_writable_code(segment.initprot) for segment in image.segments)
    yield "writable-code-allowed", any(is_writable_code(segment.maxprot) for segment in image.segments)
    yield "restricted", is_restricted(image)
    yield "chained-fixups", any(image.of("LC_DYLD_CHAINED_FIXUPS"))
    yield "relative-run-paths", any(not path.startswith((b"/", b"@")) for path in image.rpaths)
    yield "encrypted", any(command.body.cryptid for command in image.of("LC_ENCRYPTION_INFO", "LC_ENCRYPTION_INFO_64"))
    yield "stripped", is_stripped(image)


def lets_attach(signature):
    der = content(signature, DER)
    notation, data = (DER, der) if der else (XML, content(signature, XML))
    if not data:
        return False
    try:
        return any(key in ATTACH and value == ("boolean", True) for key, value in entitlements(notation, data)[1])
    except Unreadable:
        raise malformed() from None


OF_SIGNATURE = {
    "signed": lambda it: bool(it.directory()),
    "ad-hoc": lambda it: it.directory().flags & 0x2,
    "cms": lambda it: bool(content(it, CMS)),
    "hardened-runtime": lambda it: it.directory().flags & 0x10000,
    "library-validation": lambda it: it.directory().flags & 0x2000,
    "entitlements": lambda it: bool(content(it, XML) or content(it, DER)),
    "get-task-allow": lets_attach,
}


def security(image, _):
    for name, holds in of_image(image):
        yield f"verdict {name} {'yes' if holds else 'no'}"
    signed = attempt(signature_of, image)
    for name, verdict in OF_SIGNATURE.items():
        said = signed if isinstance(signed, Fault) else attempt(verdict, signed[0]) if signed else False
        yield f"verdict {name} " + (f"({said})" if isinstance(said, Fault) else "yes" if said else "no")


LISTS = {"security": security}
