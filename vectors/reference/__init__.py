"""A second reader of Mach-O files, which confirms the answers of the vectors.

It follows the pages docs/FORMAT-*.md alone, for `security` docs/PROGRAMS.md, and for `resolve` and `audit` the definitions of
crates/mach_resolve/specs and crates/mach_audit/specs. It shares no code with the library. `answer(vector)` is the answer to a vector.
"""

from . import audited, chains, entitlements, files, hardened, image, layout, names, opcodes, requirements, resolved, signature, tables, trie
from .reading import MOST_WORK, Fault, GaveUp, Work, limited

# Calls that get an opened image and the vector. Those of LISTS give the lines of a list, and those of SINGLES give a line.
LISTS = {**image.LISTS, **tables.LISTS, **trie.LISTS, **opcodes.LISTS, **chains.LISTS, **signature.LISTS, **layout.LISTS, **requirements.LISTS,
         **entitlements.LISTS, **hardened.LISTS}
SINGLES = {**tables.SINGLES, **trie.SINGLES, **signature.SINGLES}
# The same for calls that get the bytes of a file and the vector.
FILE_LISTS = {**files.LISTS, **names.LISTS, **resolved.LISTS, **audited.LISTS}
FILE_SINGLES = {**files.SINGLES}


def answer(vector):
    """Returns the lines of the answer; None for a call that this reader doesn't answer, or if it gives up."""
    Work.left = MOST_WORK
    try:
        return list(_lines(vector))
    except Fault as fault:
        return [fault.line()]
    except GaveUp:
        return None


def _lines(vector):
    if vector.call in FILE_SINGLES:
        return [FILE_SINGLES[vector.call](vector.bytes(), vector)]
    if vector.call in FILE_LISTS:
        return _list(FILE_LISTS[vector.call](vector.bytes(), vector))
    if vector.call not in LISTS and vector.call not in SINGLES:
        raise GaveUp
    opened = image.open_image(vector.bytes(), vector.offset, vector.mode == "lossy")
    if vector.call in SINGLES:
        return [SINGLES[vector.call](opened, vector)]
    return _list(LISTS[vector.call](opened, vector))


def _list(items):
    """Yields the lines of a list. A fault that is an item has a line, and a fault that is raised ends the list. `end` doesn't follow a
    fault."""
    is_fault = False
    try:
        for item in limited(items):
            is_fault = isinstance(item, Fault)
            yield item.line() if is_fault else item
        if not is_fault:
            yield "end"
    except Fault as fault:
        yield fault.line()
