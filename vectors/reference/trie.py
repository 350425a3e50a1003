"""The export trie (docs/FORMAT-DYLD.md, part 1)."""

from collections import namedtuple

from .reading import WORD, limited, quoted, require, spend, text, too_short, uleb, words

REEXPORT, STUB = 0x08, 0x10
REGULAR_KIND, UNKNOWN_KIND = 0, 3

# A trie of an image: the bytes, the range's start and end, and the names of the libraries.
Trie = namedtuple("Trie", "data start end libs")
# An export: its address, or that of its stub; a stub's resolver; of a re-export the library and the name there, if one is given.
Export = namedtuple("Export", "flags address resolver library name")


def trie_of(image):
    """Returns the trie that the last command with one places. The range is empty without a command, or if it isn't in the bytes."""
    body = image.last("LC_DYLD_INFO", "LC_DYLD_INFO_ONLY", "LC_DYLD_EXPORTS_TRIE")
    if not body:
        return Trie(image.data, 0, 0, image.libs)
    # Both records end with the place and the size of the trie.
    start, size = body[-2:]
    return Trie(image.data, start, start + size, image.libs) if start + size <= len(image.data) else Trie(b"", 0, 0, [])


def read_info(trie, flags, place):
    """Reads what follows the flags of an export."""
    value, place = uleb(trie.data, place)
    kind = flags % 4
    if kind != UNKNOWN_KIND and flags & REEXPORT:
        name = text(trie.data, place)
        require(value < len(trie.libs))
        return Export(flags, None, None, trie.libs[value], name)
    if kind == REGULAR_KIND and flags & STUB:
        return Export(flags, value, uleb(trie.data, place)[0], None, None)
    return Export(flags, value, None, None, None)


def export_line(name, export):
    if export.library is not None:
        what = words(f"of {quoted(export.library)}", f"as {quoted(export.name)}" if export.name else "")
    elif export.resolver is not None:
        what = f"stub {export.address:#x} resolver {export.resolver:#x}"
    else:
        what = f"at {export.address:#x}"
    return f"export {quoted(name)} {what} flags {export.flags:#x}"


def read_node(trie, start):
    """Reads a node: its own export, or None, and its branches, as labels and the starts of children."""
    size, place = uleb(trie.data, start)
    own, branches = None, place + size
    if size:
        flags, place = uleb(trie.data, place)
        own = read_info(trie, flags, place)
        require(branches < WORD)
    return own, read_branches(trie, branches)


def read_branches(trie, place):
    count, place = uleb(trie.data, place)
    if count > len(trie.data):
        raise too_short(count, "branches")
    children = []
    for _ in range(count):
        label = text(trie.data, place)
        offset, place = uleb(trie.data, place + len(label) + 1)
        require(trie.start + offset < WORD)
        children.append((label, trie.start + offset))
    return children


def walk(image, _):
    """Yields all exports, depth first. Refuses a node that is met again."""
    trie, met = trie_of(image), set()
    opened = [(b"", b"", trie.start)]
    while opened:
        prefix, label, start = opened.pop()
        if start >= trie.end:
            continue
        require(start not in met)
        met.add(start)
        own, children = read_node(trie, start)
        name = prefix + label
        spend(len(name) // 16)
        if own:
            yield export_line(name, own)
        opened.extend((name, label, child) for label, child in reversed(children))


def exports(image, _):
    return list(limited(walk(image, None)))


def look_up(image, name):
    """Returns the export of a name, or None. Follows one branch as long as it alone fits and leads further on. After that it searches, and knows
    which nodes it has met."""
    trie, met = trie_of(image), None
    opened = [(name, trie.start)] if trie.start < trie.end else []
    while opened:
        rest, start = opened.pop()
        if met is not None:
            require(start not in met)
            met.add(start)
        own, children = read_node(trie, start)
        if own and not rest:
            return own
        fitting = [(rest[len(label):], child) for label, child in children if rest.startswith(label) and child < trie.end]
        if met is None and (len(fitting) > 1 or fitting and fitting[0][1] <= start):
            met = {start}
        opened.extend(reversed(fitting))
    return None


def find(image, vector):
    export = look_up(image, vector.wanted_name)
    return export_line(vector.wanted_name, export) if export else "none"


LISTS = {"exports": exports, "walk": walk}
SINGLES = {"find": find}
