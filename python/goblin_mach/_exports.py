"""The exports of an image: a walk over their trie, in memory that grows as the walk requests more, and the look-up of one name."""

from __future__ import annotations

import ctypes
from ctypes import byref, c_char, sizeof
from typing import Any, Callable, Iterator, Optional, Tuple

from . import _structs as s
from ._library import lib, refused
from ._memory import Held, text
from ._rows import BATCH
from .items import Export

EXPORTS = (None, "address", "re-export", "stub")
REEXPORT, STUB = 2, 3
MORE, END, NO_ROOM, NAME_SHORT, STACK_SHORT, REFUSED = range(6)
_ROW = s.unpacker(s.gm_listed_export)
_NODE = sizeof(s.gm_open_node)


class _Room:
    """The buffers of a walk, which grow as it requests more."""

    def __init__(self) -> None:
        self.walk, self.batch = s.gm_export_walk(), s.gm_export_batch()
        self.out = ctypes.create_string_buffer(BATCH * _ROW.size)
        self.name, self.names, self.stack = (c_char * 256)(), (c_char * 65536)(), (c_char * (64 * _NODE))()

    def numbers(self) -> s.gm_export_room:
        at = ctypes.addressof
        return s.gm_export_room(at(self.name), len(self.name), at(self.stack), len(self.stack) // _NODE,
                                at(self.out), BATCH, at(self.names), len(self.names))

    def grow(self) -> None:
        end, count = self.batch.end, 2 * self.batch.needed
        if end == NAME_SHORT:
            self.name = _longer(self.name, count)
        elif end == STACK_SHORT:
            self.stack = _longer(self.stack, count * _NODE)
        if end == NO_ROOM or len(self.names) < 16 * len(self.name):
            self.names = (c_char * max(count, 16 * len(self.name)))()


def _longer(old: ctypes.Array[c_char], count: int) -> ctypes.Array[c_char]:
    """Returns a longer buffer that begins with the old contents."""
    new = (c_char * count)()
    ctypes.memmove(new, old, len(old))
    return new


def _places(kind: int, address: int, offset: int, resolver: int) -> Tuple[Optional[int], Optional[int], Optional[int]]:
    """Returns the address, the offset and the resolver's address of an export of a kind, each if it has one."""
    return None if kind == REEXPORT else address, None if kind == REEXPORT else offset, resolver if kind == STUB else None


def exports(live: Callable[[], Held], numbers: Any, libraries: Callable[[], Callable[[int], str]]) -> Iterator[Export]:
    """Yields all exports, in the order of the trie. `libraries` returns a function that gives the name of a library by its ordinal."""
    held, known, new = live(), None, tuple.__new__
    life, view = held.life, held.view
    for room in _batches(held, numbers):
        names = bytes(memoryview(room.names)[:room.batch.names_len])
        rows = memoryview(room.out)[:room.batch.count * _ROW.size]
        for name, name_len, library, target, address, offset, resolver, flags, _, target_len, kind, _ in _ROW.iter_unpack(rows):
            words, brought, there = names[name:name + name_len].decode("utf-8", "surrogateescape"), None, None
            if kind == REEXPORT:
                if known is None:
                    known = libraries()
                brought, there = known(library), text(view[target:target + target_len]) or words
            yield new(Export, (words, EXPORTS[kind], *_places(kind, address, offset, resolver), flags, brought, there))
            if life.closed:
                life.check()


def errors(live: Callable[[], Held], numbers: Any) -> Iterator[None]:
    """Yields nothing, since no export is built. Raises `Refused` if the trie has a fault, or if two of its paths lead to one node. Visits
    each node once."""
    code, error = are_a_tree(live(), numbers)
    if code:
        raise refused(error)
    yield from ()


def _batches(held: Held, numbers: Any) -> Iterator[_Room]:
    """Yields the buffers of a walk after each call. A fault of the trie raises `Refused` after the batch before it."""
    room, error = _Room(), s.gm_error()
    while True:
        held.life.check()
        code = lib.gm_exports(held.at, held.len, numbers, byref(room.walk), byref(room.numbers()), byref(room.batch), None, byref(error))
        yield room
        if code:
            raise refused(error)
        if room.batch.end == END:
            return
        if room.batch.end != MORE:
            room.grow()


def find_export(held: Held, numbers: Any, name: str) -> Optional[Export]:
    """Returns the export of a name from the image, or None."""
    raw, found, error, size = name.encode("utf-8", "surrogateescape"), s.gm_export(), s.gm_error(), 256
    while True:
        library, target = ctypes.create_string_buffer(size), ctypes.create_string_buffer(size)
        if lib.gm_find_export(held.at, held.len, numbers, raw, len(raw), byref(found), library, size, target, size, None, byref(error)):
            raise refused(error)
        needed = max(found.library_len, found.target_len)
        if needed <= size:
            break
        size = needed
    kind = EXPORTS[found.kind]
    if kind is None:
        return None
    places = _places(found.kind, found.address, found.offset, found.resolver)
    if found.kind != REEXPORT:
        return Export(name, kind, *places, found.flags, None, None)
    there = text(target.raw[:found.target_len]) or name
    return Export(name, kind, *places, found.flags, text(library.raw[:found.library_len]), there)


def are_a_tree(held: Held, numbers: Any) -> Tuple[int, s.gm_error]:
    """Returns the code of the answer, and its text."""
    error = s.gm_error()
    return int(lib.gm_exports_are_a_tree(held.at, held.len, numbers, None, byref(error))), error
