"""What the dynamic linker writes into an image's memory. Each is an item, like those of `items`."""

from __future__ import annotations

from typing import NamedTuple, Optional

from ._item import Item


class Fixup(Item, NamedTuple("Fixup", [
    ("address", int), ("segment", int), ("offset", int), ("kind", str), ("target", int), ("import_number", int), ("addend", int),
    ("is_signed", bool), ("key", int), ("diversity", int), ("is_address_diverse", bool), ("error", Optional[str]),
])):
    """A pointer that dyld changes, at `address`: byte `offset` of the segment with index `segment`. `kind` is "rebase" (`target` is an
    address), "bind" (`import_number` counts from 0, and `addend` is added) or "number". If `is_signed`, `key`, `diversity` and
    `is_address_diverse` say how the pointer is signed. No fixup follows one with an `error`."""

    __slots__ = ()


class Import(Item, NamedTuple("Import", [
    ("name", str), ("library", int), ("address", int), ("offset", int), ("addend", int), ("size", int), ("start_of_sequence_offset", int),
    ("is_weak", bool), ("is_lazy", bool), ("error", Optional[str]),
])):
    """A symbol, `name`, that the image takes from the library with ordinal `library`: 0 is the image itself. Its address plus `addend` goes
    to the `size` bytes at `address`, which are at file offset `offset`. `is_weak` and `is_lazy` are those of the bind, whose opcodes
    begin at `start_of_sequence_offset`. No import follows one with an `error`."""

    __slots__ = ()


class Binding(Item, NamedTuple("Binding", [
    ("name", str), ("provider", str), ("library", int), ("address", int), ("offset", int), ("addend", int), ("is_weak", bool),
    ("is_lazy", bool), ("error", Optional[str]),
])):
    """A place, `address`, that takes the address of the symbol `name` plus `addend`. `provider` is "library" (`library` is its ordinal),
    "itself", "program", "any" or "any weak". `offset` is a file offset. `is_weak` and `is_lazy` are those of the bind. No binding
    follows one with an `error`."""

    __slots__ = ()


class WeakBind(Item, NamedTuple("WeakBind", [
    ("name", str), ("is_strong", bool), ("address", int), ("offset", int), ("addend", int), ("is_weak", bool), ("error", Optional[str]),
])):
    """A place, `address`, that takes the definition of a `name` that all images share, plus `addend`, whatever was bound there before. If
    `is_strong`, it is a name that the image itself defines, and not weakly; then it has no place. `offset` is a file offset. `is_weak`
    is that of the bind. No weak bind follows one with an `error`."""

    __slots__ = ()


class Rebase(Item, NamedTuple("Rebase", [
    ("address", int), ("segment", int), ("offset", int), ("kind", str), ("target", int), ("is_signed", bool), ("key", int),
    ("diversity", int), ("is_address_diverse", bool), ("error", Optional[str]),
])):
    """A place in memory, `address`, whose number dyld adjusts by the slide of the image: byte `offset` of the segment with index `segment`.
    `target` is the number before that. `kind` is "pointer", "absolute32" or "relative32" for 32 bits in code, or "none" for a fault. If
    `is_signed`, `key`, `diversity` and `is_address_diverse` say how the pointer is signed. No rebase follows one with an `error`."""

    __slots__ = ()
