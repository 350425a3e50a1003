"""An index of the symbols of an image by their addresses."""

from __future__ import annotations

import ctypes
from typing import TYPE_CHECKING, Optional

from . import _lists
from . import _structs as s
from ._library import bits64, lib, refused
from .items import FoundSymbol

if TYPE_CHECKING:
    from .image import Image


class SymbolMap:
    """What `image.symbol_at` answers, for many addresses. The symbols are read once and sorted, and each answer is a search in that order.
    It has a number of 8 bytes for each symbol that is defined in a section, and no names. `len` is how many symbols these are."""

    __slots__ = ("_image", "_order")

    def __init__(self, image: Image) -> None:
        held, count, error = image._live(), ctypes.c_uint64(), s.gm_error()
        room = (ctypes.c_uint64 * len(image.symbols().in_bounds()))()
        if lib.gm_symbol_map(held.at, held.len, image._pointer, room, len(room), ctypes.byref(count), None, ctypes.byref(error)):
            raise refused(error)
        self._image, self._order = image, (ctypes.c_uint64 * count.value).from_buffer_copy(room)

    def at(self, address: int) -> Optional[FoundSymbol]:
        """Returns the symbol that names an address, as `image.symbol_at` does, or None."""
        image, order = self._image, self._order
        found = image._looked_up(lib.gm_symbol_in_map, s.gm_found_symbol(), order, len(order), bits64(address))
        return _lists.found_symbol(image._live(), found)

    def __len__(self) -> int:
        return len(self._order)

    def __repr__(self) -> str:
        return f"<SymbolMap: {len(self)} symbols of {self._image!r}>"
