"""Archives, which are static libraries: their members, and the symbols of their index."""

from __future__ import annotations

import ctypes
from typing import TYPE_CHECKING, Any, Callable, Iterator, List, Optional, Tuple, Union, overload

from . import _lists
from . import _structs as s
from ._library import lib, refused
from ._memory import Held, bytes_of
from ._rows import Rows
from .enums import Mode
from .errors import Refused, code_of
from .image import Image
from .items import ArchiveSymbol, Member

if TYPE_CHECKING:
    from _typeshed import ReadableBuffer

KINDS = ("none", "gnu", "bsd", "thin")
IMAGE_MAGICS = {b"\xfe\xed\xfa\xce", b"\xfe\xed\xfa\xcf", b"\xce\xfa\xed\xfe", b"\xcf\xfa\xed\xfe"}


class Archive:
    """The archive in some bytes, a static library, which must not change while it is used. Raises `Refused` if they are no archive, or if
    its start can't be read. It has `len`, indices and slices of members; `archive["name"]` is the first member with a name, and raises
    KeyError if there is none. `kind` is how short names are written: "gnu" or "bsd"."""

    kind: str

    def __init__(self, data: Union[ReadableBuffer, Held]) -> None:
        self._held = data if isinstance(data, Held) else Held(data)
        held, kind, error = self._held.live(), ctypes.c_uint32(), s.gm_error()
        if lib.gm_archive_kind(held.at, held.len, ctypes.byref(kind), ctypes.byref(error)):
            raise refused(error)
        self.kind = KINDS[kind.value]
        if self.kind not in ("gnu", "bsd"):
            self._found(lib.gm_archive_member_named, b"")  # reports why these bytes are no archive

    def members(self) -> Rows[Member]:
        """Returns its members in order. The last item has an `error` if no more can be read."""
        return Rows(_lists.ARCHIVE_MEMBERS, self._held.live)

    def symbols(self) -> Rows[ArchiveSymbol]:
        """Returns the symbols of its index, or none without an index. The last item has an `error` if no more can be read."""
        return Rows(_lists.ARCHIVE_SYMBOLS, self._held.live)

    def _found(self, call: Callable[..., Any], name: bytes) -> Optional[Member]:
        held, found, error = self._held.live(), s.gm_archive_member(), s.gm_error()
        if call(held.at, held.len, name, len(name), ctypes.byref(found), ctypes.byref(error)):
            raise refused(error)
        return next(iter(_lists.ARCHIVE_MEMBERS.items_of(held, found))) if found.header else None

    def member(self, name: Union[str, bytes]) -> Optional[Member]:
        """Returns the first member with a name, or None. Raises `Refused` if a header before it can't be read."""
        return self._found(lib.gm_archive_member_named, bytes_of(name))

    def defining(self, symbol: Union[str, bytes]) -> Optional[Member]:
        """Returns the member that defines a symbol, by the index, or None. Raises `Refused` if the index or the member can't be read."""
        return self._found(lib.gm_archive_find, bytes_of(symbol))

    def image(self, member: Member, mode: int = Mode.STRICT) -> Image:
        """Returns the image of a member. One that can't be opened has an `error`."""
        held = self._held.live()
        why = None if member.error is None else Refused(code_of(member.error), member.error)
        return Image._of_part(Held(member.data, held.life), mode, member.offset, None, why)

    def images(self, mode: int = Mode.STRICT) -> Iterator[Tuple[Member, Image]]:
        """Yields the members that are images (they begin as one), each with its image. If no more members can be read, the last image says
        why."""
        for member in self.members():
            if member.error is not None or bytes(member.data[:4]) in IMAGE_MAGICS:
                yield member, self.image(member, mode)

    def __iter__(self) -> Iterator[Member]:
        return iter(self.members())

    def __len__(self) -> int:
        return len(self.members())

    @overload
    def __getitem__(self, index: Union[int, str, bytes]) -> Member: ...

    @overload
    def __getitem__(self, index: slice) -> List[Member]: ...

    def __getitem__(self, index: Union[int, str, bytes, slice]) -> Union[Member, List[Member]]:
        """Returns a member by its index or its name, or some by a slice."""
        if not isinstance(index, (str, bytes)):
            return self.members()[index]
        found = self.member(index)
        if found is None:
            raise KeyError(index)
        return found

    def __repr__(self) -> str:
        return f"<Archive {self.kind}, {self._held.len} bytes>"
