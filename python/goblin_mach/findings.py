"""The audit of a file: what is found in it, and whether it is sound."""

from __future__ import annotations

import ctypes
from functools import lru_cache
from typing import TYPE_CHECKING, Any, NamedTuple, Optional, Tuple, Union

from . import _lists
from . import _structs as s
from ._item import Item
from ._library import bits64, lib, refused
from ._memory import Held
from .items import LayoutFault
from .signature import SignatureFault

if TYPE_CHECKING:
    from _typeshed import ReadableBuffer

VERDICTS = ("sound", "not sound: limit met", "not sound")
"""Whether a file is sound, in the words of `machaudit`, by C's numbers (GM_SOUND and the following ones)."""

LIMIT = 10_000_000
"""How many items of a list are visited at most, as in `machaudit`."""

NO_NUMBER = 2**64 - 1
_ROWS = 64
_LINES = {
    "refused": "opens: {0.error}",
    "lossy": "opens lossily: {0.error}",
    "table": "table: {0.error}",
    "no entries": "entries: no image",
    "archive": "archive: {0.error}",
    "item": "{0.list}: {1}: {0.error}",
    "more": "{0.list}: and {0.count} more",
    "past the end": "{0.list}: {0.count} more {0.list} past the end",
    "limit met": "{0.list}: limit met",
    "unreadable": "signature: {0.error}",
    "signature": "signature: {0.signature}",
    "layout": "layout: {0.layout}",
}


class Finding(Item, NamedTuple("Finding", [
    ("entry", Optional[int]), ("member", Optional[int]), ("kind", str), ("list", Optional[str]), ("segment", Optional[int]), ("section", Optional[int]),
    ("index", Optional[int]), ("count", Optional[int]), ("layout", Optional[LayoutFault]), ("signature", Optional[SignatureFault]),
    ("error", Optional[str]),
])):
    """What an audit found, of a `kind`: "refused", "lossy", "table", "no entries", "archive", "item", "more", "past the end", "limit met",
    "unreadable", "signature" or "layout". It is in the `entry` of a fat file and the `member` of an archive with these numbers, from 0. Of
    "item" there is the `list`, the `index` of the item in it, and the numbers of its `segment` and its `section`, if it is one or is in one. Of "more" and
    "past the end" there is the `count`. `layout` and `signature` are the fault. `error` says why something can't be read. As text it is a line."""

    __slots__ = ()

    def __str__(self) -> str:
        places = (("entry", self.entry), ("member", self.member))
        place = ", ".join(f"{name} {number}" for name, number in places if number is not None)
        return f"{place}: {self._line()}" if place else self._line()

    def _line(self) -> str:
        """Returns the line without its place."""
        return _LINES[self.kind].format(self, self._item() if self.kind == "item" else "")

    def _item(self) -> str:
        """Returns the place of an item that can't be read."""
        if self.list == "sections":
            return f"segment {self.segment}, section {self.index}"
        inside = f"segment {self.segment}, section {self.section}, " if self.list == "relocations" else ""
        return f"{inside}{str(self.list)[:-1]} {self.index}"


class Audit(NamedTuple):
    """The `verdict` on a file, one of `VERDICTS`, and the `findings`, in order: of a fat file its table and then its entries, of an archive its members,
    of an image its lists, its signature and its layout. As text it has a line for each, and then the verdict."""

    verdict: str
    findings: Tuple[Finding, ...]

    @property
    def is_sound(self) -> bool:
        """Whether the file is sound: nothing was found, and no list has more items than were visited."""
        return self.verdict == VERDICTS[0]

    def __str__(self) -> str:
        return "\n".join([*map(str, self.findings), self.verdict])


@lru_cache(maxsize=None)
def _kind(number: int) -> str:
    return str(lib.gm_finding_kind(number).decode())


@lru_cache(maxsize=None)
def _list(number: int) -> str:
    return str(lib.gm_finding_list(number).decode())


def _fields(row: Any) -> Tuple[int, ...]:
    return tuple(getattr(row, name) for name, *_ in row._fields_)


def _numbers(kind: str, row: s.gm_finding, list_name: str) -> Tuple[Optional[int], Optional[int], Optional[int]]:
    """Returns the numbers of the segment and the section of an item, and its own, each if it has one."""
    if kind != "item":
        return None, None, None
    return row.segment if list_name in ("sections", "relocations") else None, row.section if list_name == "relocations" else None, row.index


def _finding(held: Held, row: s.gm_finding) -> Finding:
    kind, name = _kind(row.kind), _list(row.list)
    entry, member = (None if number == NO_NUMBER else number for number in (row.entry, row.member))
    return Finding(
        entry, member, kind, name if row.list else None, *_numbers(kind, row, name), row.count if kind in ("more", "past the end") else None,
        _lists.layout_faults(held, [_fields(row.layout)], 0)[0] if kind == "layout" else None,
        _lists.signature_faults(held, [_fields(row.signature)], 0)[0] if kind == "signature" else None,
        refused(row.error).words if row.error.code else None,
    )


def _rows(held: Held, limit: int, cap: int) -> Tuple[Any, int, int]:
    """Returns the first rows of an audit, how many there are, and the number of the verdict."""
    rows, count, verdict, error = (s.gm_finding * cap)(), ctypes.c_uint64(), ctypes.c_uint32(), s.gm_error()
    if lib.gm_audit(held.at, held.len, limit, rows, cap, ctypes.byref(count), ctypes.byref(verdict), None, ctypes.byref(error)):
        raise refused(error)
    return rows, count.value, verdict.value


def audit(data: Union[ReadableBuffer, Held], limit: int = LIMIT) -> Audit:
    """Audits a file, which has these bytes, as `machaudit` does: an image, a fat file, an archive, or anything else, which is refused in a finding. Of
    each list it visits at most `limit` items, and of a list of an image no more than the image has bytes. Of a list and of a signature the first ten
    faults are findings, and one more says how many others there are. Raises `Refused` only if memory runs out."""
    held = (data if isinstance(data, Held) else Held(data)).live()
    visited = bits64(limit)
    rows, count, verdict = _rows(held, visited, _ROWS)
    if count > _ROWS:
        rows, count, verdict = _rows(held, visited, count)
    return Audit(VERDICTS[verdict], tuple(_finding(held, row) for row in rows[:count]))
