"""The entitlements of a signature, value by value."""

from __future__ import annotations

import ctypes
from typing import Any, Dict, List, Optional

from . import _structs as s
from ._library import lib, refused
from ._memory import Held, text

BOOLEAN, NATURAL, NEGATIVE, DATE, TEXT, REAL, ARRAY, DICTIONARY = range(1, 9)
"""The kinds of values, by C's numbers (GM_ENTITLEMENT_BOOLEAN and the following ones)."""


def _date(number: int) -> str:
    """Returns the text of a date, by its 14 digits."""
    digits = f"{number:014}"
    return f"{digits[:4]}-{digits[4:6]}-{digits[6:8]}T{digits[8:10]}:{digits[10:12]}:{digits[12:]}Z"


def _value(row: s.gm_entitlement_item, texts: bytes) -> Any:
    """Returns the value of a row; a group is still empty."""
    kind, number = row.kind, row.number
    if kind in (ARRAY, DICTIONARY):
        return [] if kind == ARRAY else {}
    if kind == TEXT:
        return text(texts[row.text:row.text + row.text_len])
    return {BOOLEAN: bool(number), NATURAL: number, NEGATIVE: number - 2 ** 64, DATE: _date(number)}.get(kind)


def _whole(rows: Any, texts: bytes) -> Dict[str, Any]:
    """Returns the dictionary of the first row, with the values of the others."""
    groups: List[Any] = [{}]
    for row in rows[1:]:
        value, group = _value(row, texts), groups[row.depth - 1]
        groups[row.depth:] = [value]
        if isinstance(group, dict):
            group.setdefault(text(texts[row.key:row.key + row.key_len]), value)
        else:
            group.append(value)
    outer: Dict[str, Any] = groups[0]
    return outer


def entitlements_of(held: Held, image: Any, is_der: bool) -> Optional[Dict[str, Any]]:
    """Returns the entitlements of an image's signature in DER or in XML, or None if there are none."""
    count, size, error = ctypes.c_uint64(), ctypes.c_uint64(), s.gm_error()
    rows, texts = (s.gm_entitlement_item * 0)(), ctypes.create_string_buffer(0)
    for _ in range(2):
        if lib.gm_entitlement_items(held.at, held.len, image, is_der, rows, len(rows), ctypes.byref(count), texts, len(texts), ctypes.byref(size), None,
                                    ctypes.byref(error)):
            raise refused(error)
        if len(rows) == count.value:
            break
        rows, texts = (s.gm_entitlement_item * count.value)(), ctypes.create_string_buffer(size.value)
    return _whole(rows, texts.raw) if rows else None
