"""The fields of load commands, which the library reads."""

from __future__ import annotations

import ctypes
import uuid
from typing import Any, Dict, Iterable, List, Tuple

from . import _structs as s
from ._library import lib
from ._memory import Held, name_in
from ._rows import Kind, Rows

NAME, TEXT, UUID = 6, 7, 8
"""The kinds of fields that have bytes: GM_FIELD_NAME and its like in c/include/goblin_mach.h."""

MOST = 18
"""No command has more fields (GM_COMMAND_FIELDS)."""


def _values(held: Held, raws: Iterable[Tuple[Any, ...]], first: int) -> List[Tuple[str, Any]]:
    """Returns the fields of a command, each with its value. A text is followed by its offset."""
    found: List[Tuple[str, Any]] = []
    for raw, number, place, size, kind, _, has_bytes, _ in raws:
        name, value = name_in(raw), number
        if kind == UUID:
            value = uuid.UUID(bytes=bytes(held.view[place:place + size]))
        elif kind in (NAME, TEXT):
            value = held.text(place, size) if has_bytes else None
        found.append((name, value))
        if kind == TEXT:
            found.append((name + "_offset", number))
    return found


FIELDS = Kind(lib.gm_command_fields, s.gm_command_field, _values)


def fields_of(cmd: int, data: memoryview) -> Dict[str, Any]:
    """Returns the fields of the record of a command with these bytes, as far as they hold them. The byte order is the one in which they
    begin with the command's number. A text that isn't in the command is None."""
    held = Held(data)
    image = s.gm_image(is_little_endian=held.view[:4] == cmd.to_bytes(4, "little"))
    command = s.gm_command(size=held.len, cmd=cmd)
    return dict(Rows(FIELDS, held.live, (ctypes.byref(image), ctypes.byref(command)), end=MOST))
