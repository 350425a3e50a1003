"""What all items have in common: how they are shown, and their values for JSON."""

from __future__ import annotations

import json
import uuid
from typing import Any, Dict, Tuple


def _shown(value: object) -> str:
    """Returns a value as text: numbers in hexadecimal, and for bytes of the file how many they are."""
    if isinstance(value, int) and not isinstance(value, bool):
        return str(value) if -10 < value < 10 else hex(value)
    return f"<{len(value)} bytes>" if isinstance(value, memoryview) else repr(value)


def plain(value: Any) -> Any:
    """Returns a value as JSON takes it. An item becomes its dict. Bytes of the file (a `memoryview`) become hexadecimal, and a UUID its
    text."""
    if isinstance(value, Item):
        return value.to_dict()
    if isinstance(value, memoryview):
        return value.hex()
    return str(value) if isinstance(value, uuid.UUID) else value


class Item:
    """An item of a list: a tuple with names."""

    __slots__ = ()
    _optional: Tuple[str, ...] = ()
    """The fields with a name that is empty if there is none."""

    def to_dict(self: Any) -> Dict[str, Any]:
        """Returns its fields by their names, with values that `json.dumps` takes. Bytes are in hexadecimal, and an empty name of a segment or
        a section is None."""
        return {name: None if value == "" and name in self._optional else plain(value) for name, value in zip(self._fields, self)}

    def json(self) -> str:
        """Returns `to_dict()` as JSON, on one line."""
        return json.dumps(self.to_dict())

    def __repr__(self: Any) -> str:
        return f"{type(self).__name__}({', '.join(f'{name}={_shown(value)}' for name, value in zip(self._fields, self))})"
