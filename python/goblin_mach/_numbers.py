"""What all numbers with names have in common.

The fields of items and images are plain `int`s, as in the file. A property of each gives the enum: `command.cmd` is 25, and
`command.load_command` is `LoadCommand.SEGMENT_64`. A list looks up no names that nobody uses. The values that are printed, compared or
pickled are numbers in every version of Python. A number without a name is no error. The property always returns an enum. For a number
without a name that is one named after it, such as `LoadCommand.UNKNOWN_0x99`. It equals the number, and isn't stored. A file can't make
the tables grow."""

from __future__ import annotations

import operator
from enum import IntEnum, IntFlag
from typing import Any, Tuple, Type, TypeVar, cast

E = TypeVar("E", bound="Number")
F = TypeVar("F", bound="Flags")


class Number(IntEnum):
    """A number with a name. Every number is accepted."""

    @classmethod
    def of(cls: Type[E], number: int) -> E:
        """Returns the member of a number, with a name or without."""
        number = operator.index(number)
        member = cls._value2member_map_.get(number)
        return cls._unnamed(number) if member is None else cast(E, member)

    @classmethod
    def _unnamed(cls: Type[E], number: int) -> E:
        member = int.__new__(cls, number)
        member._name_ = f"UNKNOWN_{'-' if number < 0 else ''}0x{abs(number):x}"
        member._value_ = number
        return member

    @classmethod
    def _missing_(cls, value: object) -> Any:
        return cls._unnamed(value) if isinstance(value, int) else None

    @property
    def is_known(self) -> bool:
        """Whether the number has a name."""
        return self._value_ in type(self)._value2member_map_

    def __reduce_ex__(self, protocol: Any) -> Any:
        return type(self).of, (self._value_,)

    def __copy__(self: E) -> E:
        return self

    def __deepcopy__(self: E, memo: Any) -> E:
        return self


class Flags(IntFlag):
    """Bits with names. Every bit is accepted."""

    @classmethod
    def of(cls: Type[F], number: int) -> F:
        """Returns the flags of a number. Bits without a name are kept."""
        return cls(operator.index(number))

    @classmethod
    def _missing_(cls, value: object) -> Any:
        member = super()._missing_(value)
        cls._value2member_map_.pop(member._value_, None)  # Python stores every sum of flags that was ever looked up
        return member

    @property
    def names(self) -> Tuple[str, ...]:
        """The names of the bits that are set, lowest first. A bit without a name appears as its number."""
        known = {member.value: name for name, member in reversed(list(type(self).__members__.items()))}
        bits = (1 << k for k in range(int(self).bit_length()))
        return tuple(known.get(bit, f"0x{bit:x}") for bit in bits if int(self) & bit)

    def __reduce_ex__(self, protocol: Any) -> Any:
        return type(self).of, (self._value_,)

    def __copy__(self: F) -> F:
        return self

    def __deepcopy__(self: F, memo: Any) -> F:
        return self
