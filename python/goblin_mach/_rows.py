"""Lists of items, which the library writes in batches."""

from __future__ import annotations

import ctypes
import operator
import struct
from typing import Any, Callable, Generic, Iterable, Iterator, List, Optional, Sequence, Tuple, Type, TypeVar, Union, overload

from ._library import refused
from ._memory import Held
from ._structs import code_unpacker, gm_error, unpacker
from .errors import ERRORS, Refused

T = TypeVar("T")
BATCH = 1000
"""How many items are requested from the library at a time."""

Decode = Callable[[Held, Iterable[Tuple[Any, ...]], int], List[T]]
"""Builds items from rows in some bytes; the first row has this index in the list."""

Table = Callable[[], Tuple[int, int, int]]
"""A table as in the file: the offset of its records, the size of one, and how many the file claims."""


def errors_of(held: Held, raws: Iterable[Tuple[Any, ...]], first: int) -> List[Optional[str]]:
    return [ERRORS.get(code) for code, in raws]


class Kind(Generic[T]):
    """A kind of list: the call that writes its rows, the struct of a row, and the function that builds items from rows."""

    __slots__ = ("call", "decode", "grows", "row", "struct")

    def __init__(self, call: Callable[..., Any], row: Type[ctypes.Structure], decode: Decode[T], grows: bool = False) -> None:
        self.call, self.decode, self.grows = call, decode, grows  # batches grow if a call reads what is before its first item
        self.struct, self.row = row, unpacker(row)

    def errors(self) -> Kind[Optional[str]]:
        """Returns the kind of the same list with the error of each item alone, or None. Nothing more of an item is built."""
        made: Kind[Optional[str]] = Kind(self.call, self.struct, errors_of, self.grows)
        made.row = code_unpacker(self.struct)
        return made

    def array(self, count: int) -> ctypes.Array[ctypes.c_char]:
        """Returns room for `count` rows."""
        return ctypes.create_string_buffer(count * self.row.size)

    def items(self, held: Held, array: ctypes.Array[ctypes.c_char], count: int, first: int) -> List[T]:
        """Returns the items of the first `count` rows of an array, whose indices begin with `first`."""
        return self.decode(held, self.row.iter_unpack(memoryview(array)[:count * self.row.size]), first)

    def each(self, held: Held, array: ctypes.Array[ctypes.c_char], count: int, first: int) -> Iterator[T]:
        """Yields the items of the first `count` rows of an array. At most 1,000 are built at a time."""
        rows = memoryview(array)[:count * self.row.size]
        for start in range(0, count, BATCH):
            part = rows[start * self.row.size:(start + BATCH) * self.row.size]
            yield from self.decode(held, self.row.iter_unpack(part), first + start)

    def items_of(self, held: Held, row: ctypes.Structure) -> List[T]:
        """Returns the item of one row, in a list."""
        return self.decode(held, self.row.iter_unpack(bytes(row)), 0)


class Rows(Generic[T]):
    """A list whose items have indices. It is an iterator, which runs once. It also has `len`, indices, slices and `in`. These request
    items anew, independently of the iterator. A list of records has an item for each number that the file claims: for a file that you
    don't trust use `in_bounds()`."""

    __slots__ = ("_end", "_given", "_kind", "_length", "_live", "_table", "_walk")

    def __init__(self, kind: Kind[T], live: Callable[[], Held], given: Sequence[Any] = (), length: Optional[Callable[[], int]] = None,
                 table: Optional[Table] = None, end: Optional[int] = None) -> None:
        self._kind, self._live, self._given, self._length, self._table, self._end = kind, live, given, length, table, end
        self._walk = self._items(0, None)

    def in_bounds(self) -> Rows[T]:
        """Returns the items whose record begins within the bytes, as a list of its own. A file may claim 2^32 records when it has few.
        Lists without a table of records are returned whole."""
        if self._table is None:
            return Rows(self._kind, self._live, self._given, self._length, None, self._end)
        held = self._live()
        start, size, count = self._table()
        end = min(count, len(range(start, held.len, size)))
        return Rows(self._kind, self._live, self._given, lambda: end, None, end)

    def errors(self) -> Rows[Optional[str]]:
        """Returns the `error` of each item, as a list of its own. Nothing more of the items is built, no name and no data."""
        return Rows(self._kind.errors(), self._live, self._given, self._length, self._table, self._end)

    def _items(self, first: int, end: Optional[int]) -> Iterator[T]:
        """Yields the items from an index on, up to `end` if it is given, in batches."""
        kind, held = self._kind, self._live()
        if self._end is not None:
            end = self._end if end is None else min(end, self._end)
        life, cap = held.life, BATCH if end is None else max(0, min(BATCH, end - first))
        array = kind.array(cap)
        while cap > 0:
            life.check()
            count = kind.call(held.at, held.len, *self._given, first, array, cap)
            for item in kind.each(held, array, count, first):
                yield item
                if life.closed:
                    life.check()
            if count < cap:
                return
            first += count
            room = 2 * cap if kind.grows else cap
            cap = room if end is None else min(room, end - first)
            if kind.grows:
                array = kind.array(max(cap, 0))

    def __iter__(self) -> Iterator[T]:
        return self._walk

    def __next__(self) -> T:
        return next(self._walk)

    def __len__(self) -> int:
        self._live()
        if self._table is not None:
            return self._table()[2]
        return sum(1 for _ in self._items(0, None)) if self._length is None else self._length()

    def __contains__(self, item: object) -> bool:
        # All items past the end are equal, so one of them is enough.
        end = None if self._table is None else len(self.in_bounds()) + 1
        return any(item == each for each in self._items(0, end))

    @overload
    def __getitem__(self, index: int) -> T: ...

    @overload
    def __getitem__(self, index: slice) -> List[T]: ...

    def __getitem__(self, index: Union[int, slice]) -> Union[T, List[T]]:
        if isinstance(index, slice):
            return self._slice(range(*index.indices(len(self))))
        number = operator.index(index)
        if number < 0:
            number += len(self)
        found = list(self._items(number, number + 1)) if 0 <= number < 1 << 63 else []
        if not found:
            raise IndexError(f"there is no item {index}")
        return found[0]

    def _slice(self, numbers: range) -> List[T]:
        """Returns the items at these indices. Those between them are read in batches, and not kept."""
        if not numbers:
            return []
        first, end, step = min(numbers[0], numbers[-1]), max(numbers[0], numbers[-1]) + 1, abs(numbers.step)
        found = [item for number, item in enumerate(self._items(first, end)) if number % step == 0]
        return found if numbers.step > 0 else found[::-1]

    def __repr__(self) -> str:
        name = self._kind.decode.__name__.replace("_", " ")
        try:
            return f"<Rows: {len(self)} {name}>"
        except (Refused, ValueError) as why:  # an image that can't be opened, or a closed file
            return f"<Rows: {name}, {why}>"


def rows_behind(kind: Kind[T], live: Callable[[], Held], numbers: Any, cursor: ctypes.Structure) -> Iterator[T]:
    """Yields the items of a list that goes on from a cursor, which begins as zeros."""
    held, array, count, error, first = live(), kind.array(BATCH), ctypes.c_uint64(), gm_error(), 0
    life = held.life
    while True:
        life.check()
        if kind.call(held.at, held.len, numbers, ctypes.byref(cursor), array, BATCH, ctypes.byref(count), None, ctypes.byref(error)):
            raise refused(error)
        for item in kind.items(held, array, count.value, first):
            yield item
            if life.closed:
                life.check()
        if count.value < BATCH:
            return
        first += BATCH


def in_growing_batches(kind: Kind[T], live: Callable[[], Held], given: Sequence[Any] = ()) -> Iterator[T]:
    """Yields the items of a list whose calls all search from the start. For that reason batches double in size."""
    held, first, cap = live(), 0, BATCH
    life = held.life
    while True:
        life.check()
        array, count, error = kind.array(cap), ctypes.c_uint64(), gm_error()
        if kind.call(held.at, held.len, *given, first, array, cap, ctypes.byref(count), None, ctypes.byref(error)):
            raise refused(error)
        for item in kind.each(held, array, count.value, first):
            yield item
            if life.closed:
                life.check()
        if count.value < cap:
            return
        first, cap = first + cap, 2 * cap
