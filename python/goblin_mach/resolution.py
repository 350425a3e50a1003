"""Resolving a program: which of some files has each name that it binds."""

from __future__ import annotations

import ctypes
import itertools
from typing import TYPE_CHECKING, Iterable, List, NamedTuple, Optional, Sequence, Tuple, Union

from . import _structs as s
from ._item import Item
from ._library import lib, refused
from ._lists import PROVIDERS
from ._memory import Held, bytes_of
from .errors import Refused
from .image import Image
from .pointers import Binding

if TYPE_CHECKING:
    from _typeshed import ReadableBuffer

    Given = Tuple[Union[str, bytes], ReadableBuffer]

PLACES = ("found", "leads back", "no library", "missing", "not given", "not found", "no main program")
UNUSED = ("given before", "nothing for the cpu")


class Answer(Item, NamedTuple("Answer", [
    ("binding", Binding), ("place", str), ("file", Optional[int]), ("address", Optional[int]), ("is_absolute", bool), ("is_weak", bool),
    ("is_settled", bool),
])):
    """The answer for a `binding`. `place` is "found" if a file has its name: `file` is the number of the file, 0 for the program, and `address`
    counts from its start, or if `is_absolute` from 0. Else `place` says why not, as one of `PLACES`. If `is_weak`, the name may be missing.
    If `is_settled`, it is found, or may be missing."""

    __slots__ = ()


class UnusedFile(Item, NamedTuple("UnusedFile", [("file", int), ("why", str), ("cputype", Optional[int])])):
    """A library that isn't used. `file` is its number, from 1 on. `why` is "given before", which its name was, or "nothing for the cpu" `cputype`."""

    __slots__ = ()


class Resolution(NamedTuple):
    """The `answers` for the bindings of a program, in order. If `more`, it has more bindings. `unused` are the libraries that aren't used."""

    answers: List[Answer]
    more: bool
    unused: List[UnusedFile]

    @property
    def is_settled(self) -> bool:
        """Whether each answer is settled: its name is found, or may be missing."""
        return all(answer.is_settled for answer in self.answers)


class FileRefused(Refused):
    """Why a file was refused, and its number, `file`: 0 is the program, 1 the first library."""

    def __init__(self, code: int, words: str, file: int) -> None:
        super().__init__(code, words)
        self.args = (code, words, file)
        self.file = file

    def __str__(self) -> str:
        return f"library {self.file}: {self.words}" if self.file else f"the program: {self.words}"


def _one_buffer(files: Sequence[Given]) -> Tuple[Held, ctypes.Array[s.gm_given_file]]:
    """Returns the bytes and the paths of files in one buffer, and where each of them is."""
    rows, parts, end = (s.gm_given_file * len(files))(), [], 0
    for number, (path, data) in enumerate(files):
        view, name = memoryview(data).cast("B"), bytes_of(path)
        rows[number] = s.gm_given_file(end, len(view), end + len(view), len(name))
        end += len(view) + len(name)
        parts += [view, memoryview(name)]
    return Held(b"".join([*parts, b"\0"])), rows


def _bindings(data: memoryview, limit: int) -> List[Binding]:
    """Returns the first bindings of the program. The last may be the error that ends them."""
    try:
        return list(itertools.islice(Image(data).bindings(), limit))
    except Refused as error:
        raise FileRefused(error.code, error.words, 0) from None


def _answer(binding: Binding, row: s.gm_answer) -> Answer:
    file, address = (row.file, row.address) if row.place == 0 else (None, None)
    return Answer(binding, PLACES[row.place], file, address, bool(row.is_absolute), bool(row.is_weak), bool(row.is_settled))


def _unused(row: s.gm_unused_file) -> UnusedFile:
    return UnusedFile(row.file, UNUSED[row.why], row.cputype if row.why else None)


def resolve(program: Given, libraries: Iterable[Given], limit: Optional[int] = None) -> Resolution:
    """Returns the answers for the first `limit` bindings of a program, in order, or for as many as it has bytes. Each file is a pair of its path
    and its bytes. The program is an image. A library is an image, or a fat file, of which the first entry for the program's cpu is used. Raises
    `FileRefused` if a file or a binding can't be read."""
    files = [program, *libraries]
    held, rows = _one_buffer(files)
    own = memoryview(program[1]).cast("B")
    known = _bindings(own, len(own) if limit is None else limit)
    out, unused = (s.gm_answer * len(known))(), (s.gm_unused_file * len(files))()
    found, error = s.gm_resolution(), s.gm_error()
    taken = held.at, held.len, rows, len(files), out, len(known), unused, len(files)
    if lib.gm_resolve(*taken, ctypes.byref(found), None, ctypes.byref(error)):
        raise FileRefused(error.code, refused(error).words, found.file)
    answers = [_answer(binding, row) for binding, row in zip(known, out[:found.answers])]
    return Resolution(answers, bool(found.more), [_unused(row) for row in unused[:found.unused]])
