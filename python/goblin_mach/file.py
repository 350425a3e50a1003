"""Files, and bytes that are used as files."""

from __future__ import annotations

import builtins
import errno
import mmap
import operator
import os
import stat
from typing import TYPE_CHECKING, Any, Dict, Iterator, List, Optional, Sequence, Tuple, Union, overload

from . import _lists
from ._library import lib
from ._memory import Held, Life
from ._rows import Rows, in_growing_batches
from .archive import Archive
from .enums import ErrorCode, Mode
from .errors import Refused
from .findings import LIMIT, Audit, audit
from .image import Image
from .items import FatEntry, LayoutFault, Member

if TYPE_CHECKING:
    from _typeshed import ReadableBuffer

    StrOrBytesPath = Union[str, bytes, os.PathLike[str], os.PathLike[bytes]]

KINDS = ("unknown", "empty", "image", "fat", "fat64", "archive", "ELF", "PE", "Java class", "bitcode", "text")
FOREIGN = {"empty": "an empty file", "ELF": "an ELF file", "PE": "a PE or DOS program", "Java class": "a Java class", "bitcode": "LLVM bitcode",
           "text": "a text file"}
"""The words of the programs for the kinds of files that aren't Mach-O."""
ARCHIVE_MAGIC = b"!<arch>\n"


def _held(data: Union[ReadableBuffer, Held]) -> Held:
    return data if isinstance(data, Held) else Held(data)


def kind_of(data: Union[ReadableBuffer, Held]) -> str:
    """Returns what bytes are, by how they begin: "image", "fat", "fat64", "archive", "ELF", "PE", "Java class", "bitcode", "text",
    "empty" or "unknown"."""
    held = _held(data).live()
    return KINDS[lib.gm_kind(held.at, held.len)]


def _check(held: Held) -> None:
    """Raises `Refused` for bytes that begin neither as an image, nor as a fat file, nor as an archive."""
    found = kind_of(held)
    if found in FOREIGN:
        raise Refused(ErrorCode.BAD_MAGIC, f"not Mach-O: {FOREIGN[found]}")
    if found == "unknown" or held.len < 8 and found in ("fat", "fat64"):
        Image(held)  # reports which magic they have


def fat_entries(data: Union[ReadableBuffer, Held]) -> Rows[FatEntry]:
    """Returns the entries of a fat file of 32 or 64 bits, or none if the bytes are no fat file."""
    return Rows(_lists.FAT_ENTRIES, _held(data).live)


def container_faults(data: Union[ReadableBuffer, Held]) -> Iterator[LayoutFault]:
    """Returns the faults of the table of a fat file of 32 or 64 bits, or none if the bytes are no fat file."""
    return in_growing_batches(_lists.CONTAINER_FAULTS, _held(data).live)


def _mapped(path: Any) -> Union[mmap.mmap, bytes]:
    """Maps the file at a path; returns its bytes."""
    with builtins.open(path, "rb") as file:
        state = os.fstat(file.fileno())
        if not stat.S_ISREG(state.st_mode):
            raise OSError(errno.ENODEV, "not a file that can be mapped", path)
        return mmap.mmap(file.fileno(), 0, access=mmap.ACCESS_READ) if state.st_size else b""


class File(Sequence[Image]):
    """A mapped file, or bytes: a sequence of its images. Each image is opened when it is requested. For a fat file these are the images of
    its entries, without archives. For an archive these are the images of its members. `images` returns the images in archives of a fat
    file too. Images and their lists may be used while the file is open. After `close`, or after a `with` block, they raise ValueError.
    Items already returned stay valid. `name` is the path that it was opened by, and None for bytes."""

    def __init__(self, path: StrOrBytesPath, mode: int = Mode.STRICT) -> None:
        self._begin(_mapped(path), path, mode)

    def _begin(self, data: ReadableBuffer, name: Optional[StrOrBytesPath], mode: int) -> None:
        self.name = name
        self._mode, self._life = mode, Life()
        self._held: Optional[Held] = Held(data, self._life)
        _check(self._held)
        self._kept: Optional[Tuple[FatEntry, ...]] = None
        self._members: Optional[Tuple[Member, ...]] = None

    @property
    def kind(self) -> str:
        """Its kind, from how it begins: `image`, `fat`, `fat64` or `archive`."""
        return kind_of(self._whole())

    @property
    def closed(self) -> bool:
        """Whether `close` was called."""
        return self._life.closed

    def _whole(self) -> Held:
        self._life.check()
        assert self._held is not None
        return self._held

    def _part(self, whole: Held, entry: FatEntry) -> memoryview:
        """Returns the bytes of an entry: all of them, or none."""
        end = entry.offset + entry.size
        return whole.view[entry.offset:end] if end <= whole.len else whole.view[:0]

    def _has_image(self, whole: Held, entry: FatEntry) -> bool:
        """Returns whether an entry is for an image. It is, unless it begins as an archive."""
        part = self._part(whole, entry)
        return len(part) < 16 or part[:8] != ARCHIVE_MAGIC

    def _of_entry(self, whole: Held, entry: FatEntry) -> Image:
        return Image._of_entry(entry, Held(self._part(whole, entry), self._life), self._mode)

    def _entries(self) -> Tuple[FatEntry, ...]:
        """Returns the entries of a fat file that are for images."""
        if self._kept is None:
            whole = self._whole()
            self._kept = tuple(entry for entry in fat_entries(whole) if self._has_image(whole, entry))
        return self._kept

    def __iter__(self) -> Iterator[Image]:
        """Yields its image, or those of a fat file's entries or of an archive's members, in order. An entry or a member that can't be opened
        is an image with an `error`."""
        whole = self._whole()
        kind = kind_of(whole)
        if kind == "image":
            yield Image(whole, 0, self._mode)
            self._life.check()
        elif kind == "archive":
            for _, image in Archive(whole).images(self._mode):
                yield image
        else:
            for entry in fat_entries(whole):
                if self._has_image(whole, entry):
                    yield self._of_entry(whole, entry)

    def _image_members(self) -> Tuple[Member, ...]:
        """Returns the members of an archive that are images."""
        if self._members is None:
            self._members = tuple(member for member, _ in Archive(self._whole()).images(self._mode))
        return self._members

    def __len__(self) -> int:
        kind = self.kind
        return 1 if kind == "image" else len(self._image_members() if kind == "archive" else self._entries())

    @overload
    def __getitem__(self, index: Union[int, str]) -> Image: ...

    @overload
    def __getitem__(self, index: slice) -> List[Image]: ...

    def __getitem__(self, index: Union[int, str, slice]) -> Union[Image, List[Image]]:
        """Returns an image by its index, or the first one of an architecture ("arm64"), or some by a slice."""
        whole = self._whole()
        if isinstance(index, str):
            found = next((image for image in self if image.arch == index), None)
            if found is None:
                raise KeyError(index)
            return found
        if isinstance(index, slice):
            return [self[number] for number in range(*index.indices(len(self)))]
        kind = kind_of(whole)
        if kind == "archive":
            return Archive(whole).image(self._image_members()[index], self._mode)
        if kind != "image":
            return self._of_entry(whole, self._entries()[index])
        if operator.index(index) not in (0, -1):
            raise IndexError(f"there is no image {index}")
        return Image(whole, 0, self._mode)

    def image(self, arch: Optional[str] = None) -> Image:
        """Returns the first image, or the first one of an architecture, for example "arm64e". Raises LookupError if there is none."""
        found: Dict[str, None] = {}
        for image in self:
            if arch is None or image.arch == arch:
                return image
            found[image.arch] = None
        there = ", ".join(list(found)[:10]) or "none"
        raise LookupError(f"no image of {arch or 'any architecture'}: there are {there}")

    @property
    def label(self) -> str:
        """The path that it was opened by, as text; empty for bytes."""
        return "" if self.name is None else os.fsdecode(self.name)

    def _parts(self) -> Iterator[Tuple[str, FatEntry, Held]]:
        """Yields the entries of a fat file: the name of each, its record, its bytes."""
        whole = self._whole()
        for entry in fat_entries(whole):
            yield f"{self.label}: arch {entry.arch}".lstrip(": "), entry, Held(self._part(whole, entry), self._life)

    def archives(self) -> Iterator[Tuple[str, Archive]]:
        """Yields the archive that it is, or those among a fat file's entries, each with its name. Raises `Refused` if the start of one can't
        be read."""
        whole = self._whole()
        if kind_of(whole) == "archive":
            yield self.label, Archive(whole)
        for label, _, part in self._parts():
            if kind_of(part) == "archive":
                yield label, Archive(part)

    def images(self) -> Iterator[Tuple[str, Image]]:
        """Yields all images in it, each with its name. The name is `libx.a(member.o)` for a member, `a.out: arch arm64` for an entry of a fat
        file, and `libx.a: arch arm64(member.o)` for a member of an archive among its entries. An entry or a member that can't be opened
        has an `error`."""
        whole = self._whole()
        kind = kind_of(whole)
        if kind == "image":
            for image in self:
                yield self.label, image
        elif kind == "archive":
            for member, image in Archive(whole).images(self._mode):
                yield f"{self.label}({member.label})", image
        else:
            for label, entry, part in self._parts():
                yield from self._images_of(label, entry, part)

    def _images_of(self, label: str, entry: FatEntry, part: Held) -> Iterator[Tuple[str, Image]]:
        """Yields the images of an entry of a fat file: its own, or those of the archive that it is."""
        if kind_of(part) != "archive":
            yield label, Image._of_entry(entry, part, self._mode)
            return
        try:
            archive = Archive(part)
        except Refused as why:
            yield label, Image._of_part(part, self._mode, entry.offset, entry.arch, why)
            return
        for member, image in archive.images(self._mode):
            yield f"{label}({member.label})", image

    def container_faults(self) -> Iterator[LayoutFault]:
        """Returns the faults of its table, if it is a fat file."""
        return container_faults(self._whole())

    def audit(self, limit: int = LIMIT) -> Audit:
        """Audits it: says whether it is sound, and what was found (`audit`)."""
        return audit(self._whole(), limit)

    def close(self) -> None:
        """Closes it. The bytes stay mapped as long as an object still uses them."""
        self._life.closed, self._held, self._kept, self._members = True, None, None, None

    def __enter__(self) -> File:
        self._whole()
        return self

    def __exit__(self, *_: object) -> None:
        self.close()

    def __repr__(self) -> str:
        name = "bytes" if self.name is None else repr(os.fspath(self.name))
        return f"<File {name}, closed>" if self._held is None else f"<File {name}, {self._held.len} bytes>"


def open(path: Union[StrOrBytesPath, ReadableBuffer], mode: int = Mode.STRICT) -> File:
    """Maps the file at a path: a str, bytes or a `pathlib.Path`. Any other object with a buffer, such as a bytearray, a memoryview or an
    mmap, is used as the bytes of a file (`parse`). What is no Mach-O file, fat file or archive raises `Refused`, with the words of the
    programs: "not Mach-O: an ELF file". Its images are opened one by one during iteration. One that can't be opened raises `Refused`
    then. An entry of a fat file or a member of an archive is an image with that `error` instead."""
    if isinstance(path, (bytearray, memoryview, mmap.mmap)) or not isinstance(path, (str, bytes, int)) and not hasattr(path, "__fspath__"):
        return parse(path, mode)
    return File(path, mode)


def parse(data: ReadableBuffer, mode: int = Mode.STRICT) -> File:
    """Uses bytes as those of a file, without a copy: bytes, a bytearray, a memoryview, an mmap, or any other object with a buffer. They
    must not change while the file is used."""
    if isinstance(data, str) or hasattr(data, "__fspath__"):
        raise TypeError("parse takes bytes; open takes a path")
    file = File.__new__(File)
    file._begin(data, None, mode)
    return file
