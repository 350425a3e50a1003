"""Writing fat files."""

from __future__ import annotations

import ctypes
from typing import TYPE_CHECKING, Iterable, NamedTuple, Set, Tuple

from . import _structs as s
from ._library import bits64, lib, refused
from ._memory import Held
from .archive import Archive
from .enums import CpuType, ErrorCode
from .errors import Refused

if TYPE_CHECKING:
    from _typeshed import ReadableBuffer

_ORDERS = {b"\xfe\xed\xfa\xce": "big", b"\xfe\xed\xfa\xcf": "big", b"\xce\xfa\xed\xfe": "little", b"\xcf\xfa\xed\xfe": "little"}
_SMALL_PAGES = {CpuType.X86, CpuType.X86_64, CpuType.POWERPC, CpuType.POWERPC64}
_ABI64 = 0x01000000


class FatPart(NamedTuple):
    """An entry for a fat file that is written: its cpu (`cputype`, `cpusubtype`), its bytes, `data`, and its alignment. Its offset is a
    multiple of 2 to the power of `align`, which is at most 15."""

    cputype: int
    cpusubtype: int
    data: ReadableBuffer
    align: int

    @classmethod
    def of(cls, data: ReadableBuffer) -> FatPart:
        """Returns the entry for an image or an archive of images, as `machfat create` makes it. Raises `Refused` for any other bytes."""
        view = memoryview(data).cast("B")
        if bytes(view[:8]) != b"!<arch>\n":
            cputype, cpusubtype = _cpu(view)
            return cls(cputype, cpusubtype, data, 12 if cputype in _SMALL_PAGES else 14)
        cputype, cpusubtype = _cpu_of_all(Archive(view))
        return cls(cputype, cpusubtype, data, 3 if cputype & _ABI64 else 2)


def _cpu(view: memoryview) -> Tuple[int, int]:
    """Returns the cpu in an image's header."""
    order = _ORDERS.get(bytes(view[:4]))
    if order is None:
        raise Refused(ErrorCode.BAD_MAGIC, f"bad magic 0x{bytes(view[:4]).hex()}")
    if len(view) < 28:
        raise Refused(ErrorCode.SHORT, f"28 bytes are needed and {len(view)} are left")
    read = int.from_bytes
    return (read(view[4:8], "big"), read(view[8:12], "big")) if order == "big" else (read(view[4:8], "little"), read(view[8:12], "little"))


def _cpu_of_all(archive: Archive) -> Tuple[int, int]:
    """Returns the cpu of all members of an archive."""
    cpus: Set[Tuple[int, int]] = set()
    for member in archive:
        if member.error is not None:
            raise Refused(ErrorCode.MALFORMED, f"a member can't be read: {member.error}")
        cpus.add(_cpu(member.data))
    if len(cpus) != 1:
        raise Refused(ErrorCode.MALFORMED, "malformed: members are for different cpus" if cpus else "malformed: the archive has no member")
    return cpus.pop()


def _row(part: FatPart, offset: int, length: int) -> s.gm_fat_part:
    """Returns a part as C takes it. A number of more than 32 bits would be cut, and is refused."""
    cputype, cpusubtype, align = (bits64(number, 32) for number in (part.cputype, part.cpusubtype, part.align))
    return s.gm_fat_part(offset, length, cputype, cpusubtype, align, 0)


def write_fat(parts: Iterable[FatPart], is_64: bool = False) -> bytearray:
    """Returns the bytes of a fat file of these entries, in their order, with offsets of 32 bits, or of 64 if `is_64`. Each entry is for
    another cpu. Raises `Refused` if two are for one cpu, an alignment is above 15, or a record can't hold an offset or a length."""
    given = list(parts)
    views = [memoryview(part.data).cast("B") for part in given]
    rows, end = (s.gm_fat_part * len(given))(), 0
    for number, (part, view) in enumerate(zip(given, views)):
        rows[number] = _row(part, end, len(view))
        end += len(view)
    held, needed, error = Held(b"".join(views)), ctypes.c_uint64(), s.gm_error()
    taken = held.at, held.len, rows, len(given), int(is_64)
    if lib.gm_write_fat(*taken, None, 0, ctypes.byref(needed), None, ctypes.byref(error)) != ErrorCode.NO_SPACE:
        raise refused(error)
    out = bytearray(needed.value)
    room = (ctypes.c_char * len(out)).from_buffer(out)
    if lib.gm_write_fat(*taken, room, len(out), ctypes.byref(needed), None, ctypes.byref(error)):
        raise refused(error)
    return out
