"""Bytes that the library reads in place."""

from __future__ import annotations

import ctypes
from typing import TYPE_CHECKING, Optional, Union

if TYPE_CHECKING:
    from _typeshed import ReadableBuffer


class _Buffer(ctypes.Structure):
    """The start of CPython's Py_buffer."""

    _fields_ = [("buf", ctypes.c_void_p), ("obj", ctypes.py_object), ("len", ctypes.c_ssize_t), ("itemsize", ctypes.c_ssize_t),
                ("readonly", ctypes.c_int), ("ndim", ctypes.c_int), ("format", ctypes.c_char_p), ("shape", ctypes.c_void_p),
                ("strides", ctypes.c_void_p), ("suboffsets", ctypes.c_void_p), ("internal", ctypes.c_void_p)]


_get_buffer = ctypes.pythonapi.PyObject_GetBuffer
_get_buffer.argtypes = [ctypes.py_object, ctypes.POINTER(_Buffer), ctypes.c_int]
_give_buffer = ctypes.pythonapi.PyBuffer_Release
_give_buffer.argtypes = [ctypes.POINTER(_Buffer)]


class Life:
    """Whether a file has been closed. What was taken from it can't be used after that."""

    __slots__ = ("closed",)

    def __init__(self) -> None:
        self.closed = False

    def check(self) -> None:
        if self.closed:
            raise ValueError("the file is closed")


class Held:
    """Some bytes, and their address in memory. They are not copied. They are valid as long as their file is open, or always if there is
    no file."""

    __slots__ = ("at", "len", "life", "view")

    def __init__(self, data: ReadableBuffer, life: Optional[Life] = None) -> None:
        self.life = Life() if life is None else life
        self.view = memoryview(data).cast("B").toreadonly()
        self.len = len(self.view)
        buffer = _Buffer()
        _get_buffer(self.view, ctypes.byref(buffer), 0)
        self.at: Optional[int] = buffer.buf if self.len else None
        _give_buffer(ctypes.byref(buffer))

    def live(self) -> Held:
        """Returns itself if its file is open."""
        self.life.check()
        return self

    def text(self, place: int, size: int) -> str:
        return text(self.view[place:place + size])


def text(raw: ReadableBuffer) -> str:
    """Returns bytes as text. Those that aren't UTF-8 become surrogates."""
    return str(raw, "utf-8", "surrogateescape")


def name_in(raw: bytes) -> str:
    """Returns the text before the first zero byte. Bytes that aren't UTF-8 become surrogates."""
    return text(raw.split(b"\0", 1)[0])


def bytes_of(name: Union[str, bytes]) -> bytes:
    """Returns a name as its bytes in a file."""
    return name.encode("utf-8", "surrogateescape") if isinstance(name, str) else name
