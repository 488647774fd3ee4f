"""Bytes where they lie in memory: those that a caller gives, and those that the library writes to."""

from __future__ import annotations

import ctypes
import sys
from typing import TYPE_CHECKING, Any, List, Tuple

if TYPE_CHECKING:
    from _typeshed import ReadableBuffer

    Buffer = ReadableBuffer
elif sys.version_info >= (3, 12):
    from collections.abc import Buffer
else:
    from typing import Protocol

    class Buffer(Protocol):
        """An object whose bytes lie one after another in memory, such as bytes, a bytearray, a memoryview or an mmap."""

        def __buffer__(self, flags: int) -> memoryview:
            ...


class _PyBuffer(ctypes.Structure):
    # Py_buffer of CPython's object.h.
    _fields_ = [
        ("buf", ctypes.c_void_p),
        ("obj", ctypes.c_void_p),
        ("len", ctypes.c_ssize_t),
        ("itemsize", ctypes.c_ssize_t),
        ("readonly", ctypes.c_int),
        ("ndim", ctypes.c_int),
        ("format", ctypes.c_char_p),
        ("shape", ctypes.c_void_p),
        ("strides", ctypes.c_void_p),
        ("suboffsets", ctypes.c_void_p),
        ("internal", ctypes.c_void_p),
    ]


_get_buffer = ctypes.pythonapi.PyObject_GetBuffer
_get_buffer.argtypes = [ctypes.py_object, ctypes.POINTER(_PyBuffer), ctypes.c_int]
_release_buffer = ctypes.pythonapi.PyBuffer_Release
_release_buffer.argtypes, _release_buffer.restype = [ctypes.POINTER(_PyBuffer)], None
_new_bytearray = ctypes.pythonapi.PyByteArray_FromStringAndSize
_new_bytearray.argtypes, _new_bytearray.restype = [ctypes.c_void_p, ctypes.c_ssize_t], ctypes.py_object


class Held:
    """The bytes of an object where they lie in memory, which stay there until the `with` ends: their address and how many they are."""

    def __init__(self, source: Buffer):
        self._buffer = _PyBuffer()
        _get_buffer(source, self._buffer, 0)
        self.pair: Tuple[int, int] = (self._buffer.buf, self._buffer.len)

    def __enter__(self) -> Tuple[int, int]:
        return self.pair

    def __exit__(self, *_: Any) -> None:
        _release_buffer(self._buffer)


def new_buffer(length: int) -> bytearray:
    """A buffer of so many bytes, which are not set to anything: of a long one, what is never written to takes no memory."""
    buffer: bytearray = _new_bytearray(None, length)
    return buffer


class Scratch:
    """A buffer for outputs and one for texts, which serve one call after another."""

    LENGTH = 1 << 16

    def __init__(self) -> None:
        self.output, self.text = new_buffer(self.LENGTH), new_buffer(self.LENGTH)
        self._held = Held(self.output), Held(self.text)
        self.addresses = self._held[0].pair[0], self._held[1].pair[0]
        self.view = memoryview(self.output)


_free: List[Scratch] = []


def take_scratch() -> Scratch:
    """A scratch that nobody else has; a caller who is through with it gives it back. A call that interrupts another one in the same thread gets another."""
    try:
        return _free.pop()
    except IndexError:
        return Scratch()


give_back = _free.append
