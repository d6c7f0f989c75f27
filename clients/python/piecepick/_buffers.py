"""Objects with bytes, lent to C where they lie. It goes through CPython's own buffer calls, since ctypes lends no read-only memory."""

from __future__ import annotations

import ctypes
from ctypes import byref, c_char_p, c_int, c_ssize_t, c_void_p, py_object
from typing import Any, Callable

_WRITABLE = 1  # PyBUF_WRITABLE; without it the flags are PyBUF_SIMPLE


class _PyBuffer(ctypes.Structure):
    """Py_buffer."""

    _fields_ = [
        ("buf", c_void_p),
        ("obj", c_void_p),
        ("len", c_ssize_t),
        ("itemsize", c_ssize_t),
        ("readonly", c_int),
        ("ndim", c_int),
        ("format", c_char_p),
        ("shape", c_void_p),
        ("strides", c_void_p),
        ("suboffsets", c_void_p),
        ("internal", c_void_p),
    ]


_get = ctypes.pythonapi.PyObject_GetBuffer
_get.argtypes = [py_object, c_void_p, c_int]
_get.restype = c_int
# No types: it is always passed what byref has made, and converting that takes longer than the call.
_release = ctypes.pythonapi.PyBuffer_Release
_release.restype = None

# The library takes no NULL, which an object of no bytes may have.
_SOMEWHERE = ctypes.create_string_buffer(1)


class _Lent:
    """The memory of an object, which can't move or go while this lives. ctypes takes it as the address."""

    __slots__ = ("_as_parameter_", "_view_at", "length")

    def __init__(self, data: Any, flags: int) -> None:
        view = _PyBuffer()
        self._view_at = byref(view)
        _get(data, self._view_at, flags)
        self._as_parameter_ = c_void_p(view.buf or ctypes.addressof(_SOMEWHERE))
        self.length = view.len

    def __del__(self, release: Callable[..., None] = _release) -> None:
        release(self._view_at)


def lend(data: Any) -> tuple[Any, int]:
    """What to pass for the bytes of this object, to be held until the call is over, and how many they are. Nothing is copied."""
    if type(data) is bytes:
        return data, len(data)
    lent = _Lent(data, 0)
    return lent, lent.length


def lend_writable(buffer: Any) -> tuple[Any, int]:
    """The same for an object that is to be written. Raises BufferError where it can't be."""
    lent = _Lent(buffer, _WRITABLE)
    return lent, lent.length
