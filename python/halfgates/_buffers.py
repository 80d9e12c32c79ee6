# SPDX-License-Identifier: MIT OR Apache-2.0
"""Bytes that are lent to the library where they lie, by CPython's buffer protocol: nothing is copied."""

import ctypes
from ctypes import POINTER, py_object, pythonapi

_WRITABLE = 1

#: Makes a method of a C function. As `__del__` it runs no bytecode, so no signal handler can come before the function.
method_of = pythonapi.PyInstanceMethod_New
method_of.argtypes, method_of.restype = [py_object], py_object

_get, _release = pythonapi.PyObject_GetBuffer, pythonapi.PyBuffer_Release


class Lent(ctypes.Structure):
    """A `with` block in which an object's bytes stay where they are: `size` bytes at the address `at`.

    They are items of `item_size` bytes each. An object that has no bytes is a TypeError. One whose bytes don't lie one
    after another, or aren't writable where they must be, is a BufferError.
    """

    #: `Py_buffer` of Python's C API.
    _fields_ = [
        ("at", ctypes.c_void_p),
        ("obj", ctypes.c_void_p),
        ("size", ctypes.c_ssize_t),
        ("item_size", ctypes.c_ssize_t),
        ("readonly", ctypes.c_int),
        ("ndim", ctypes.c_int),
        ("format", ctypes.c_char_p),
        ("shape", ctypes.c_void_p),
        ("strides", ctypes.c_void_p),
        ("suboffsets", ctypes.c_void_p),
        ("internal", ctypes.c_void_p),
    ]

    def __init__(self, data: object, is_written: bool = False) -> None:
        self._data, self._flags = data, _WRITABLE if is_written else 0

    def __enter__(self) -> "Lent":
        _get(self._data, self, self._flags)
        return self

    def __exit__(self, *_: object) -> None:
        _release(self)

    # For a block that an exception keeps from being entered or left. Releasing twice does nothing.
    __del__ = method_of(_release)


_get.argtypes = [py_object, POINTER(Lent), ctypes.c_int]
_release.argtypes, _release.restype = [POINTER(Lent)], None
