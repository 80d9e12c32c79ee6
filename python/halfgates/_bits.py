# SPDX-License-Identifier: MIT OR Apache-2.0
"""Bits and numbers."""

from array import array
from mmap import mmap
from operator import index as integer
from typing import TYPE_CHECKING, List, Tuple, Union

if TYPE_CHECKING:
    from typing_extensions import Buffer
else:
    #: What lends its bytes. Other objects that do so serve as well.
    Buffer = Union[bytes, bytearray, memoryview, mmap, array]

#: Bits in wire order: a buffer of bytes 0 and 1, or a list or tuple of numbers 0 and 1, or of truth values.
Bits = Union[Buffer, List[int], List[bool], Tuple[int, ...]]

_DIGITS = bytes.maketrans(b"\0\1", b"01")
_BITS = bytes.maketrans(b"01", b"\0\1")


def to_bits(number: int, width: int, *, highest_first: bool = False) -> bytes:
    """The bits of a number below 2**width, the lowest bit on the first wire, or the highest one by name.

    A number that is negative or has more bits raises OverflowError, and a negative width ValueError.
    """
    number, width = integer(number), integer(width)
    if width < 0:
        raise ValueError("a width isn't negative")
    if number >> width:
        raise OverflowError(f"the number is negative or has more than {width} bits")
    digits = bin(number | 1 << width)[3:].encode()
    return digits.translate(_BITS)[:: 1 if highest_first else -1]


def _bytes_of(bits: Buffer) -> bytes:
    with memoryview(bits) as view:
        if view.itemsize != 1:
            raise TypeError(f"bits are bytes, and not items of {view.itemsize} bytes")
        return bytes(view)


def from_bits(bits: Bits, *, highest_first: bool = False) -> int:
    """The number of these bits, the lowest bit on the first wire, or the highest one by name.

    A byte that is neither 0 nor 1 raises ValueError, and an object without bytes, or with items of several, TypeError.
    """
    data = bytes(bits) if isinstance(bits, (list, tuple)) else _bytes_of(bits)
    if data.strip(b"\0\1"):
        raise ValueError("a bit is 0 or 1")
    digits = data.translate(_DIGITS)
    return int(digits[:: 1 if highest_first else -1] or b"0", 2)
