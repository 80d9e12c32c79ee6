# SPDX-License-Identifier: MIT OR Apache-2.0
"""What calls take: numbers, bits, and buffers of a fixed size."""

from contextlib import contextmanager
from operator import index as integer
from typing import Iterator

from ._bits import Bits, Buffer
from ._buffers import Lent

SEED = 32  # the bytes of a seed
LABEL = 16  # those of a label
ROW_PAIR = 32  # those of an AND gate's generator row and evaluator row
HEAD_OF_LABELS = 16  # those of a label file before its labels


def u32(number: int) -> int:
    return _unsigned(number, 32)


def u64(number: int) -> int:
    return _unsigned(number, 64)


def _unsigned(number: int, width: int) -> int:
    """The number, where it has this many bits: ctypes drops bits without a word."""
    number = integer(number)
    if not 0 <= number < 1 << width:
        raise OverflowError(f"a number is from 0 to {2**width - 1:,}")
    return number


def size_of(data: Buffer) -> int:
    with Lent(data) as lent:
        return lent.size


@contextmanager
def lent_bits(bits: Bits) -> Iterator[Lent]:
    with Lent(bytes(bits) if isinstance(bits, (list, tuple)) else bits) as lent:
        if lent.item_size != 1:
            raise TypeError(f"bits are bytes, and not items of {lent.item_size} bytes")
        yield lent


@contextmanager
def lent_of_size(data: Buffer, what: str, size: int) -> Iterator[Lent]:
    """The bytes of something that has a fixed number of them."""
    with Lent(data) as lent:
        if lent.size != size:
            raise ValueError(f"{what} has {size} bytes, and not {lent.size}")
        yield lent
