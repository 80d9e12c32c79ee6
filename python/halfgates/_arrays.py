# SPDX-License-Identifier: MIT OR Apache-2.0
"""Circuits in numbers: gates, and widths of values."""

from array import array
from contextlib import contextmanager
from enum import IntEnum
from typing import Iterable, Iterator, NamedTuple, Tuple, Union, cast

from ._bits import Buffer
from ._buffers import Lent

GATE = 16  # the bytes of a gate
_NUMBER = GATE // 4  # those of each of its four numbers

# What the buffer protocol calls an unsigned number of the machine, of 32 bits where it has four bytes.
_UNSIGNED = "I", "L", "@I", "@L", "=I", "=L"


class Operation(IntEnum):
    """The operations of gates. Each has the number that the library gives it."""

    XOR = 0  #: the exclusive or of two wires
    AND = 1  #: the conjunction of two wires
    INV = 2  #: the negation of a wire
    EQ = 3  #: a constant
    EQW = 4  #: a copy of a wire


class Gate(NamedTuple):
    """A gate of `Circuit.from_gates`, in numbers."""

    operation: int  #: one of `Operation`
    first: int  #: the wire that it reads first, and for `EQ` the constant, 0 or 1
    second: int  #: the wire that `XOR` and `AND` read second; the others ignore it
    set: int  #: the wire that it sets


#: A gate, such as a `Gate`.
Numbers = Tuple[int, int, int, int]

#: Gates in order: `Gate` tuples, or a buffer of numbers of 32 bits, four of each gate.
Gates = Union[Buffer, Iterable[Numbers]]


@contextmanager
def lent_gates(gates: Gates) -> Iterator[Lent]:
    """The bytes of gates: those of a buffer in place, but for one whose numbers lie where the machine has none."""
    try:
        view = memoryview(cast(Buffer, gates))
    except TypeError:
        data: object = _packed(cast(Iterable[Numbers], gates))
    else:
        with view:
            if view.format not in _UNSIGNED or view.itemsize != _NUMBER or view.nbytes % GATE:
                raise TypeError("a buffer of gates has unsigned numbers of 32 bits, four of each gate")
            data = gates if _is_aligned(gates) else array("I", view.tobytes())
    with Lent(data) as lent:
        yield lent


def _is_aligned(data: object) -> bool:
    with Lent(data) as lent:
        return lent.size == 0 or (lent.at or 0) % _NUMBER == 0


def _packed(gates: Iterable[Numbers]) -> "array[int]":
    numbers = array("I")
    for operation, first, second, wire in gates:
        numbers.extend((operation, first, second, wire))
    return numbers


def numbers_of(widths: Iterable[int]) -> "array[int]":
    """Widths as the library takes them."""
    return array("I", widths)
