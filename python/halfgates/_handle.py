# SPDX-License-Identifier: MIT OR Apache-2.0
"""What circuits, garblings, jobs, garblers and evaluators have in common: a handle of the library."""

from __future__ import annotations

from ctypes import byref, c_uint8, c_void_p
from typing import Any, Callable, ClassVar, NamedTuple, NoReturn, Tuple, Type, TypeVar

from ._arguments import LABEL, u32
from ._buffers import method_of
from ._library import check

H = TypeVar("H", bound="Handle")


class Shape(NamedTuple):
    """The numbers of a circuit, which its garblings and jobs share."""

    gates: int
    and_gates: int
    wires: int
    input_widths: Tuple[int, ...]
    output_widths: Tuple[int, ...]

    @property
    def input_wires(self) -> int:
        return sum(self.input_widths)

    @property
    def output_wires(self) -> int:
        return sum(self.output_widths)


def owner(free: Callable[[c_void_p], None]) -> Type[c_void_p]:
    """A pointer type whose objects free the handle that they point to. A NULL is freed too, which does nothing."""

    class Owner(c_void_p):
        __del__ = method_of(free)

    return Owner


class Handle:
    """A handle of the library. Any number of calls may use it at once, on any threads: no call waits for another, but
    those on a garbler or an evaluator.

    The end of its `with` block, `close` or the end of the object frees it; calls that are at work meanwhile end first.
    After that its calls raise ValueError.
    """

    _Owner: ClassVar[Type[c_void_p]]
    _at: Any  # the handle's owner, or None once it is closed
    _shape: Shape

    def __init__(self, *_: object) -> None:
        makers = "a Circuit comes from Circuit.read, a Garbling from Circuit.garble, a Job from Circuit.bind"
        raise TypeError(f"{makers}, a Garbler from Circuit.garbler, an Evaluator from Circuit.evaluator")

    @classmethod
    def _empty(cls: Type[H]) -> H:
        """An object for the handle that a call is about to write: a handle has its owner before that call returns."""
        it = cls.__new__(cls)
        it._at = cls._Owner()
        return it

    def _owned(self) -> c_void_p:
        """The handle's owner: the handle stays as long as it does."""
        at = self._at
        if at is None:
            raise ValueError(f"this {type(self).__name__} is closed")
        return at

    def _call(self, function: Callable[..., Any], *words: object) -> Any:
        """What a function of the library returns for the handle. Its owner stays until the call ends."""
        return function(self._owned(), *words)

    def close(self) -> None:
        """Frees the handle, at once or when the calls that are at work end. Closing again does nothing."""
        self._at = None

    def __repr__(self) -> str:
        it, closed = self._shape, "closed " if self._at is None else ""
        gates = f"{it.gates} gates, {it.and_gates} AND gates"
        wires = f"{it.input_wires} input wires, {it.output_wires} output wires"
        return f"<{closed}{type(self).__name__}: {gates}, {wires}>"

    def __reduce__(self) -> NoReturn:
        raise TypeError(f"a {type(self).__name__} can't be copied or pickled")

    def __enter__(self: H) -> H:
        return self

    def __exit__(self, *_: object) -> None:
        self.close()


def width_of(widths: Tuple[int, ...], index: int) -> int:
    """How many wires the value of this index has: 0 where there is none."""
    return widths[index] if index < len(widths) else 0


def offset_of(handle: Handle, function: Callable[..., int]) -> bytes:
    """The offset that a function of the library writes for a handle."""
    offset = (c_uint8 * LABEL)()
    check(handle._call(function, offset))
    return bytes(offset)


def pairs_of(
    handle: Handle, function: Callable[..., int], widths: Tuple[int, ...], index: int
) -> Tuple[bytes, bytes]:
    """The zero labels and the one labels of a value, of one of these widths, that a function of the library writes."""
    index = u32(index)
    size = LABEL * width_of(widths, index)
    zero, one = (c_uint8 * size)(), (c_uint8 * size)()
    check(handle._call(function, index, byref(zero), byref(one), size))
    return bytes(zero), bytes(one)
