# SPDX-License-Identifier: MIT OR Apache-2.0
"""The shared library, its functions and its structs, as include/halfgates.h declares them."""

import ctypes
from ctypes import POINTER, c_char, c_int32, c_size_t, c_uint8, c_uint32, c_uint64, c_void_p
from typing import Any, Dict, Tuple

from ._codes import Code
from ._path import library_path

# The value that means no gate, no wire or no output.
NONE = 2**32 - 1


class Name(ctypes.Structure):
    _fields_ = [("text", c_char * 32)]


class Numbers(ctypes.Structure):
    _fields_ = [
        (name, c_uint32)
        for name in "gates and_gates wires input_wires output_wires input_values output_values".split()
    ]


class Place(ctypes.Structure):
    _fields_ = [
        ("fault", c_int32),
        ("gate", c_uint32),
        ("wire", c_uint32),
        ("line", c_uint64),
        ("column", c_uint64),
    ]


class Sentence(ctypes.Structure):
    _fields_ = [("text", c_char * 256)]


class WireLabels(ctypes.Structure):
    _fields_ = [("zero", c_uint8 * 16), ("active", c_uint8 * 16), ("bit", c_uint8)]


class AuditReport(ctypes.Structure):
    _fields_ = [
        *[(name, c_uint8) for name in "honest version digest counts generator evaluator entry_colour".split()],
        *[(name, c_uint32) for name in "row gate wire decode_bit entry".split()],
    ]


class RowsReport(ctypes.Structure):
    _fields_ = [
        *[(name, c_uint8) for name in "honest generator evaluator".split()],
        *[(name, c_uint32) for name in "row gate wire decode_bit".split()],
    ]


class LabelsReport(ctypes.Structure):
    _fields_ = [("verdict", c_int32), ("index", c_uint32), ("count", c_uint32), ("wire", c_uint32)]


_BYTES, _HANDLE, _SIZE = c_void_p, c_void_p, POINTER(c_size_t)

_READ = c_int32, _BYTES, c_size_t, POINTER(_HANDLE)
_FROM_GATES = (
    *(c_int32, _BYTES, c_size_t, c_uint32, _BYTES, c_size_t, _BYTES, c_size_t),
    *(POINTER(_HANDLE), POINTER(Place)),
)

# By function what it returns, and what it takes.
_FUNCTIONS: Dict[str, Tuple[Any, ...]] = {
    "fault_name": (Name, c_int32),
    "version": (Name,),
    "is_memory": (c_int32, c_int32),
    "circuit_read": _READ,
    "circuit_read_without_digest": _READ,
    "circuit_take_digest": (c_int32, _HANDLE),
    "circuit_share": (c_int32, _HANDLE, POINTER(_HANDLE)),
    "circuit_order": (c_int32, _HANDLE, POINTER(_HANDLE)),
    "circuit_text": (c_int32, _HANDLE, _BYTES, c_size_t, _SIZE),
    "circuit_free": (None, _HANDLE),
    "circuit_numbers": (c_int32, _HANDLE, POINTER(Numbers)),
    "circuit_input_widths": (c_int32, _HANDLE, POINTER(c_uint32), c_size_t),
    "circuit_output_widths": (c_int32, _HANDLE, POINTER(c_uint32), c_size_t),
    "circuit_digest": (c_int32, _HANDLE, c_void_p),
    "circuit_from_gates": _FROM_GATES,
    "circuit_from_gates_without_digest": _FROM_GATES,
    "locate": (c_int32, _BYTES, c_size_t, POINTER(Place)),
    "explain": (c_int32, _BYTES, c_size_t, POINTER(Sentence)),
    "plain": (c_int32, _HANDLE, _BYTES, c_size_t, _BYTES, c_size_t),
    "garble": (c_int32, _HANDLE, _BYTES, POINTER(_HANDLE)),
    "garble_many": (c_int32, _HANDLE, _BYTES, c_size_t, POINTER(_HANDLE)),
    "garble_from": (c_int32, _HANDLE, _BYTES, _BYTES, c_size_t, c_uint64, POINTER(_HANDLE)),
    "garbling_free": (None, _HANDLE),
    "garbled_size": (c_uint64, _HANDLE, c_uint32),
    "garbling_write": (c_int32, _HANDLE, c_uint32, _BYTES, c_size_t, _SIZE),
    "write_many": (c_int32, POINTER(_HANDLE), c_size_t, c_uint32, _BYTES, c_size_t),
    "deal": (c_int32, _HANDLE, _BYTES, c_uint32, _BYTES, c_size_t, _BYTES, c_size_t, _SIZE),
    "garbling_deal": (c_int32, _HANDLE, c_uint32, _BYTES, c_size_t, _BYTES, c_size_t, _SIZE),
    "label_file": (c_int32, _HANDLE, c_uint32, _BYTES, c_size_t, _BYTES, c_size_t, _SIZE),
    "zero_label": (c_int32, _HANDLE, c_uint32, c_void_p),
    "decode_bit": (c_int32, _HANDLE, c_uint32, POINTER(c_uint8)),
    "labels": (c_int32, _HANDLE, _BYTES, c_size_t, c_uint32, POINTER(WireLabels), c_size_t),
    "offset": (c_int32, _HANDLE, c_void_p),
    "input_labels": (c_int32, _HANDLE, c_uint32, _BYTES, _BYTES, c_size_t),
    "output_labels": (c_int32, _HANDLE, c_uint32, _BYTES, _BYTES, c_size_t),
    "rows": (c_int32, _HANDLE, _BYTES, c_size_t),
    "rows_range": (c_int32, _HANDLE, c_uint32, c_uint32, _BYTES, c_size_t),
    "decode_bits": (c_int32, _HANDLE, _BYTES, c_size_t),
    "open": (c_int32, _HANDLE, c_uint32, _BYTES, c_size_t, _BYTES, c_size_t),
    "job_bind": (c_int32, _HANDLE, _BYTES, c_size_t, _BYTES, c_size_t, _SIZE, c_size_t, POINTER(_HANDLE)),
    "job_free": (None, _HANDLE),
    "evaluate": (c_int32, _HANDLE, _BYTES, c_size_t),
    "evaluate_many": (c_int32, POINTER(_HANDLE), c_size_t, _BYTES, c_size_t),
    "evaluate_each": (c_int32, POINTER(_HANDLE), c_size_t, _BYTES, c_size_t, POINTER(c_int32)),
    "evaluate_labels": (c_int32, _HANDLE, _BYTES, c_size_t, c_uint64, _BYTES, c_size_t, _BYTES, c_size_t),
    "job_output_labels": (c_int32, _HANDLE, _BYTES, c_size_t),
    "decode": (c_int32, _BYTES, c_size_t, _BYTES, c_size_t, _BYTES, c_size_t),
    "garbler_begin": (c_int32, _HANDLE, _BYTES, POINTER(_HANDLE)),
    "garbler_begin_from": (c_int32, _HANDLE, _BYTES, _BYTES, c_size_t, c_uint64, POINTER(_HANDLE)),
    "garbler_free": (None, _HANDLE),
    "garbler_offset": (c_int32, _HANDLE, c_void_p),
    "garbler_input_labels": (c_int32, _HANDLE, c_uint32, _BYTES, _BYTES, c_size_t),
    "garbler_next": (c_int32, _HANDLE, _BYTES, c_size_t, _SIZE),
    "garbler_output_labels": (c_int32, _HANDLE, c_uint32, _BYTES, _BYTES, c_size_t),
    "garbler_decode_bits": (c_int32, _HANDLE, _BYTES, c_size_t),
    "evaluator_begin": (c_int32, _HANDLE, c_uint64, _BYTES, c_size_t, POINTER(_HANDLE)),
    "evaluator_free": (None, _HANDLE),
    "evaluator_feed": (c_int32, _HANDLE, _BYTES, c_size_t, _SIZE),
    "evaluator_output_labels": (c_int32, _HANDLE, _BYTES, c_size_t),
    "audit": (c_int32, _HANDLE, _BYTES, c_size_t, POINTER(AuditReport)),
    "audit_rows": (c_int32, _HANDLE, _BYTES, c_size_t, _BYTES, c_size_t, POINTER(RowsReport)),
    "audit_labels": (c_int32, _HANDLE, _BYTES, c_size_t, _BYTES, c_size_t, POINTER(LabelsReport)),
}


def _load() -> ctypes.CDLL:
    try:
        library = ctypes.CDLL(library_path())
        for name, (returns, *takes) in _FUNCTIONS.items():
            function = getattr(library, f"halfgates_{name}")
            function.restype, function.argtypes = returns, takes
    except (OSError, AttributeError) as error:
        hint = "./build halfgates_c makes the library, and HALFGATES_LIBRARY names one that lies elsewhere"
        raise ImportError(f"{error} ({hint})") from None
    return library


library = _load()


def name_of(code: int) -> str:
    """The name of a code."""
    return library.halfgates_fault_name(code).text.decode()


def version() -> str:
    """The version of the library."""
    return library.halfgates_version().text.decode()


def is_memory(code: int) -> bool:
    """Whether a code is one of those that say that memory ran out: 13, 23, 36, 46 and 62."""
    return bool(library.halfgates_is_memory(code))


def meaning_of(code: int) -> str:
    """What a code means, or "" for a code that this package doesn't know."""
    return next((it.meaning for it in Code if it == code), "")


class Fault(Exception):
    """A call failed, and changed nothing: its `code`, as `Code` has them, its `name` and its `meaning`.

    Its `detail` is the place and the sentence of a text's first fault, or the sizes of a buffer: most faults have none.
    """

    def __init__(self, code: int, detail: str = "") -> None:
        self.code, self.name, self.meaning, self.detail = int(code), name_of(code), meaning_of(code), detail
        super().__init__(*((code, detail) if detail else (code,)))

    def __str__(self) -> str:
        about = self.detail or self.meaning
        return f"fault {self.code} {self.name}" + (f": {about}" if about else "")


class MemoryFault(Fault, MemoryError):
    """Memory ran out."""


def fault_of(code: int, detail: str = "") -> Fault:
    """The fault of this code, which isn't that of success."""
    return (MemoryFault if is_memory(code) else Fault)(code, detail)


# A buffer that a caller passes: the name of the parameter, how many bytes it has, and how many are expected.
Sized = Tuple[str, int, int]


def check(code: int, *buffers: Sized) -> None:
    """Raises the fault of this code, unless it is that of success. If one of these buffers is at fault, it says so."""
    if code != Code.OK:
        raise fault_of(code, _detail_of(code, buffers))


def _detail_of(code: int, buffers: Tuple[Sized, ...]) -> str:
    """Which buffer has too little room or a wrong size, and the sizes, for the codes that say so."""
    for name, given, expected in buffers:
        if code == Code.WRONG_SIZE and given != expected:
            return f"{name} has {given} bytes, and {expected} are expected"
        if code == Code.SMALL_BUFFER and given < expected:
            return f"{name} has {given} bytes, and at least {expected} are expected"
    return ""
