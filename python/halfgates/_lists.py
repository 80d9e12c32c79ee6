# SPDX-License-Identifier: MIT OR Apache-2.0
"""Calls that take several handles at once."""

from ctypes import Array, c_int32, c_void_p
from itertools import accumulate
from typing import Iterable, List, Sequence, Type, Union

from ._arguments import u32
from ._buffers import Lent
from ._codes import Code
from ._handle import Handle
from ._handles import Garbling, Job
from ._library import Fault, check, fault_of, library


def write_many(garblings: Iterable[Garbling], version: int = 2) -> List[bytearray]:
    """The garbled file of each garbling in a version, 1 or 2, in their order, as `Garbling.write` returns it.

    Up to eight files in a row are digested side by side, which takes less time. Faults: 60 where there is no such
    version, or the first AND number of a garbling isn't 0, 62, 68 where the circuit of a garbling had no digest.
    """
    listed, version = list(garblings), u32(version)
    owners = _owners_of(listed, Garbling)  # they stay until the call ends
    sizes = [it._size(version) for it in listed]
    files = bytearray(sum(sizes))
    with Lent(files, is_written=True) as out:
        check(library.halfgates_write_many(_handles_of(owners), len(owners), version, out.at, out.size))
    return _cut(files, sizes)


def evaluate_many(jobs: Iterable[Job]) -> List[bytearray]:
    """The bits of all output wires of each job, in their order, as `Job.evaluate` returns them.

    Up to four jobs in a row that have equal circuits are evaluated side by side, which takes less time. Faults: 46, 48,
    62. The first fault in the order of the jobs is raised.
    """
    listed = list(jobs)
    owners = _owners_of(listed, Job)  # they stay until the call ends
    counts = [it._shape.output_wires for it in listed]
    bits = bytearray(sum(counts))
    with Lent(bits, is_written=True) as out:
        check(library.halfgates_evaluate_many(_handles_of(owners), len(owners), out.at, out.size))
    return _cut(bits, counts)


def evaluate_each(jobs: Iterable[Job]) -> List[Union[bytearray, Fault]]:
    """What comes of each job, in their order: the bits of all output wires, or the fault that `Job.evaluate` raises.

    Unlike `evaluate_many` it goes on after a job that fails. Faults of jobs: 46, 48; of the call: 62.
    """
    listed = list(jobs)
    owners = _owners_of(listed, Job)  # they stay until the call ends
    counts, codes = [it._shape.output_wires for it in listed], (c_int32 * len(listed))()
    bits = bytearray(sum(counts))
    with Lent(bits, is_written=True) as out:
        check(library.halfgates_evaluate_each(_handles_of(owners), len(owners), out.at, out.size, codes))
    return [fault_of(code) if code != Code.OK else it for code, it in zip(codes, _cut(bits, counts))]


def _owners_of(listed: Sequence[Handle], of_type: Type[Handle]) -> List[c_void_p]:
    for it in listed:
        if not isinstance(it, of_type):
            raise TypeError(f"a {type(it).__name__} is no {of_type.__name__}")
    return [it._owned() for it in listed]


def _handles_of(owners: List[c_void_p]) -> "Array[c_void_p]":
    return (c_void_p * len(owners))(*(it.value for it in owners))


def _cut(joined: bytearray, sizes: List[int]) -> List[bytearray]:
    """The pieces of these sizes, which follow one another."""
    return [joined[end - size : end] for size, end in zip(sizes, accumulate(sizes))]
