# SPDX-License-Identifier: MIT OR Apache-2.0
"""Where the shared library is."""

import os
import platform
from pathlib import Path
from typing import Iterator

NAME = "libhalfgates.so.0"

_PACKAGE = Path(__file__).resolve().parent
_REPOSITORY = _PACKAGE.parents[1]


def library_path() -> str:
    """The file that HALFGATES_LIBRARY names, or the wheel's, or the repository's, or else the system's."""
    named = os.environ.get("HALFGATES_LIBRARY")
    if named:
        return named
    found = filter(Path.is_file, (_folder_of_processor(it) / NAME for it in _folders()))
    return str(next(found, NAME))


def _folders() -> Iterator[Path]:
    """The folders that may have the library: a wheel's, the one where ./build puts it, and the release's."""
    yield _PACKAGE / "lib"
    if _time_of(_REPOSITORY / "out/lib" / NAME) > _time_of(_REPOSITORY / "dist/halfgates.sources"):
        yield _REPOSITORY / "out/lib"
    yield _REPOSITORY / "dist/lib"


def _time_of(file: Path) -> float:
    """When a file was written. One that isn't there is older than any."""
    try:
        return file.stat().st_mtime
    except OSError:
        return 0


def _folder_of_processor(folder: Path) -> Path:
    """Where a folder has the library for this kind of processor."""
    machine = platform.machine()
    return folder if machine == "x86_64" else folder / machine
