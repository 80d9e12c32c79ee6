# SPDX-License-Identifier: MIT OR Apache-2.0
"""The build backend of the package (PEP 517, PEP 660). It needs the standard library alone.

A wheel holds the package and the shared library for one kind of processor, of a folder laid out as dist/lib: the
folder that HALFGATES_LIB_DIR names, or dist/lib of this repository. The same files make the same wheel, byte for byte.
"""

import ast
import base64
import hashlib
import os
import platform
import re
import zipfile
from pathlib import Path
from typing import Dict

PYTHON = Path(__file__).resolve().parents[1]
TOP = PYTHON.parent

# The library for each machine. It needs glibc 2.17, and on x86_64 a processor of x86-64-v2, which no tag says.
LIBRARIES = {"x86_64": "libhalfgates.so.0", "aarch64": "aarch64/libhalfgates.so.0"}
GLIBC = "2_17"
LICENSES = "LICENSE-APACHE", "LICENSE-MIT", "THIRD-PARTY.md"

# The earliest time that a zip file can name.
TIME = 1980, 1, 1, 0, 0, 0
REGULAR_FILE = 0o100644 << 16
UNIX = 3


class UnsupportedOperation(Exception):
    """The backend doesn't make this."""


def build_wheel(wheel_directory, config_settings=None, metadata_directory=None) -> str:
    """Writes the wheel for this machine to a folder and returns its file name."""
    machine = platform.machine()
    if machine not in LIBRARIES:
        raise UnsupportedOperation(f"there is no library for {machine}")
    return build_wheel_for(machine, wheel_directory)


def build_wheel_for(machine: str, wheel_directory) -> str:
    package = PYTHON / "halfgates"
    sources = sorted([*package.glob("*.py"), package / "py.typed"])
    files = {f"halfgates/{it.name}": it.read_bytes() for it in sources}
    files[f"halfgates/lib/{LIBRARIES[machine]}"] = read_library(LIBRARIES[machine])
    return write_wheel(wheel_directory, files, f"manylinux_{GLIBC}_{machine}")


def build_editable(wheel_directory, config_settings=None, metadata_directory=None) -> str:
    """Writes a wheel that refers to this folder, whose package finds its library by itself."""
    return write_wheel(wheel_directory, {"halfgates.pth": f"{PYTHON}\n".encode()}, "any")


def build_sdist(sdist_directory, config_settings=None) -> str:
    raise UnsupportedOperation("the library isn't built from Python sources: build a wheel")


def read_library(name: str) -> bytes:
    folder = Path(os.environ.get("HALFGATES_LIB_DIR") or TOP / "dist/lib")
    path = folder / name
    if not path.is_file():
        hint = "build in a clone of the repository, or name a folder laid out as dist/lib by HALFGATES_LIB_DIR"
        raise FileNotFoundError(f"there is no {path}: {hint}")
    return path.read_bytes()


def read_project() -> Dict[str, object]:
    """The table [project] of pyproject.toml. Its values are strings and lists, which Python writes as TOML does, and
    tables, whose keys Python quotes."""
    text = (PYTHON / "pyproject.toml").read_text(encoding="utf-8")
    table = text.partition("\n[project]\n")[2].partition("\n[")[0]
    found = re.findall(r"^([\w-]+) = (.*)$", table, re.M)
    return {key: ast.literal_eval(re.sub(r"{ (\w+) = ", r'{"\1": ', value)) for key, value in found}


def core_metadata(project: Dict[str, object]) -> bytes:
    lines = [
        "Metadata-Version: 2.4",
        f"Name: {project['name']}",
        f"Version: {project['version']}",
        f"Summary: {project['description']}",
        f"Keywords: {','.join(project['keywords'])}",
        *[f"Author: {it['name']}" for it in project["authors"]],
        f"License-Expression: {project['license']}",
        *[f"License-File: {it}" for it in LICENSES],
        *[f"Classifier: {it}" for it in project["classifiers"]],
        f"Requires-Python: {project['requires-python']}",
        "Description-Content-Type: text/markdown",
        "",
    ]
    return "".join(f"{it}\n" for it in lines).encode() + (PYTHON / project["readme"]).read_bytes()


def write_wheel(folder, files: Dict[str, bytes], platform: str) -> str:
    """Writes a wheel of these files and of what describes them."""
    project = read_project()
    stem, tag = f"{project['name']}-{project['version']}", f"py3-none-{platform}"
    is_pure = str(platform == "any").lower()
    about = f"Wheel-Version: 1.0\nGenerator: halfgates\nRoot-Is-Purelib: {is_pure}\nTag: {tag}\n"
    info = f"{stem}.dist-info"
    files = {
        **files,
        f"{info}/METADATA": core_metadata(project),
        f"{info}/WHEEL": about.encode(),
        **{f"{info}/licenses/{it}": (TOP / it).read_bytes() for it in LICENSES},
    }
    files[f"{info}/RECORD"] = record_of(files, f"{info}/RECORD")
    name = f"{stem}-{tag}.whl"
    with zipfile.ZipFile(Path(folder, name), "w") as wheel:
        for path, data in files.items():
            wheel.writestr(entry(path), data)
    return name


def record_of(files: Dict[str, bytes], record: str) -> bytes:
    """The digest and size of each file, and the name of this list itself."""
    lines = [f"{path},sha256={digest_of(data)},{len(data)}\n" for path, data in files.items()]
    return "".join([*lines, f"{record},,\n"]).encode()


def digest_of(data: bytes) -> str:
    return base64.urlsafe_b64encode(hashlib.sha256(data).digest()).rstrip(b"=").decode()


def entry(path: str) -> zipfile.ZipInfo:
    """An uncompressed entry without a time: what compresses differs from one zlib to the next."""
    found = zipfile.ZipInfo(path, TIME)
    found.external_attr, found.create_system = REGULAR_FILE, UNIX
    return found
