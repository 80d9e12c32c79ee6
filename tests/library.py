"""The library under test, its package for Python, and programs of C and C++ that are linked with it.

The library lies in the folder that the environment variable HALFGATES_LIB_DIR names, or else in out/lib/,
where ./build made it since the release, or else in dist/. HALFGATES_LIBRARY names another shared one.
"""
import os
import platform
import re
import shutil
import subprocess
import sys
import tempfile
from functools import lru_cache
from pathlib import Path

from program import TOP, ask

BUILT = TOP / "out/lib"
SONAME = "libhalfgates.so.0"
INCLUDE = TOP / "include"
WARNINGS = "-Wall", "-Wextra", "-Werror", "-pedantic"
SANITIZERS = "-g", "-fsanitize=address,undefined", "-fno-sanitize-recover=all"

# The compiler of each kind of source: by CC or CXX, or else by its name.
COMPILERS = {".c": ("CC", "cc", "-std=c11"), ".cpp": ("CXX", "c++", "-std=c++11")}


class Missing(AssertionError):
    """Something that the tests need isn't there."""


def folder_of_library():
    """Where the libraries lie, by the rule for the program."""
    named = os.environ.get("HALFGATES_LIB_DIR")
    is_built = f'[ "$top/out/lib/{SONAME}" -nt "$top/dist/halfgates.sources" ]'
    released = ask("machine.sh", "find_released; echo $library")[1]
    return Path(named or (BUILT if ask("machine.sh", is_built)[0] == 0 else released)).resolve()


LIB_DIR = folder_of_library()
LIBRARY = Path(os.environ.get("HALFGATES_LIBRARY") or LIB_DIR / SONAME).resolve()
ARCHIVE = LIB_DIR / "libhalfgates.a"

# An instruction that no x86-64 processor has, ud2.
INVALID_INSTRUCTION = bytes.fromhex("0f0b")

# The levels of x86-64 for which the library has code that this processor runs.
LEVELS = (2, 3) if ask("machine.sh", "is_v3")[0] == 0 else (2,)


@lru_cache(maxsize=None)
def demand_library():
    """The library is there, built from the sources as they stand where it is that of out/lib/."""
    for file in (LIBRARY, ARCHIVE):
        if not file.is_file():
            raise Missing(f"there is no {file}: ./build halfgates_c makes the library")
    if LIB_DIR == BUILT:
        stamp, sources = BUILT / f"{SONAME}.sources", ask("sources.sh", "sum_of_sources halfgates_c")[1]
        if not stamp.is_file() or stamp.read_text().strip() != sources:
            raise Missing("out/lib/ is older than the sources: ./build halfgates_c makes it anew")


def places_in_library():
    """Where the file of the shared library under test has its functions and objects, by name."""
    words = [tool("readelf"), "--wide", "--sections", "--symbols", LIBRARY]
    said = subprocess.run(words, capture_output=True, text=True, check=True).stdout
    sections = re.findall(r"\[ *(\d+)\] \.\S+ +\w+ +(\w+) (\w+) ", said)
    shifts = {section: int(offset, 16) - int(address, 16) for section, address, offset in sections}
    symbols = re.findall(r": (\w+) +\d+ (?:FUNC|OBJECT) +\w+ +\w+ +(\d+) (\S+)$", said, re.M)
    return {name: int(address, 16) + shifts[section] for address, section, name in symbols}


def write_with_code(level, file, is_forced=True):
    """Writes a copy of the shared library under test in which only its code for this level of x86-64 works, 2 or 3. It
    uses that code, or else the one that it chooses by itself. For other processors it has one code."""
    data = bytearray(LIBRARY.read_bytes())
    if platform.machine() == "x86_64":
        places = places_in_library()
        for place in (places[name] for name in places if name.startswith(f"v{5 - level}_halfgates_")):
            data[place : place + 2] = INVALID_INSTRUCTION
        assert data[places["level"]] == 1
        data[places["level"]] = level if is_forced else 1
    file.write_bytes(data)


def import_package():
    """The package `halfgates` of python/, over the library under test."""
    demand_library()
    os.environ["HALFGATES_LIBRARY"] = str(LIBRARY)
    sys.path.append(str(TOP / "python"))
    import halfgates

    return halfgates


def environment_of_python():
    """The environment in which a script of examples/python/ finds the package and the library."""
    return {**os.environ, "PYTHONPATH": str(TOP / "python"), "HALFGATES_LIBRARY": str(LIBRARY)}


def tool(name):
    """The path of a program that these tests need."""
    found = shutil.which(name)
    if found is None:
        raise Missing(f"there is no {name}: the tests of the library need it")
    return found


def compiler(suffix):
    """The compiler of these sources, and the standard that they keep to."""
    variable, name, standard = COMPILERS[suffix]
    return tool(os.environ.get(variable, name)), standard


def build(source, program, *flags, library=ARCHIVE):
    """Compiles a source and links it with the archive, or with another library or source. Warnings are errors."""
    command, standard = compiler(source.suffix)
    words = [command, standard, *WARNINGS, f"-I{INCLUDE}", *flags, "-o", program, source, library]
    done = subprocess.run(words, capture_output=True, text=True, check=False)
    if done.returncode:
        raise AssertionError(f"{source.relative_to(TOP)} doesn't compile:\n{done.stderr}")


@lru_cache(maxsize=None)
def sanitizers(suffix, flags=SANITIZERS):
    """The sanitizers' flags, where the compiler of these sources has them and what it makes runs."""
    command, _ = compiler(suffix)
    with tempfile.TemporaryDirectory() as folder:
        source, program = Path(folder, f"empty{suffix}"), Path(folder, "empty")
        source.write_text("int main(void) { return 0; }\n")
        words = [command, *flags, "-o", program, source]
        is_built = subprocess.run(words, capture_output=True, check=False).returncode == 0
        is_run = is_built and subprocess.run([program], capture_output=True, check=False).returncode == 0
    return flags if is_run else ()
