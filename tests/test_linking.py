"""What the programs and the libraries need of a system, and how they are hardened, as readelf says."""
import re
import subprocess
import unittest

from library import ARCHIVE, LIB_DIR, SONAME, tool
from program import PROGRAM

LIBRARIES = sorted(LIB_DIR.rglob(SONAME))
ARCHIVES = sorted(LIB_DIR.rglob(ARCHIVE.name))

# The program under test, and those of the release that the library is of.
RELEASED = "halfgates", "v3/halfgates", "aarch64/halfgates"
PROGRAMS = sorted({PROGRAM, *(it for name in RELEASED for it in LIB_DIR.parent.glob(name))})


def readelf(flags, file):
    """What readelf says of a file."""
    words = [tool("readelf"), flags, "--wide", file]
    return subprocess.run(words, capture_output=True, text=True, check=True).stdout


def needed(file):
    """The libraries that a file needs."""
    return re.findall(r"Shared library: \[(.*)\]", readelf("-d", file))


def names_by_version(file):
    """The versions of glibc that a file needs, and the names of each."""
    found = {}
    for name, version in re.findall(r" UND (\w+)@GLIBC_([\d.]+)", readelf("--dyn-syms", file)):
        found.setdefault(tuple(map(int, version.split("."))), set()).add(name)
    return found


class Needed(unittest.TestCase):
    def test_libraries(self):
        """The C library alone, of glibc 2.17 or earlier."""
        for library in LIBRARIES:
            self.assertIn(f"Library soname: [{SONAME}]", readelf("-d", library))
            self.assertEqual(needed(library), ["libc.so.6"], library)
            self.assertLessEqual(max(names_by_version(library)), (2, 17), library)

    def test_programs(self):
        """The C library and its threads, which were apart before 2.34, of glibc 2.17 but for one name."""
        for program in PROGRAMS:
            self.assertEqual(needed(program), ["libc.so.6", "libpthread.so.0"], program)
            found = names_by_version(program)
            self.assertEqual({it: found[it] for it in found if it > (2, 17)}, {(2, 28): {"statx"}}, program)


class Hardening(unittest.TestCase):
    def test_tables(self):
        """Names are bound as a file is loaded, after which its tables are read-only. No stack is executable."""
        for file in (*LIBRARIES, *PROGRAMS):
            said = readelf("-ld", file)
            for it in ("GNU_RELRO", r"\(FLAGS\) .*BIND_NOW", r"GNU_STACK .* RW "):
                self.assertRegex(said, it, file)

    def test_addresses(self):
        """A program is loaded at an address of the system's choice."""
        for program in PROGRAMS:
            self.assertRegex(readelf("-d", program), r"\(FLAGS_1\) .*PIE", program)

    def test_shadow_stacks(self):
        """Files for x86-64 are fit for them, so an archive turns nothing off in a program that uses them."""
        for file in (*LIBRARIES, *ARCHIVES, *PROGRAMS):
            is_x86 = "X86-64" in readelf("-h", file)
            self.assertEqual("x86 feature: SHSTK" in readelf("-n", file), is_x86, file)

    def test_stacks_of_archives(self):
        """An archive asks for no executable stack."""
        for archive in ARCHIVES:
            flags = re.findall(r" \.note\.GNU-stack +PROGBITS +(?:\w+ ){4}(.*)", readelf("-S", archive))
            self.assertEqual([it.split() for it in flags], [["0", "0", "1"]], archive)


if __name__ == "__main__":
    unittest.main()
