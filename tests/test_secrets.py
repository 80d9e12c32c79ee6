"""No branch and no address depends on a secret, as valgrind's memcheck sees it, and freed memory is wiped.

Seeds, labels and bits of values are marked as undefined: memcheck then reports each branch and each address that
depends on them. That a text is a seed, that bytes are bits, or that an output's label is recognised is decided once,
after all of it was read.

These are tests, not proofs: they cover the files under test, and of the paths that these circuits take.
"""
import os
import re
import shutil
import subprocess
import unittest
from collections import Counter
from pathlib import Path
from xml.etree import ElementTree

from inputs import text_of
from library import (
    INCLUDE, LEVELS, LIB_DIR, SONAME, WARNINGS, build, compiler, demand_library, sanitizers, write_with_code,
)
from program import PROGRAM, SEED, TOP, ProgramTest

SOURCES = TOP / "tests/c"
HAS_VALGRIND = shutil.which("valgrind") and Path("/usr/include/valgrind/memcheck.h").is_file()
NEEDS_VALGRIND = unittest.skipUnless(HAS_VALGRIND, "valgrind isn't installed, which shows what depends on a secret")
VALGRIND = "valgrind", "-q", "--error-limit=no"

# A gate of each operation, and an output of each kind of label.
OPERATIONS = text_of([2, 1], [2, 1], [
    "2 1 0 1 3 XOR", "2 1 0 1 4 AND", "1 1 3 5 INV", "1 1 1 6 EQ", "1 1 2 7 EQW", "2 1 5 7 8 AND", "2 1 6 4 9 AND",
    "2 1 8 9 10 XOR",
])

# Where the kit reads the words of a command line, and where outputs are printed and `run` reads back what it garbled.
KIT = "rattle_arg", "core::str::utf8::from_utf8", "core::slice::words::skip_far", "clap::parser::lexer::"
PUBLIC = "gc_command::lines::", "gc_command::value_form::", "gc_command::eval::", "gc_command::run::", "gc_file::body::"

KEY, BLOCK = "x000102030405060708090a0b0c0d0e0f", "0110" * 32

# The program under test, and the release's for x86-64-v3.
NEWER = LIB_DIR.parent / "v3/halfgates"
PROGRAMS = sorted({PROGRAM, *([NEWER] if NEWER.is_file() and 3 in LEVELS else [])})


def compile_c(source, made, *words):
    """Compiles a source without optimization, so that what is planted stays as it is written."""
    command, standard = compiler(".c")
    words = [command, standard, *WARNINGS, f"-I{INCLUDE}", "-o", made, SOURCES / source, *words]
    subprocess.run(words, check=True)
    return made


@NEEDS_VALGRIND
class OfTheLibrary(ProgramTest):
    def test_calls(self):
        demand_library()
        self.make("aes128")
        self.put("operations", OPERATIONS)
        for level in LEVELS:
            # The loader takes the library from a folder that has no other.
            loaded = self.folder / str(level)
            loaded.mkdir()
            write_with_code(level, loaded / SONAME)
            program = compile_c("secrets.c", loaded / "secrets", loaded / SONAME)
            for circuit in ("operations", "aes128"):
                with self.subTest(level=level, circuit=circuit):
                    words = [*VALGRIND, program, self.folder / circuit]
                    how = {"env": {**os.environ, "LD_LIBRARY_PATH": str(loaded)}, "stderr": subprocess.PIPE}
                    done = subprocess.run(words, text=True, timeout=600, check=False, **how)
                    self.assertEqual(done.returncode, 0, done.stderr[-2000:])


@NEEDS_VALGRIND
class OfTheProgram(ProgramTest):
    def reports(self, program, words, hidden):
        """How often each function branches or takes an address by a secret. The words at these places are secret."""
        report = self.folder / "report.xml"
        run = [*VALGRIND, "--xml=yes", f"--xml-file={report}", program, *words]
        places = ",".join(map(str, hidden))
        how = {"env": {**os.environ, "LD_PRELOAD": str(self.folder / "hide.so"), "HIDDEN": places}, "cwd": self.folder}
        subprocess.run(run, stdout=subprocess.DEVNULL, timeout=600, check=True, **how)
        root = ElementTree.parse(report).getroot()
        times = {it.findtext("unique"): int(it.findtext("count")) for it in root.iterfind("errorcounts/pair")}
        found = Counter()
        for error in root.iterfind("error"):
            name = re.sub(r"::<.*", "", error.findtext("stack/frame/fn", "?"))
            found[name] += times[error.findtext("unique")]
        return found

    def check(self, program, decisions, words, hidden=(), public=()):
        """Apart from the kit's code and from what is public, the program decides by secrets at most so often. Whether
        an argument is `--args-from` is one decision for each."""
        with self.subTest(program=program, words=words):
            found = self.reports(program, words, hidden)
            self.assertTrue(found, "nothing was marked as secret")
            depend = {name: count for name, count in found.items() if not name.startswith((*KIT, *public))}
            self.assertLessEqual(sum(depend.values()), decisions, depend)

    def test_commands(self):
        compile_c("hide.c", self.folder / "hide.so", "-shared", "-fPIC")
        self.make("aes128")
        for program in PROGRAMS:
            for version in ("1", "2"):
                words = ["garble", "aes128", SEED, f"garbled{version}", "--format", version, "--workers", version]
                self.check(program, 1 + 1, words, hidden=[3])
            for i, value in enumerate((KEY, BLOCK)):
                # A seed; whether a value begins with x, has digits alone, and has no spare bits.
                words = ["deal", "aes128", SEED, str(i), value, f"{i}.labels"]
                self.check(program, 4 + 2, words, hidden=[3, 5])
            for version in ("1", "2"):
                words = ["eval", "aes128", f"garbled{version}", "--workers", version, "0.labels", "1.labels"]
                self.check(program, int(version == "2"), words, public=PUBLIC)
            self.check(program, 8 + 3, ["run", "aes128", SEED, KEY, BLOCK], hidden=[3, 4, 5], public=PUBLIC)


class FreedMemory(ProgramTest):
    def test_it_is_wiped(self):
        demand_library()
        self.make("aes128")
        program = self.folder / "wiped"
        wrapped = [f"-Wl,--wrap={it}" for it in ("malloc", "realloc", "free")]
        build(SOURCES / "wiped.c", program, *sanitizers(".c"), *wrapped)
        done = subprocess.run([program, self.folder / "aes128"], capture_output=True, text=True, check=False)
        self.assertEqual((done.returncode, done.stderr), (0, ""))
        self.assertRegex(done.stdout, r"^\d\d+ blocks wiped\n$")


if __name__ == "__main__":
    unittest.main()
