"""The library for x86-64 has its proved code twice, and uses the one for x86-64-v3 where the processor and the system
have all that this level names. An emulator stands for processors that this machine isn't.
"""
import os
import platform
import re
import signal
import subprocess
import sys
import tempfile
import unittest
from pathlib import Path
from shutil import which

from library import ARCHIVE, LEVELS, LIBRARY, build, sanitizers, tool
from program import EXAMPLES, TOP
from test_c_library import SOURCES, LibraryTest, declared_names

import bristol
import reference

# Features of x86-64-v3, and the one by which the system keeps the registers of AVX, as the emulator names them.
FEATURES = "avx avx2 bmi1 bmi2 f16c fma abm movbe xsave".split()

# Processors, and whether they are of x86-64-v3.
PROCESSORS = {"Haswell": 1, "EPYC": 1, "max": 1, "Nehalem": 0, "core2duo": 0, "Opteron_G3": 0}
PROCESSORS.update({f"Haswell,-{it}": 0 for it in FEATURES})

EMULATOR = "qemu-x86_64"
EMULATED = unittest.skipUnless(which(EMULATOR), f"there is no {EMULATOR}: the library is not run on other processors")
OF_X86 = unittest.skipUnless(platform.machine() == "x86_64", "the library for this machine has one code")

IS_V3 = int(3 in LEVELS)

# Tests that the older code passes on any processor.
SUITES = "test_python_digests", "test_python_labels", "test_python_library"

# A proved call as objdump prints it, by its level and name, and an instruction of AVX.
CALL = re.compile(r"^\w+ <(v[23])_(halfgates_\w+)>:\n((?: .*\n)*)", re.M)
AVX = re.compile(r"\tv[a-z]+")


def run(*words, **how):
    """Runs a program, and returns its status and what it prints."""
    done = subprocess.run(words, capture_output=True, text=True, check=False, timeout=300, **how)
    return done.returncode, done.stdout


@OF_X86
class Choice(unittest.TestCase):
    """What c/processor.c finds of a processor."""

    def setUp(self):
        folder = tempfile.TemporaryDirectory()
        self.addCleanup(folder.cleanup)
        self.program = Path(folder.name, "processor")

    def build(self, *flags):
        build(SOURCES / "processor.c", self.program, "-pthread", *flags, library=TOP / "c/processor.c")

    def test_features(self):
        self.build(*sanitizers(".c"))
        self.assertEqual(run(self.program), (0, f"{IS_V3}\n"))

    def test_threads_at_once(self):
        flags = sanitizers(".c", ("-g", "-fsanitize=thread"))
        if not flags:
            self.skipTest("the compiler has no sanitizer for threads, which shows races")
        self.build(*flags)
        self.assertEqual(run(self.program), (0, f"{IS_V3}\n"))

    @EMULATED
    def test_other_processors(self):
        self.build()
        for processor, is_v3 in PROCESSORS.items():
            self.assertEqual(run(EMULATOR, "-cpu", processor, self.program), (0, f"{is_v3}\n"), processor)


@OF_X86
class Codes(LibraryTest):
    def test_both_are_there(self):
        """The archive and the shared library have each call for both levels, and only one of the two uses AVX."""
        for file in (ARCHIVE, LIBRARY):
            words = [tool("objdump"), "--disassemble", "--no-show-raw-insn", file]
            printed = subprocess.run(words, capture_output=True, text=True, check=True).stdout
            calls = {"v2": {}, "v3": {}}
            for level, name, body in CALL.findall(printed):
                calls[level][name] = bool(AVX.search(body))
            for level in calls:
                self.assertEqual({*calls[level]}, declared_names(), file)
            self.assertEqual({*calls["v2"].values()}, {False}, file)
            self.assertTrue(calls["v3"]["halfgates_garble"], file)

    def write_aes(self):
        """Writes the files of AES-128 with which worked.c compares the library's, as the reference has them."""
        words = [sys.executable, EXAMPLES / "make_circuits.py", "aes128", self.folder / "circuit"]
        subprocess.run(words, check=True)
        circuit, seed = bristol.read_circuit((self.folder / "circuit").read_bytes()), bytes(range(32))
        garbling = reference.garble(circuit, seed)
        values = [[i * i // 3 % 2 for i in range(width)] for width in circuit.input_widths]
        for name, data in {
            "seed": seed,
            "digest": bristol.digest(circuit),
            "garbled1": reference.garbled_file(circuit, garbling, 1),
            "garbled2": reference.garbled_file(circuit, garbling, 2),
            "bits": bytes(sum(values, [])),
            "labels": b"".join(reference.label_file(circuit, garbling, i, it) for i, it in enumerate(values)),
            "outputs": bytes(bristol.plain_eval(circuit, values)),
        }.items():
            (self.folder / name).write_bytes(data)

    def build_with_code(self, level, **how):
        """A program of whose library only the code for this level works."""
        library = self.library_with_code(level, **how)
        program = library.parent / "worked"
        build(SOURCES / "worked.c", program, f"-Wl,-rpath,{library.parent}", library=library)
        return program

    def test_both_make_the_same_files(self):
        self.write_aes()
        for level in LEVELS:
            self.assertEqual(run(self.build_with_code(level), self.folder), (0, ""), level)

    def test_one_is_used_here(self):
        self.write_aes()
        for level in (2, 3):
            status = 0 if level == LEVELS[-1] else -signal.SIGILL
            program = self.build_with_code(level, is_forced=False)
            self.assertEqual(run(program, self.folder), (status, ""), level)

    def test_the_older_one(self):
        environment = {**os.environ, "HALFGATES_LIBRARY": str(self.library_with_code(2))}
        for name in SUITES:
            words = [sys.executable, TOP / "tests" / f"{name}.py"]
            done = subprocess.run(words, env=environment, capture_output=True, text=True, check=False)
            self.assertEqual(done.returncode, 0, done.stderr[-4000:])
            self.assertRegex(done.stderr, r"\nRan \d+ tests? in ")

    @EMULATED
    def test_other_processors(self):
        """The archive makes the same files on processors of both levels."""
        self.write_aes()
        build(SOURCES / "worked.c", self.folder / "worked")
        for processor in ("Nehalem", "Haswell", "max"):
            ending = run(EMULATOR, "-cpu", processor, self.folder / "worked", self.folder)
            self.assertEqual(ending, (0, ""), processor)

    @EMULATED
    def test_only_one_runs_on_older_processors(self):
        self.write_aes()
        for level, status in ((2, 0), (3, -signal.SIGILL)):
            ending = run(EMULATOR, "-cpu", "Nehalem", self.build_with_code(level), self.folder)
            self.assertEqual(ending, (status, ""), level)


if __name__ == "__main__":
    unittest.main()
