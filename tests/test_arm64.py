"""The program for ARM64, under an emulator: it passes tests of this processor's program, and writes the same bytes."""
import os
import shlex
import subprocess
import sys
import unittest
from pathlib import Path
from shutil import which

from library import LIB_DIR
from program import PROGRAM, SEED, TOP, ProgramTest

RELEASED = LIB_DIR.parent / "aarch64/halfgates"

# The emulator, and the folder that has the C library for it.
EMULATOR = which("qemu-aarch64")
SYSTEM = Path(os.environ.get("QEMU_LD_PREFIX", "/usr/aarch64-linux-gnu"))
IS_HERE = EMULATOR and (SYSTEM / "lib/ld-linux-aarch64.so.1").exists() and RELEASED.is_file()

# Tests of circuits, files, faults, arguments from a file, and of an OUT that is replaced or can't be written. Others
# take too long under an emulator.
SUITES = "test_args_from", "test_commands", "test_out"

KEY, BLOCK = "x000102030405060708090a0b0c0d0e0f", "x00112233445566778899aabbccddeeff"


@unittest.skipUnless(IS_HERE, "the program for ARM64 isn't run: that takes a release, qemu-aarch64, libc6-arm64-cross")
class Arm64(ProgramTest):
    def setUp(self):
        super().setUp()
        self.emulated = self.folder / "emulated"
        words = EMULATOR, "-L", SYSTEM, RELEASED
        self.emulated.write_text(f'#!/bin/sh\nexec {shlex.join(map(str, words))} "$@"\n')
        self.emulated.chmod(0o755)

    def test_suites(self):
        environment = {**os.environ, "HALFGATES": str(self.emulated), "EMULATED": "yes"}
        for name in SUITES:
            with self.subTest(suite=name):
                words = [sys.executable, TOP / "tests" / f"{name}.py"]
                done = subprocess.run(words, env=environment, capture_output=True, text=True, check=False)
                self.assertEqual(done.returncode, 0, done.stderr[-4000:])
                self.assertRegex(done.stderr, r"\nRan \d+ tests? in ")

    def test_bytes(self):
        """Garbled files of AES-128, label files and outputs are those of this processor's program."""
        self.make("aes128")
        for program in (PROGRAM, self.emulated):
            for words in (
                ("garble", "aes128", SEED, "garbled", "--format", "2"),
                ("garble", "aes128", SEED, "garbled4", "--workers", "4"),
                ("deal", "aes128", SEED, "0", KEY, "0.labels"),
                ("deal", "aes128", SEED, "1", BLOCK, "1.labels"),
            ):
                subprocess.run([program, *words], cwd=self.folder, capture_output=True, check=True)
            files = {it: self.bytes_of(it) for it in ("garbled", "garbled4", "0.labels", "1.labels")}
            words = [program, "eval", "aes128", "garbled", "--workers", "4", "0.labels", "1.labels"]
            printed = subprocess.run(words, cwd=self.folder, capture_output=True, text=True, check=True).stdout
            if program == PROGRAM:
                expected = files, printed
        self.assertEqual((files, printed), expected)


if __name__ == "__main__":
    unittest.main()
