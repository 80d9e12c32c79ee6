"""The test command, over stand-ins for the prover, the build, the tests and a release: what it refuses."""

import hashlib
import os
import shutil
import subprocess
import sys
import tempfile
import unittest
from pathlib import Path

from program import TOP

# A release: its header has the version.
FILES = {
    "halfgates": "the program",
    "lib/libhalfgates.so.0": "the library",
    "include/halfgates.h": "#define HALFGATES_VERSION_MAJOR 3\n#define HALFGATES_VERSION_MINOR 1\n",
}

# What the test command needs of a machine.
TOOLS = "awk cat cmp cp diff dirname find grep mkdir mktemp nproc python3 rm sed sh sha256sum sort uname xargs".split()

STAND_INS = {
    "bin/rt": "#!/bin/sh\necho proving\necho 2 passed, 0 failed\n",
    "build": "#!/bin/sh\n[ $2 = gc_bench ] || { mkdir -p out && cp -R made out/dist; }\n",
    "tests/__main__.py": "print('3 passed, 0 failed')\n",
}


def write_all(folder, files):
    for name, text in files.items():
        (folder / name).parent.mkdir(parents=True, exist_ok=True)
        (folder / name).write_text(text)
        (folder / name).chmod(0o755)


def write_release(folder, files):
    """Writes a release with its checksums."""
    sums = [f"{hashlib.sha256(files[name].encode()).hexdigest()}  {name}\n" for name in sorted(files)]
    write_all(folder, {**files, "SHA256SUMS": "".join(sums)})


class GateTest(unittest.TestCase):
    def setUp(self):
        self.top = Path(tempfile.mkdtemp())
        self.addCleanup(shutil.rmtree, self.top)
        for name in ("test", "machine.sh", "sources.sh"):
            shutil.copy2(TOP / name, self.top)
        write_all(self.top, {**STAND_INS, "include/halfgates.h": FILES["include/halfgates.h"]})
        for folder in ("dist", "made"):
            write_release(self.top / folder, FILES)
        (self.top / "tools").mkdir()
        for name in TOOLS:
            (self.top / "tools" / name).symlink_to(sys.executable if name == "python3" else shutil.which(name))

    def run_test(self, *words, has_kit=True, **variables):
        """The status, and what is printed, on a machine with the kit or without."""
        folders = [str(self.top / "bin")] * has_kit + [str(self.top / "tools")]
        how = {"env": {"PATH": os.pathsep.join(folders), **variables}, "capture_output": True, "text": True}
        done = subprocess.run([self.top / "test", *words], check=False, **how)
        return done.returncode, done.stdout.splitlines()

    def test_with_the_kit(self):
        self.assertEqual(self.run_test(), (0, ["proving", "11 passed, 0 failed"]))

    def test_without_the_kit(self):
        """It says first and last that nothing is proved."""
        status, (first, *others, last) = self.run_test(has_kit=False)
        self.assertEqual((status, last), (0, "4 passed, 0 failed"))
        self.assertTrue(first.startswith("Nothing is proved here"), first)
        self.assertEqual(others, [first])

    def test_what_fails(self):
        """Failures of the prover and of the tests are counted, and a command that says no counts fails."""
        prover, tests = "#!/bin/sh\necho 1 passed, 1 failed\nexit 1\n", "print('3 passed, 2 failed')\nexit(1)\n"
        for files, has_kit, counts in (
            ({"tests/__main__.py": tests}, True, "11 passed, 2 failed"),
            ({"tests/__main__.py": tests}, False, "4 passed, 2 failed"),
            ({"bin/rt": prover}, True, "10 passed, 1 failed"),
            ({"bin/rt": prover, "tests/__main__.py": tests}, True, "10 passed, 3 failed"),
            ({"tests/__main__.py": "exit(1)\n"}, False, "1 passed, 1 failed"),
            ({"tests/__main__.py": ""}, True, "8 passed, 1 failed"),
            ({"bin/rt": "#!/bin/sh\n"}, True, "9 passed, 1 failed"),
        ):
            write_all(self.top, {**STAND_INS, **files})
            status, lines = self.run_test(has_kit=has_kit)
            self.assertEqual((status, lines[-1]), (1, counts), files)

    def test_another_folder_of_that_name(self):
        """CDPATH names a folder that has one of the same name as the repository's."""
        (self.top / "else" / self.top.name).mkdir(parents=True)
        script = f"cd {self.top.parent}; {self.top.name}/test"
        how = {"CDPATH": str(self.top / "else"), "PATH": f"{self.top}/bin:{self.top}/tools"}
        words = [shutil.which("sh"), "-c", script]
        done = subprocess.run(words, env=how, capture_output=True, text=True, check=False)
        self.assertEqual((done.returncode, done.stdout), (0, "proving\n11 passed, 0 failed\n"))

    def test_sources_without_a_tool(self):
        """Their checksum isn't that of fewer files, or of none."""
        for missing in ("awk", "find", "sha256sum", "sort", "xargs"):
            (self.top / "tools" / missing).rename(self.top / missing)
            script = f'top={TOP}; . "$top/sources.sh"; sum_of_sources halfgates_c'
            words, how = [shutil.which("sh"), "-c", script], {"env": {"PATH": f"{self.top}/tools"}}
            done = subprocess.run(words, capture_output=True, text=True, check=False, **how)
            self.assertEqual((done.returncode != 0, done.stdout), (True, ""), missing)
            (self.top / missing).rename(self.top / "tools" / missing)

    def test_the_gate_without_the_kit(self):
        for how in ({"CI": "true"}, {"CI": "1"}):
            self.assertEqual(self.run_test(has_kit=False, **how)[0], 1, how)
        status, lines = self.run_test("--prove", has_kit=False)
        self.assertEqual((status, lines[-1]), (1, "0 passed, 1 failed"))

    def test_usage(self):
        self.assertEqual(self.run_test("--proof"), (2, []))

    def test_damage(self):
        """Another byte in any file of dist/ is refused, with the kit and without, and so is a file more or less."""
        for name in (*FILES, "SHA256SUMS", "more"):
            path = self.top / "dist" / name
            kept = path.read_text() if path.is_file() else None
            for damaged in (f"{kept}.", None):
                path.unlink(missing_ok=True)
                if damaged:
                    path.write_text(damaged)
                if damaged or kept:
                    for has_kit in (True, False):
                        self.assertEqual(self.run_test(has_kit=has_kit)[0], 1, (name, damaged, has_kit))
            if kept:
                path.write_text(kept)
        self.assertEqual(self.run_test()[0], 0)

    def test_what_the_sources_do_not_build(self):
        """A whole release that isn't what the sources of its version build is refused."""
        write_release(self.top / "dist", {**FILES, "halfgates": "another program"})
        status, lines = self.run_test()
        self.assertEqual(status, 1)
        self.assertIn("dist/halfgates is not what the sources build: ./release makes it", lines)

    def test_between_releases(self):
        """Sources of the next version aren't compared with the last release."""
        write_release(self.top / "dist", {**FILES, "halfgates": "another program"})
        header = FILES["include/halfgates.h"].replace("MINOR 1", "MINOR 2")
        write_all(self.top, {"include/halfgates.h": header})
        status, lines = self.run_test()
        self.assertEqual((status, lines[-1]), (0, "7 passed, 0 failed"))
        self.assertIn("dist/ is release 3.1 and is not compared: the sources are version 3.2", lines)


if __name__ == "__main__":
    unittest.main()
