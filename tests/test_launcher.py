"""The launcher, in a copy of the repository that has the program in dist/ and nothing in out/; and what it asks of the
machine."""

import os
import shutil
import subprocess
import tempfile
import unittest
from pathlib import Path

from program import EXAMPLES, PROGRAM, TOP

# Adds three bits: the carry is the last digit.
ADD = f"plain {EXAMPLES}/full_adder.txt 1 0 1"
SUM = 0, "01\n", ""

# A program that says where it lies, and one that says its arguments and what it tunes.
STAND_IN = "#!/bin/sh\necho $0\n"
SHOW = '#!/bin/sh\nprintf "<%s>" "$@"\necho "$GLIBC_TUNABLES $LD_BIND_NOW"\n'

# What /proc/cpuinfo says of a processor of x86-64-v3.
V3 = "avx avx2 bmi1 bmi2 f16c fma abm movbe".split()


class Copy(unittest.TestCase):
    @classmethod
    def setUpClass(cls):
        cls.top = Path(tempfile.mkdtemp())
        cls.addClassCleanup(shutil.rmtree, cls.top)
        for name in ("halfgates", "machine.sh"):
            shutil.copy2(TOP / name, cls.top)
        (cls.top / "dist/v3").mkdir(parents=True)
        (cls.top / "dist/halfgates.sources").write_text("0\n")
        for name in ("dist/halfgates", "dist/v3/halfgates"):
            shutil.copy2(PROGRAM, cls.top / name)

    def run_in_shell(self, command):
        how = {"cwd": self.top, "capture_output": True, "text": True, "check": False, "timeout": 60}
        done = subprocess.run(["sh", "-c", command], **how)
        return done.returncode, done.stdout, done.stderr


class LauncherTest(Copy):
    def test_the_name_in_its_help(self):
        status, printed, _ = self.run_in_shell("./halfgates run --help")
        self.assertEqual(status, 0)
        self.assertIn("\nUsage: halfgates run ", printed)

    def test_a_link_to_it(self):
        (self.top / "link").symlink_to("halfgates")
        self.assertEqual(self.run_in_shell(f"cd / && {self.top}/link {ADD}"), SUM)

    def test_from_other_folders(self):
        (self.top / "a/b").mkdir(parents=True)
        for command in ("cd a && ../halfgates", "cd a/b && ../.././halfgates", "PATH=$PWD:$PATH halfgates"):
            self.assertEqual(self.run_in_shell(f"{command} {ADD}"), SUM, command)

    def test_a_limited_address_space(self):
        self.assertEqual(self.run_in_shell(f"ulimit -v 260000 && ./halfgates {ADD}"), SUM)

    def test_a_limit_on_file_sizes(self):
        command = f"garble {EXAMPLES}/adder64.txt {64 * '0'} /dev/shm/halfgates_limited"
        self.addCleanup(Path("/dev/shm/halfgates_limited").unlink, missing_ok=True)
        answer = self.run_in_shell(f"ulimit -f 1; ./halfgates {command}")
        self.assertEqual(answer, (1, "", "halfgates: fault 51 CannotWrite\n"))

    def test_two_at_once(self):
        """Runs don't disturb one another: nothing is written."""
        before = sorted(self.top.rglob("*"))
        command = f"for i in 1 2 3 4 5 6 7 8; do ./halfgates {ADD} & done; wait"
        self.assertEqual(self.run_in_shell(command), (0, 8 * "01\n", ""))
        self.assertEqual(sorted(self.top.rglob("*")), before)


class Choice(Copy):
    """Which program it runs."""

    def setUp(self):
        self.addCleanup(shutil.rmtree, self.top / "out", ignore_errors=True)
        for name in ("out/halfgates", "dist/halfgates", "dist/v3/halfgates"):
            (self.top / name).parent.mkdir(exist_ok=True)
            (self.top / name).write_text(STAND_IN)
            (self.top / name).chmod(0o755)

    def chosen(self):
        status, printed, error = self.run_in_shell("./halfgates")
        self.assertEqual((status, error), (0, ""))
        return printed.strip()

    def test_arguments(self):
        """They are passed on as they are, and memory is tuned only where the user doesn't do so."""
        (self.top / "out/halfgates").write_text(SHOW)
        self.set_time(1)
        words = """./halfgates 'a  b' '*' '' '$0' '"' "'" """
        _, printed, _ = self.run_in_shell(f"unset GLIBC_TUNABLES; {words}")
        self.assertRegex(printed, r"""^<a  b><\*><><\$0><"><'>glibc\.malloc\.hugetlb=1:.* 1\n$""")
        _, printed, _ = self.run_in_shell(f"GLIBC_TUNABLES=glibc.malloc.check=0 {words}")
        self.assertEqual(printed, """<a  b><*><><$0><"><'>glibc.malloc.check=0 1\n""")

    def set_time(self, seconds):
        """Builds out/halfgates so many seconds after the release."""
        released = (self.top / "dist/halfgates.sources").stat().st_mtime
        os.utime(self.top / "out/halfgates", (released + seconds, released + seconds))

    def test_built_since_the_release(self):
        self.set_time(1)
        self.assertEqual(self.chosen(), "./out/halfgates")

    def test_built_before_the_release(self):
        self.set_time(-1)
        self.assertIn(self.chosen(), ("./dist/halfgates", "./dist/v3/halfgates"))

    def test_not_built(self):
        (self.top / "out/halfgates").unlink()
        script = 'top=. && . ./machine.sh && if is_v3; then echo ./dist/v3/halfgates; else echo ./dist/halfgates; fi'
        self.assertEqual(self.chosen(), self.run_in_shell(script)[1].strip())


class Processor(unittest.TestCase):
    """A processor is of x86-64-v3 where it has each of the flags, and of ARM64 where uname and the loader say so."""

    def setUp(self):
        folder = tempfile.TemporaryDirectory()
        self.addCleanup(folder.cleanup)
        self.folder = Path(folder.name)
        self.info, self.loader, self.script = (self.folder / it for it in ("cpuinfo", "loader", "machine.sh"))
        text = (TOP / "machine.sh").read_text().replace("/proc/cpuinfo", str(self.info))
        self.script.write_text(text.replace("/lib/ld-linux-aarch64.so.1", str(self.loader)))

    def run_script(self, command, **how):
        words = ["sh", "-c", f"top=; . {self.script}; {command}"]
        done = subprocess.run(words, capture_output=True, text=True, check=False, **how)
        self.assertEqual(done.stderr, "")
        return done.returncode, done.stdout

    def is_v3(self):
        status, printed = self.run_script("is_v3")
        self.assertEqual(printed, "")
        return status == 0

    def test_programs(self):
        (self.folder / "uname").write_text("#!/bin/sh\necho $MACHINE\n")
        (self.folder / "uname").chmod(0o755)
        for flags, machine, has_loader, paths in (
            ("fpu", "x86_64", False, "/dist/halfgates /dist/lib"),
            (" ".join(V3), "x86_64", False, "/dist/v3/halfgates /dist/lib"),
            (" ".join(V3), "x86_64", True, "/dist/v3/halfgates /dist/lib"),
            ("fpu", "aarch64", True, "/dist/aarch64/halfgates /dist/lib/aarch64"),
            (" ".join(V3), "aarch64", True, "/dist/aarch64/halfgates /dist/lib/aarch64"),
        ):
            self.info.write_text(f"flags\t\t: {flags}\n")
            self.loader.unlink(missing_ok=True)
            if has_loader:
                self.loader.touch()
            environment = {"PATH": f"{self.folder}:{os.environ['PATH']}", "MACHINE": machine}
            found = self.run_script('find_released; echo "$program $library"', env=environment)
            self.assertEqual(found, (0, f"{paths}\n"), (flags, machine, has_loader))

    def test_flags(self):
        cases = {"": False, "processor\t: 0\n": False, "flags\t\t: fpu\n": False}
        for missing in (None, *V3):
            flags = " ".join(it for it in V3 if it != missing)
            cases[f"processor\t: 0\nflags\t\t: fpu {flags} sse\nflags\t\t: none\n"] = missing is None
            cases[f"flags\t\t: {flags}\n"] = missing is None
            cases[f"flags\t\t: x{missing} {flags} {missing}x\n"] = missing is None
        for text, is_v3 in cases.items():
            self.info.write_text(text)
            self.assertEqual(self.is_v3(), is_v3, text)
        self.info.unlink()
        self.assertFalse(self.is_v3())


if __name__ == "__main__":
    unittest.main()
