"""The wheels for Python: the same files make the same wheels, and pip installs the one for this machine into a new
environment outside the repository, where the examples of docs/LIBRARY.md run.
"""
import csv
import hashlib
import importlib.util
import io
import os
import platform
import re
import shutil
import subprocess
import sys
import tempfile
import unittest
import zipfile
from base64 import urlsafe_b64encode
from email import message_from_bytes
from pathlib import Path
from unittest import mock

from library import LIB_DIR, LIBRARY, SONAME, demand_library
from program import EXAMPLES, TOP
from test_blocks import commands, outputs
from test_linking import names_by_version, readelf

SCRIPT = TOP / "scripts/wheel.py"

# The library in the wheel for each machine, and the machine as readelf names it.
HELD = {"x86_64": SONAME, "aarch64": f"aarch64/{SONAME}"}
MACHINES = {"x86_64": "X86-64", "aarch64": "AArch64"}
LICENSES = "LICENSE-APACHE", "LICENSE-MIT", "THIRD-PARTY.md"


def fill(folder):
    """Lays a folder out as dist/lib. The library under test stands for one that isn't there."""
    for name in HELD.values():
        (folder / name).parent.mkdir(parents=True, exist_ok=True)
        shutil.copy(LIB_DIR / name if (LIB_DIR / name).is_file() else LIBRARY, folder / name)


def record_of(data):
    """What RECORD says of a file."""
    digest = urlsafe_b64encode(hashlib.sha256(data).digest()).decode().rstrip("=")
    return [f"sha256={digest}", str(len(data))]


def run(*words, **how):
    how = {"capture_output": True, "text": True, "check": False, **how}
    return subprocess.run([str(it) for it in words], **how)


class WheelTest(unittest.TestCase):
    @classmethod
    def setUpClass(cls):
        demand_library()
        folder = tempfile.TemporaryDirectory()
        cls.addClassCleanup(folder.cleanup)
        cls.folder = Path(folder.name).resolve()
        fill(cls.folder / "lib")
        cls.environment = {**os.environ, "HALFGATES_LIB_DIR": str(cls.folder / "lib")}
        for name in ("HALFGATES_LIBRARY", "PYTHONPATH", "PYTHONHOME"):
            cls.environment.pop(name, None)
        cls.wheels = cls.make("wheels")
        cls.wheel = cls.wheels[platform.machine()]

    @classmethod
    def make(cls, name, **how):
        """The wheels that the script writes to a new folder, by their machines."""
        (cls.folder / name).mkdir()
        done = run(sys.executable, SCRIPT, cls.folder / name, env=cls.environment, **how)
        assert (done.returncode, done.stderr) == (0, ""), done.stderr
        return {machine: cls.folder / name / file for machine, file in zip(HELD, done.stdout.splitlines())}


class Files(WheelTest):
    def test_the_same_files_make_the_same_wheels(self):
        again = self.make("again", cwd="/", preexec_fn=lambda: os.umask(0o077))
        for machine, wheel in self.wheels.items():
            self.assertEqual(again[machine].read_bytes(), wheel.read_bytes())
            self.assertEqual(again[machine].name, wheel.name)

    def test_what_they_hold(self):
        for machine in self.wheels:
            with self.subTest(machine=machine):
                self.check_what_it_holds(machine)

    def check_what_it_holds(self, machine):
        file = self.wheels[machine]
        with zipfile.ZipFile(file) as wheel:
            held = {it: wheel.read(it) for it in wheel.namelist()}
        info = f"{file.name.partition('-py3-')[0]}.dist-info"
        library = {f"halfgates/lib/{HELD[machine]}": (self.folder / "lib" / HELD[machine]).read_bytes()}
        self.assertEqual({it: held[it] for it in held if it.startswith("halfgates/lib/")}, library)
        for name in LICENSES:
            self.assertEqual(held[f"{info}/licenses/{name}"], (TOP / name).read_bytes())
        for source in (*TOP.glob("python/halfgates/*.py"), TOP / "python/halfgates/py.typed"):
            self.assertEqual(held[f"halfgates/{source.name}"], source.read_bytes())
        about = message_from_bytes(held[f"{info}/WHEEL"])
        self.assertEqual(about["Tag"], file.stem.split("-", 2)[2])
        self.assertEqual(about["Tag"], f"py3-none-manylinux_2_17_{machine}")
        metadata = message_from_bytes(held[f"{info}/METADATA"])
        self.assertEqual(f"{metadata['Name']}-{metadata['Version']}.dist-info", info)
        self.assertEqual(metadata["License-Expression"], "MIT OR Apache-2.0")
        self.assertEqual(metadata["Requires-Python"], ">=3.9")
        self.assertEqual(metadata.get_all("License-File"), [*LICENSES])
        self.assertEqual(metadata["Author"], "The halfgates developers")
        self.assertEqual(metadata["Description-Content-Type"], "text/markdown")
        self.assertEqual(metadata.get_payload(), (TOP / "python/README.md").read_text())

        record = held[f"{info}/RECORD"].decode()
        found = {path: about for path, *about in csv.reader(io.StringIO(record))}
        expected = {path: record_of(data) for path, data in held.items()}
        self.assertEqual(found, {**expected, f"{info}/RECORD": ["", ""]})

    def test_tags(self):
        """The library of a wheel is for the machine of its tag, and needs no later glibc."""
        if not all((LIB_DIR / name).is_file() for name in HELD.values()):
            self.skipTest("the library under test is not that of a release, which has one for each tag")
        for machine, file in self.wheels.items():
            *version, tagged = re.search(r"manylinux_(\d+)_(\d+)_(\w+)\.whl", file.name).groups()
            self.assertEqual(tagged, machine)
            library = self.folder / "lib" / HELD[machine]
            self.assertIn(MACHINES[machine], readelf("-h", library))
            self.assertLessEqual(max(names_by_version(library)), tuple(map(int, version)), machine)

    def test_without_a_library(self):
        environment = {**self.environment, "HALFGATES_LIB_DIR": "/nowhere"}
        done = run(sys.executable, SCRIPT, self.folder, env=environment)
        self.assertEqual((done.returncode, done.stdout), (1, ""))
        self.assertRegex(done.stderr, "^wheel.py: there is no /nowhere/libhalfgates.so.0: ")


class Installed(WheelTest):
    @classmethod
    def setUpClass(cls):
        super().setUpClass()
        cls.venv = cls.folder / "venv"
        if run(sys.executable, "-m", "venv", cls.venv, env=cls.environment).returncode:
            raise unittest.SkipTest("python3 can't make environments: Debian's package python3-venv adds that")
        cls.pip("uninstall", "--yes", "setuptools")

    @classmethod
    def pip(cls, *words):
        environment = {**cls.environment, "PIP_CONFIG_FILE": os.devnull, "PYTHONNOUSERSITE": "1"}
        done = run(cls.venv / "bin/python", "-m", "pip", *words, cwd=cls.folder, env=environment)
        assert done.returncode == 0, done.stderr
        return done.stdout

    def install(self, *words):
        """Installs the package in the place of what is installed."""
        self.pip("install", "--no-index", "--force-reinstall", *words)
        self.pip("check")

    def installed(self):
        """Where the package and its library are, as the environment finds them."""
        code = "import halfgates; print(halfgates.__file__, halfgates._library.library_path(), sep='\\n')"
        done = run(self.venv / "bin/python", "-c", code, cwd=self.folder, env=self.environment)
        self.assertEqual(done.stderr, "")
        return [Path(it) for it in done.stdout.splitlines()]

    def test_the_examples(self):
        """pip takes the wheel for this machine."""
        self.install("--find-links", self.wheel.parent, "halfgates")
        package, library = self.installed()
        self.assertIn(self.venv.resolve(), package.resolve().parents)
        self.assertIn(package.parent, library.parents)

        place = self.folder / "place"
        shutil.copytree(EXAMPLES, place / "examples")
        text = (TOP / "docs/LIBRARY.md").read_text()
        blocks = [(it.text, printed) for it, printed in commands(text) if "python3" in it.text]
        self.assertGreater(len(blocks), 2)
        begin = f"unset HALFGATES_LIBRARY PYTHONPATH; PATH={self.venv}/bin:$PATH"
        printed = outputs([begin, *(it for it, _ in blocks)], place)
        self.assertEqual(printed[1:], [it for _, it in blocks])

    def test_the_command(self):
        self.install(self.wheel)
        made = self.folder / "made.txt"
        words = self.venv / "bin/python", "-m", "halfgates.convert", "--check", "5", EXAMPLES / "full_adder.txt", made
        done = run(*words, cwd=self.folder, env=self.environment)
        self.assertEqual((done.returncode, done.stderr), (0, ""))
        self.assertEqual(made.read_bytes(), (EXAMPLES / "full_adder.txt").read_bytes())

    def test_commands(self):
        """They are those of an installed program, with the words as they are."""
        self.install(self.wheel)
        words = [self.venv / "bin/python", "-m", "halfgates", "run", "a  b", "*"]
        place = self.folder / "bin"
        how = {"env": {**self.environment, "PATH": str(place)}, "cwd": self.folder}
        done = run(*words, **how)
        self.assertEqual((done.returncode, done.stdout), (127, ""))
        self.assertRegex(done.stderr, "^halfgates: the program isn't part of this package: .*\n$")
        place.mkdir()
        (place / "halfgates").write_text("#!/bin/sh\nprintf '<%s>' \"$@\"\nexit 3\n")
        (place / "halfgates").chmod(0o755)
        done = run(*words, **how)
        self.assertEqual((done.returncode, done.stdout, done.stderr), (3, "<run><a  b><*>", ""))

    def test_the_sources(self):
        """They install the files of the wheel for this machine."""
        self.install(TOP / "python")
        package, _ = self.installed()
        with zipfile.ZipFile(self.wheel) as wheel:
            for name in wheel.namelist():
                if name.startswith("halfgates/"):
                    self.assertEqual((package.parents[1] / name).read_bytes(), wheel.read(name))

    def test_the_sources_in_place(self):
        self.install("--editable", TOP / "python")
        environment = {**self.environment, "HALFGATES_LIBRARY": str(LIBRARY)}
        code = "import halfgates; print(halfgates.__file__)"
        done = run(self.venv / "bin/python", "-c", code, cwd=self.folder, env=environment)
        self.assertEqual((done.stdout, done.stderr), (f"{TOP}/python/halfgates/__init__.py\n", ""))
        words = "plain", EXAMPLES / "full_adder.txt", "1", "0", "1"
        done = run(self.venv / "bin/python", "-m", "halfgates", *words, cwd=self.folder, env=environment)
        self.assertEqual((done.stdout, done.stderr), ("01\n", ""))


class Paths(unittest.TestCase):
    """Which library the package takes, in a copy of the repository."""

    def setUp(self):
        folder = tempfile.TemporaryDirectory()
        self.addCleanup(folder.cleanup)
        self.top = Path(folder.name).resolve()
        copy = self.top / "python/halfgates/_path.py"
        copy.parent.mkdir(parents=True)
        shutil.copy(TOP / "python/halfgates/_path.py", copy)
        spec = importlib.util.spec_from_file_location("path_of_library", copy)
        self.module = importlib.util.module_from_spec(spec)
        spec.loader.exec_module(self.module)

    def put(self, name, time):
        path = self.top / name
        path.parent.mkdir(parents=True, exist_ok=True)
        path.touch()
        os.utime(path, (time, time))
        return str(path)

    def found(self, machine="x86_64", **environment):
        with mock.patch.dict(os.environ, environment), mock.patch("platform.machine", lambda: machine):
            if "HALFGATES_LIBRARY" not in environment:
                os.environ.pop("HALFGATES_LIBRARY", None)
            return self.module.library_path()

    def test_the_order(self):
        self.assertEqual(self.found(), SONAME)
        released = self.put(f"dist/lib/{SONAME}", 20)
        self.put("dist/halfgates.sources", 20)
        self.put(f"out/lib/{SONAME}", 10)
        self.assertEqual(self.found(), released)
        built = self.put(f"out/lib/{SONAME}", 30)
        self.assertEqual(self.found(), built)
        packed = self.put(f"python/halfgates/lib/{SONAME}", 0)
        self.assertEqual(self.found(), packed)
        self.assertEqual(self.found(HALFGATES_LIBRARY="/other.so"), "/other.so")

    def test_the_processor(self):
        released = self.put(f"dist/lib/{SONAME}", 20)
        self.assertEqual(self.found(machine="aarch64"), SONAME)
        other = self.put(f"dist/lib/aarch64/{SONAME}", 20)
        self.assertEqual(self.found(machine="aarch64"), other)
        self.assertEqual(self.found(), released)


if __name__ == "__main__":
    unittest.main()
