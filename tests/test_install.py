"""Installing a release, from a copy of the repository without its sources, and using what is installed; and what
./build writes for linkers, pkg-config and CMake."""

import os
import shlex
import shutil
import stat
import subprocess
import tempfile
import threading
import time
import unittest
from pathlib import Path
from shutil import which

from library import INCLUDE, LIB_DIR, SONAME, compiler, tool
from program import EXAMPLES, PROGRAM, TOP

RELEASE = LIB_DIR.parent
IS_RELEASE = (RELEASE / "SHA256SUMS").is_file()
EXAMPLE = EXAMPLES / "c/two_parties.c"
WORDS = EXAMPLES / "less8.txt", "7", "9"
LICENSES = "LICENSE-MIT", "LICENSE-APACHE", "THIRD-PARTY.md"
ADD = "plain", EXAMPLES / "full_adder.txt", "1", "0", "1"
RUN = "halfgates", "halfgates-convert"

CMAKE_LISTS = f"""
cmake_minimum_required(VERSION 3.13)
project(parties C)
find_package(halfgates 0.6 REQUIRED CONFIG)
add_executable(shared {EXAMPLE})
target_link_libraries(shared halfgates::halfgates)
add_executable(static {EXAMPLE})
target_link_libraries(static halfgates::static)
"""

# Prints which of these versions find a package.
CMAKE_VERSIONS = """
cmake_minimum_required(VERSION 3.13...3.19)
project(versions NONE)
foreach(wanted {})
  set(halfgates_FOUND FALSE)
  find_package(halfgates ${{wanted}} CONFIG QUIET)
  if(halfgates_FOUND)
    message(STATUS "finds ${{wanted}}")
  endif()
endforeach()
"""


def append(path, data):
    with path.open("ab") as file:
        file.write(data)


def run(*words, **how):
    done = subprocess.run(words, capture_output=True, text=True, check=False, timeout=120, **how)
    return done.returncode, done.stdout, done.stderr


@unittest.skipUnless(IS_RELEASE, "the library under test is not that of a release")
class InstallTest(unittest.TestCase):
    def setUp(self):
        folder = tempfile.TemporaryDirectory()
        self.addCleanup(folder.cleanup)
        self.folder = Path(folder.name).resolve()
        self.top, self.prefix = self.folder / "top", self.folder / "a prefix"
        self.top.mkdir()
        for name in ("install", "halfgates", "machine.sh", "sources.sh", *LICENSES):
            shutil.copy2(TOP / name, self.top)
        shutil.copytree(RELEASE, self.top / "dist")
        shutil.copytree(TOP / "python", self.top / "python")

    def install(self, prefix=None, **how):
        self.assertEqual(run(self.top / "install", prefix or self.prefix, **how), (0, "", ""))

    def files(self):
        found = sorted(it for it in self.prefix.rglob("*") if it.is_file() and "__pycache__" not in it.parts)
        return {str(it.relative_to(self.prefix)): it.read_bytes() for it in found}

    def test_files(self):
        self.install()
        installed = self.files()
        for name in ("include/halfgates.h", "include/halfgates.hpp", f"lib/{SONAME}", "lib/libhalfgates.a"):
            self.assertEqual(installed[name], (RELEASE / name).read_bytes(), name)
        for name in LICENSES:
            self.assertEqual(installed[f"share/doc/halfgates/{name}"], (TOP / name).read_bytes())
        self.assertEqual(os.readlink(self.prefix / "lib/libhalfgates.so"), SONAME)
        self.assertEqual(installed["share/man/man1/halfgates.1"], (RELEASE / "halfgates.1").read_bytes())
        for source in (*TOP.glob("python/halfgates/*.py"), TOP / "python/halfgates/py.typed"):
            self.assertEqual(installed[f"share/halfgates/python/halfgates/{source.name}"], source.read_bytes())

    def test_twice(self):
        """It replaces what stands there, also while it is used."""
        self.install()
        before = self.files()
        words, pipe = [self.prefix / "bin/halfgates", "check", "/dev/stdin"], subprocess.PIPE
        with subprocess.Popen(words, stdin=pipe, stdout=pipe, stderr=pipe) as running:
            self.install()
            self.assertIsNone(running.poll())
            _, errors = running.communicate((EXAMPLES / "full_adder.txt").read_bytes(), timeout=60)
            self.assertEqual((running.returncode, errors), (0, b""))
        self.assertEqual(self.files(), before)

    def test_each_file_is_there_meanwhile(self):
        """A program that starts while files are replaced finds the old ones or the new ones."""
        self.install()
        sizes = {self.prefix / name: len(data) for name, data in self.files().items()}
        is_done, missed = threading.Event(), []

        def watch():
            while not is_done.is_set():
                for path, size in sizes.items():
                    try:
                        found = path.stat().st_size
                    except FileNotFoundError:
                        found = None
                    if found != size:
                        missed.append((path.name, found))

        watcher = threading.Thread(target=watch)
        watcher.start()
        try:
            for _ in range(5):
                self.install()
        finally:
            is_done.set()
            watcher.join()
        self.assertEqual(missed, [])

    def test_modes(self):
        """Others can use what is installed, whatever the umask and the modes of the clone."""
        for path in [self.top, *self.top.rglob("*")]:
            path.chmod(path.stat().st_mode & 0o700)
        for umask in (0, 0o077):
            prefix = self.folder / f"umask{umask}"
            self.install(prefix, preexec_fn=lambda: os.umask(umask))
            for path in prefix.rglob("*"):
                is_run = path.is_dir() or path.name in RUN or path.name.startswith("libhalfgates.so")
                self.assertEqual(oct(stat.S_IMODE(path.stat().st_mode)), oct(0o755 if is_run else 0o644), path)

    def test_relative(self):
        """Also where CDPATH names other folders."""
        for name in ("elsewhere/top", "elsewhere/rel", "rel"):
            (self.folder / name).mkdir(parents=True)
        environment = {**os.environ, "CDPATH": str(self.folder / "elsewhere")}
        self.assertEqual(run("top/install", "rel/./", cwd=self.folder, env=environment), (0, "", ""))
        self.assertEqual([*(self.folder / "elsewhere/rel").iterdir()], [])
        self.assertIn(f"prefix={self.folder}/rel\n", (self.folder / "rel/lib/pkgconfig/halfgates.pc").read_text())

    def test_a_package(self):
        """DESTDIR is where the files are put, and PREFIX where they will be."""
        environment = {**os.environ, "DESTDIR": str(self.folder / "stage")}
        place = self.folder / "place"
        self.install(f"{place}/", env=environment)
        self.assertFalse(place.exists())
        staged, self.prefix = Path(f"{self.folder}/stage{place}"), self.folder / "same"
        self.install()
        packed = {str(it.relative_to(staged)) for it in staged.rglob("*") if it.is_file()}
        self.assertEqual(packed, {*self.files()})
        self.assertIn(f"prefix={place}\n", (staged / "lib/pkgconfig/halfgates.pc").read_text())
        ending = run(self.top / "install", "usr", env=environment)
        self.assertEqual(ending, (1, "", "install: where DESTDIR is set, PREFIX begins with a slash\n"))
        self.assertEqual(run(self.top / "install", "--uninstall", place, env=environment), (0, "", ""))
        self.assertEqual([it for it in staged.rglob("*") if not it.is_dir()], [])

    def test_uninstall(self):
        """It leaves what others have put there."""
        others = [self.prefix / name for name in ("bin/other", "lib/pkgconfig/other.pc", "share/doc/halfgates/note")]
        for path in others:
            path.parent.mkdir(parents=True, exist_ok=True)
            path.touch()
        self.install()
        for _ in range(2):
            self.assertEqual(run(self.top / "install", "--uninstall", self.prefix), (0, "", ""))
            self.assertEqual({it for it in self.prefix.rglob("*") if not it.is_dir()}, {*others})
        for name in ("libexec/halfgates", "share/halfgates"):
            self.assertFalse((self.prefix / name).exists())

    def test_prefixes_that_are_refused(self):
        said = "install: halfgates.pc can't name this PREFIX: it has a quote, a #, a $ or a control character\n"
        for odd in ("a'b", 'a"b', "a#b", "a$b", "a`b", "a\nb", "a\tb"):
            for how in ({}, {"env": {**os.environ, "DESTDIR": str(self.folder)}}):
                self.assertEqual(run(self.top / "install", f"{self.prefix}/{odd}", **how), (1, "", said), odd)
        self.assertFalse(self.prefix.exists())

    def test_the_program(self):
        self.install()
        self.assertEqual(run(self.prefix / "bin/halfgates", *ADD), (0, "01\n", ""))
        (self.folder / "link").symlink_to(self.prefix / "bin/halfgates")
        self.assertEqual(run(self.folder / "link", *ADD), (0, "01\n", ""))
        script = f'ulimit -f 0; PATH="{self.prefix}/bin:$PATH"; halfgates garble {EXAMPLES}/adder64.txt {64 * "0"} file'
        ending = run("sh", "-c", script, cwd=self.folder)
        self.assertEqual(ending, (1, "", "halfgates: fault 51 CannotWrite\n"))

    def test_the_package_for_python(self):
        """It finds the library beside it, and so does its command, also by a link."""
        self.install()
        environment = {name: it for name, it in os.environ.items() if not name.startswith(("HALFGATES_", "PYTHON"))}
        environment["PYTHONDONTWRITEBYTECODE"] = "1"
        (self.folder / "link").symlink_to(self.prefix / "bin/halfgates-convert")
        for command in (self.prefix / "bin/halfgates-convert", self.folder / "link"):
            words = command, "--check", "5", EXAMPLES / "full_adder.txt", self.folder / "made.txt"
            self.assertEqual(run(*words, env=environment)[::2], (0, ""))
            self.assertEqual((self.folder / "made.txt").read_text(), (EXAMPLES / "full_adder.txt").read_text())
        environment["PYTHONPATH"] = str(self.prefix / "share/halfgates/python")
        code = "from halfgates import _library; print(_library.library_path())"
        status, printed, error = run("python3", "-c", code, env=environment)
        self.assertEqual((status, error), (0, ""))
        self.assertEqual(Path(printed.strip()).resolve(), self.prefix / "lib" / SONAME)

    def test_a_prefix_that_moves(self):
        self.install()
        self.prefix.rename(self.folder / "moved")
        self.assertEqual(run(self.folder / "moved/bin/halfgates", *ADD), (0, "01\n", ""))
        self.assertEqual(run(self.folder / "moved/bin/halfgates-convert", "--help")[::2], (0, ""))

    def install_on(self, machine):
        """Installs where uname says so."""
        (self.folder / "bin").mkdir(exist_ok=True)
        (self.folder / "bin/uname").write_text(f"#!/bin/sh\necho {machine}\n")
        (self.folder / "bin/uname").chmod(0o755)
        environment = {**os.environ, "PATH": f"{self.folder}/bin:{os.environ['PATH']}"}
        return run(self.top / "install", self.prefix, env=environment)

    def test_arm64(self):
        self.assertEqual(self.install_on("aarch64"), (0, "", ""))
        installed = self.files()
        for name in (SONAME, "libhalfgates.a"):
            self.assertEqual(installed[f"lib/{name}"], (RELEASE / "lib/aarch64" / name).read_bytes())
        link = self.prefix / "share/halfgates/python/halfgates/lib/aarch64" / SONAME
        self.assertEqual(link.resolve(), self.prefix / "lib" / SONAME)
        self.assertEqual(installed["libexec/halfgates/halfgates"], (RELEASE / "aarch64/halfgates").read_bytes())
        self.assertFalse([name for name in installed if name.startswith("lib/glibc-hwcaps/")])

    def test_other_processors(self):
        status, _, error = self.install_on("riscv64")
        self.assertEqual((status, error), (1, "install: dist/ has nothing for this processor\n"))

    def test_usage(self):
        for words in ((), ("",), ("--help",), ("a", "b"), ("--uninstall",), ("--uninstall", "a", "b")):
            status, _, error = run(self.top / "install", *words)
            self.assertEqual((status, error), (2, "usage: ./install [--uninstall] PREFIX\n"), words)

    def test_damage(self):
        """A byte of a file that changed is seen, and nothing is installed."""
        library = self.top / "dist/lib" / SONAME
        data = bytearray(library.read_bytes())
        data[len(data) // 2] ^= 1
        library.write_bytes(data)
        status, _, error = run(self.top / "install", self.prefix)
        self.assertEqual(status, 1)
        self.assertIn("install: dist/ is damaged", error)
        self.assertEqual(self.files(), {})

    def test_what_was_built_from_other_sources(self):
        (self.top / "c").symlink_to(TOP / "c")
        shutil.copy2(TOP / "crates.txt", self.top)
        (self.top / "out").mkdir()
        (self.top / "out/halfgates").write_text("")
        (self.top / "out/halfgates.sources").write_text("0\n")
        status, _, error = run(self.top / "install", self.prefix)
        self.assertEqual(status, 1)
        self.assertIn("install: the sources have changed since out/halfgates was built", error)

    def pretend_to_build(self):
        """Puts a library that ./build made of these sources, whose C++ header has changed since the release."""
        for name in ("crates", "c"):
            (self.top / name).symlink_to(TOP / name)
        shutil.copy2(TOP / "crates.txt", self.top)
        shutil.copytree(INCLUDE, self.top / "include")
        append(self.top / "include/halfgates.hpp", b"/* later */\n")
        built = self.top / "out/lib"
        built.mkdir(parents=True)
        for name in (SONAME, "libhalfgates.a"):
            shutil.copy(RELEASE / "lib" / name, built)
        append(built / SONAME, b"built")
        script = 'top=$1; . "$top/sources.sh"; sum_of_sources halfgates_c'
        (built / f"{SONAME}.sources").write_text(run("sh", "-c", script, "sh", self.top)[1])
        later = time.time() + 10
        os.utime(built / SONAME, (later, later))

    def test_what_was_built_since_the_release(self):
        """The library of out/lib/ with its headers, in the place of the release's. One that an earlier release had for
        newer processors is gone."""
        self.install()
        earlier = self.prefix / "lib/glibc-hwcaps/x86-64-v3" / SONAME
        earlier.parent.mkdir(parents=True)
        earlier.touch()
        self.pretend_to_build()
        self.install()
        installed = self.files()
        self.assertTrue(installed[f"lib/{SONAME}"].endswith(b"built"))
        self.assertTrue(installed["include/halfgates.hpp"].endswith(b"/* later */\n"))
        self.assertFalse(earlier.exists())

    def test_a_header_that_changed_since_the_build(self):
        self.pretend_to_build()
        append(self.top / "include/halfgates.h", b"/* later still */\n")
        status, _, error = run(self.top / "install", self.prefix)
        self.assertEqual(status, 1)
        self.assertIn(f"install: the sources have changed since out/lib/{SONAME} was built", error)

    def test_pkg_config(self):
        if not which("pkg-config"):
            self.skipTest("there is no pkg-config")
        prefix = self.folder / r"a & b|c\d"
        self.install(prefix)
        for folder in (prefix, self.top / "dist"):
            environment = {**os.environ, "PKG_CONFIG_PATH": str(folder / "lib/pkgconfig")}
            flags = run("pkg-config", "--cflags", "--libs", "halfgates >= 0.6", env=environment)[1]
            program = self.folder / "program"
            rpath = f"-Wl,-rpath,{folder}/lib"
            self.assertEqual(run(compiler(".c")[0], EXAMPLE, *shlex.split(flags), rpath, "-o", program), (0, "", ""))
            self.assertEqual(run(program, *WORDS), (0, "1\n", ""))

    def test_cmake(self):
        if not which("cmake"):
            self.skipTest("there is no cmake")
        self.install()
        (self.folder / "CMakeLists.txt").write_text(CMAKE_LISTS)
        for number, prefix in enumerate((self.prefix, self.top / "dist")):
            made = self.folder / f"made{number}"
            words = ["cmake", f"-DCMAKE_PREFIX_PATH={prefix}", "-S", self.folder, "-B", made]
            self.assertEqual(run(*words)[::2], (0, ""))
            self.assertEqual(run("cmake", "--build", made)[::2], (0, ""))
            for program in ("shared", "static"):
                self.assertEqual(run(made / program, *WORDS), (0, "1\n", ""))


@unittest.skipUnless(IS_RELEASE, "the library under test is not that of a release")
class Processors(unittest.TestCase):
    """Each program of a release is for its own kind of processor. That for x86-64-v3 uses registers of AVX."""

    def test_instructions(self):
        for name in ("halfgates", "v3/halfgates"):
            words = [tool("objdump"), "--disassemble", "--no-show-raw-insn", RELEASE / name]
            printed = subprocess.run(words, capture_output=True, text=True, check=True).stdout
            self.assertEqual("%ymm" in printed, name == "v3/halfgates", name)

    @unittest.skipUnless(which("qemu-x86_64"), "there is no qemu-x86_64: the programs are not run on older processors")
    def test_older_processors(self):
        """A program runs where the processor has all that its code uses, and otherwise says so as it starts."""
        for name, processor, level in (
            ("halfgates", "Nehalem", None),
            ("halfgates", "core2duo", "x86-64-v2"),
            ("v3/halfgates", "Nehalem", "x86-64-v3"),
        ):
            status, printed, error = run("qemu-x86_64", "-cpu", processor, RELEASE / name, *ADD)
            self.assertEqual((status, printed), (127, "") if level else (0, "01\n"), name)
            self.assertTrue(error.startswith(f"this machine lacks a feature of {level}" if level else ""), error)


class ForLinkers(unittest.TestCase):
    """What ./build writes beside a library, in each folder that has one. The one for ARM64 gets a stand-in."""

    def setUp(self):
        folder = tempfile.TemporaryDirectory()
        self.addCleanup(folder.cleanup)
        self.folder = Path(folder.name).resolve()
        (self.folder / "halfgates").symlink_to(PROGRAM)

    def write(self, version=None):
        """Writes the texts of a release, as one of this version, and returns the folders of libraries."""
        build = {"__name__": "build", "__file__": str(TOP / "build")}
        exec(compile((TOP / "build").read_text(), TOP / "build", "exec"), build)
        build["sum_of_sources"] = lambda *_: ""
        if version:
            build["version"] = lambda: version
        build["write_texts"](str(self.folder))
        return [self.folder / at for at in ("lib", "lib/aarch64")]

    def use(self):
        """Writes them, puts libraries beside them, and returns the folders."""
        folders = self.write()
        for folder in folders:
            for name in (SONAME, "libhalfgates.a"):
                shutil.copy(LIB_DIR / name, folder)
        return folders

    @unittest.skipUnless(which("pkg-config"), "there is no pkg-config")
    def test_pkg_config(self):
        for folder in self.use():
            environment = {**os.environ, "PKG_CONFIG_PATH": str(folder / "pkgconfig")}
            flags = shlex.split(run("pkg-config", "--cflags", "--libs", "halfgates >= 0.6", env=environment)[1])
            words = [compiler(".c")[0], EXAMPLE, *flags, f"-Wl,-rpath,{folder}", "-o", folder / "program"]
            self.assertEqual(run(*words), (0, "", ""))
            self.assertEqual(run(folder / "program", *WORDS), (0, "1\n", ""))

    @unittest.skipUnless(which("cmake"), "there is no cmake")
    def test_cmake(self):
        (self.folder / "CMakeLists.txt").write_text(CMAKE_LISTS)
        for folder in self.use():
            words = f"-Dhalfgates_DIR={folder}/cmake/halfgates", "-S", self.folder, "-B", folder / "made"
            self.assertEqual(run("cmake", *words)[::2], (0, ""))
            self.assertEqual(run("cmake", "--build", folder / "made")[::2], (0, ""))
            for program in ("shared", "static"):
                self.assertEqual(run(folder / "made" / program, *WORDS), (0, "1\n", ""))

    @unittest.skipUnless(which("cmake"), "there is no cmake")
    def test_versions_for_cmake(self):
        """A release serves for earlier ones of its soname, and for no range that ends before it."""
        for version, (found, others) in {
            "0.9.5": (
                "0 0.6 0.9 0.9.5 0.6...0.9.5 0.6...<0.9.6 0.6...2",
                "0.9.6 0.10 1 1.0 99 0.6...0.9.4 0.6...<0.9.5",
            ),
            "1.2.0": ("1 1.0 1.2 1.0...<2 1...1.2.0", "0.6 0.9.5 0 1.3 2 0.9...2 1...<1.2"),
        }.items():
            self.write(version)
            (self.folder / "CMakeLists.txt").write_text(CMAKE_VERSIONS.format(f"{found} {others}"))
            words = f"-DCMAKE_PREFIX_PATH={self.folder}", "-S", self.folder, "-B", self.folder / version
            status, printed, error = run("cmake", *words)
            self.assertEqual((status, error), (0, ""))
            finds = [line.partition("finds ")[2] for line in printed.splitlines() if "finds " in line]
            self.assertEqual(finds, found.split(), version)


if __name__ == "__main__":
    unittest.main()
