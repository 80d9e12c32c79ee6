"""The crate for Rust in rust/: cargo tests it over the library under test, and its declarations are the header's."""
import os
import re
import shutil
import subprocess
import tempfile
import unittest
from pathlib import Path

from library import INCLUDE, LIB_DIR, SONAME, demand_library, tool
from program import EXAMPLES, TOP

CRATE = TOP / "rust"
LESS = EXAMPLES / "less8.txt"

# The types of the header's parameters, without pointers.
TYPES = {
    "uint8_t": "u8",
    "uint32_t": "u32",
    "uint64_t": "u64",
    "int32_t": "i32",
    "size_t": "usize",
}


# The build script of a crate that links the library by itself.
LINKS = """fn main() {
    println!("cargo:rustc-link-search=native={}", std::env::var("PLACE").unwrap());
    println!("cargo:rustc-link-lib=static=halfgates");
}
"""


def rust_of(parameter):
    """The type in Rust of a parameter of C, such as `const uint8_t seed[32]`."""
    base = re.sub(r"^const ", "", parameter).split()[0]
    pointers = parameter.count("*") + parameter.count("[")
    inner = "*const " if parameter.startswith("const ") else "*mut "
    outer = "*const " if "*const *" in parameter else "*mut "
    return outer * (pointers - 1) + inner * bool(pointers) + TYPES.get(base, base)


def functions_of_header():
    text = re.sub(r"/\*.*?\*/", "", (INCLUDE / "halfgates.h").read_text(), flags=re.S)
    for returned, name, parameters in re.findall(r"^(\w+) (halfgates_\w+)\(([^)]*)\);", text, re.M):
        found = [rust_of(" ".join(it.split())) for it in parameters.split(",") if it != "void"]
        yield name, (found, None if returned == "void" else rust_of(returned))


def functions_of_crate():
    text = (CRATE / "src/sys.rs").read_text()
    for name, parameters, returned in re.findall(r"pub fn (\w+)\(([^)]*)\)(?: -> (\w+))?;", text):
        yield name, (re.findall(r": ([^,\n]+)", parameters), returned or None)


class Declarations(unittest.TestCase):
    def test_functions(self):
        found = dict(functions_of_header())
        self.assertGreater(len(found), 20)
        self.assertEqual(dict(functions_of_crate()), found)

    def test_codes(self):
        codes = (INCLUDE / "halfgates.h").read_text().partition("typedef")[0]
        header = re.findall(r"^ +HALFGATES_(\w+) = (\d+)", codes, re.M)
        crate = re.findall(r"^ +([A-Z_]+) = (\d+) \"", (CRATE / "src/fault.rs").read_text(), re.M)
        every = sorted([("OK", "0"), *crate], key=lambda it: int(it[1]))
        self.assertEqual(every, header)

    def test_version(self):
        files = CRATE / "Cargo.toml", CRATE / "Cargo.lock", TOP / "python/pyproject.toml"
        said = {re.search(r'^name = "halfgates"\nversion = "(.*)"$', it.read_text(), re.M)[1] for it in files}
        self.assertEqual(len(said), 1, said)


@unittest.skipUnless(shutil.which("cargo"), "there is no cargo: the crate for Rust is not tested")
class Cargo(unittest.TestCase):
    @classmethod
    def setUpClass(cls):
        demand_library()
        folder = tempfile.TemporaryDirectory()
        cls.addClassCleanup(folder.cleanup)
        cls.folder = Path(folder.name).resolve()

    def cargo(self, *words, folder=CRATE, **environment):
        """What cargo prints where it runs with the library under test. Warnings are errors."""
        environment = {
            **{name: it for name, it in os.environ.items() if not name.startswith("HALFGATES_")},
            **{"HALFGATES_LIB_DIR": str(LIB_DIR), "CARGO_TARGET_DIR": str(self.folder / "target")},
            **{"RUSTDOCFLAGS": "-D warnings", **environment},
        }
        how = {"cwd": folder, "env": environment, "capture_output": True, "text": True, "check": False}
        done = subprocess.run(["cargo", words[0], "--offline", *words[1:]], **how)
        self.assertEqual(done.returncode, 0, f"{done.stdout}\n{done.stderr}")
        return done.stdout

    def run_example(self, **how):
        """Runs the example, and returns the shared libraries that it needs."""
        words = "--quiet", "--example", "two_parties", LESS
        self.assertEqual(self.cargo("run", *words, "7", "9", **how), "1\n")
        self.assertEqual(self.cargo("run", *words, "9", "7", **how), "0\n")
        said = subprocess.run(
            [tool("readelf"), "-d", self.folder / "target/debug/examples/two_parties"],
            capture_output=True, text=True, check=True,
        ).stdout
        return re.findall(r"Shared library: \[(.*)\]", said)

    def odd_folder(self):
        """A folder with the library, in whose path are a blank and a comma."""
        odd = self.folder / "a, b"
        if not odd.is_dir():
            shutil.copytree(LIB_DIR, odd)
        return odd

    def test_its_tests(self):
        counts = re.findall(r"^test result: ok\. (\d+) passed; 0 failed; 0 ignored", self.cargo("test"), re.M)
        self.assertGreater(sum(map(int, counts)), 20)

    def test_its_documents(self):
        self.cargo("doc", "--no-deps")

    @unittest.skipUnless(shutil.which("cargo-clippy"), "there is no cargo-clippy")
    def test_clippy(self):
        self.cargo("clippy", "--all-targets", "--", "-D", "warnings", "-A", "clippy::pedantic")

    def test_the_archive_and_the_shared_library(self):
        for folder in (LIB_DIR, self.odd_folder()):
            how = {"HALFGATES_LIB_DIR": str(folder)}
            self.assertNotIn(SONAME, self.run_example(**how))
            self.assertIn(SONAME, self.run_example(HALFGATES_DYNAMIC="1", **how))

    def test_a_package_of_it(self):
        """It is built from its own files alone, by itself and in a crate that links the library by itself."""
        self.cargo("package", "--allow-dirty", "--features", "unlinked", HALFGATES_LIB_DIR="")
        [package] = self.folder.glob("target/package/halfgates-*.crate")
        user = self.folder / "user"
        (user / "src").mkdir(parents=True)
        shutil.unpack_archive(package, user, format="gztar")
        path = package.name[: -len(".crate")]
        used = f'halfgates = {{ path = "{path}", features = ["unlinked"] }}'
        (user / "Cargo.toml").write_text(f'[package]\nname = "user"\nedition = "2021"\n[dependencies]\n{used}\n')
        (user / "build.rs").write_text(LINKS)
        (user / "src/main.rs").write_text('fn main() { println!("{}", halfgates::version()) }\n')
        said = self.cargo("run", "--quiet", folder=user, HALFGATES_LIB_DIR="", PLACE=str(LIB_DIR))
        self.assertRegex(said, r"^\d+\.\d+\.\d+\n$")

    @unittest.skipUnless(shutil.which("pkg-config"), "there is no pkg-config")
    def test_what_pkg_config_finds(self):
        """In a copy of the crate alone, beside what was built where the crate lies in the repository."""
        copy, odd = self.folder / "copy/rust", self.odd_folder()
        shutil.copytree(CRATE, copy, ignore=shutil.ignore_patterns("target"))
        place = re.sub(r"([ ,])", r"\\\1", str(odd))
        pc_file = f"Name: halfgates\nDescription: under test\nVersion: 0\nLibs: -L{place} -lhalfgates\n"
        (copy.parent / "halfgates.pc").write_text(pc_file)
        paths = {"PKG_CONFIG_PATH": str(copy.parent), "LD_LIBRARY_PATH": str(odd)}
        self.assertIn(SONAME, self.run_example(folder=copy, HALFGATES_LIB_DIR="", **paths))


if __name__ == "__main__":
    unittest.main()
