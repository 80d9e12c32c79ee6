"""The library from C and C++: its tests in tests/c/ and its examples, compiled with all warnings and, where
the compiler has them, with sanitizers."""
import os
import platform
import re
import subprocess
import sys
import tempfile
import unittest
from pathlib import Path
from shutil import which

from inputs import chain_of_ands, draws, respelled, worked_circuits
from library import (
    ARCHIVE, INCLUDE, LEVELS, LIB_DIR, LIBRARY, SONAME, WARNINGS, build, compiler, demand_library,
    environment_of_python, sanitizers, tool, write_with_code,
)
from program import EXAMPLES, TOP, sealed
from test_workers import layered

import bristol
import cases
import reference

SOURCES = TOP / "tests/c"

# What runs programs for ARM64, and what compiles them.
EMULATOR, CROSS_COMPILER = "qemu-aarch64", "aarch64-linux-gnu-gcc"

# One refusal of memory for each growth of a round, and the sanitizers have their own malloc.
WRAPPED = [f"-Wl,--wrap={name}" for name in ("malloc", "realloc", "free")]


# The names that a version script lists, and their version.
LISTED = re.compile(r"(\w+) \{\s*global:\s*((?:\w+;\s*)*)local:\s*\*;\s*\};")


def names_in(*words):
    """The names that nm prints."""
    done = subprocess.run([tool("nm"), *words], capture_output=True, text=True, check=True)
    return {line.split()[-1] for line in done.stdout.splitlines() if line.count(" ") > 1}


def shared_libraries():
    """The shared libraries for each kind of processor that the folder under test has."""
    return sorted(LIB_DIR.rglob(SONAME))


def listed_names():
    """The names that the library exports by the checked-in list, each with its version."""
    version, names = LISTED.search((TOP / "c/halfgates.map").read_text()).groups()
    return {f"{name}@@{version}" for name in re.findall(r"\w+", names)}


def declared_names():
    """The functions that the header declares."""
    header = re.sub(r"/\*.*?\*/", "", (INCLUDE / "halfgates.h").read_text(), flags=re.S)
    return set(re.findall(r"^\w+ (halfgates_\w+)\(", header, re.M))


def stack_of_header():
    """The kilobytes of stack that the header says of each call that it names, and of every other call."""
    header = re.sub(r"\s[ *]+", " ", (INCLUDE / "halfgates.h").read_text())
    said = header.partition("STACK. ")[2].partition("BUFFERS. ")[0]
    figures = re.findall(r"(halfgates_\w+) (?:uses )?(\d+)", said)
    return {name: int(figure) for name, figure in figures}, int(re.search(r"every other call less than (\d+)", said)[1])


def declared_codes():
    """The codes of the header, by name."""
    header = (INCLUDE / "halfgates.h").read_text().partition("typedef")[0]
    return {name: int(code) for name, code in re.findall(r"^    HALFGATES_(\w+) = (\d+)", header, re.M)}


class LibraryTest(unittest.TestCase):
    def setUp(self):
        demand_library()
        folder = tempfile.TemporaryDirectory()
        self.addCleanup(folder.cleanup)
        self.folder = Path(folder.name)

    def library_with_code(self, level, **how):
        """A copy of the shared library, in a folder of its own, of which only the code for this level works."""
        folder = self.folder / f"level{level}"
        folder.mkdir()
        write_with_code(level, folder / SONAME, **how)
        return folder / SONAME

    def run_built(self, source, *words, flags=()):
        """Compiles a source with the sanitizers, runs it, and returns what it prints."""
        program = self.folder / source.stem
        build(source, program, *sanitizers(source.suffix), *flags)
        environment = {**os.environ, "ASAN_OPTIONS": "detect_leaks=1"}
        how = {"capture_output": True, "text": True, "timeout": 300, "check": False, "env": environment}
        done = subprocess.run([program, *words], **how)
        self.assertEqual((done.returncode, done.stderr), (0, ""), source.name)
        return done.stdout


class FromC(LibraryTest):
    def test_worked_circuits(self):
        folders = []
        for name, vector in worked_circuits():
            for number, evaluation in enumerate(vector["evaluations"]):
                folders.append(self.folder / f"{name}-{number}")
                folders[-1].mkdir()
                for file, data in files_of(vector, evaluation).items():
                    (folders[-1] / file).write_bytes(data)
        self.run_built(SOURCES / "worked.c", *folders)

    def test_circuits_in_order(self):
        folders = []
        for number, circuit in enumerate(circuits_to_order()):
            folders.append(self.folder / f"order{number}")
            folders[-1].mkdir()
            for file, data in files_of_order(number, circuit).items():
                (folders[-1] / file).write_bytes(data)
        self.run_built(SOURCES / "ordered.c", *folders)

    def test_bad_arguments(self):
        self.run_built(SOURCES / "arguments.c")

    def test_gates(self):
        self.run_built(SOURCES / "gates.c")

    def test_digests(self):
        self.run_built(SOURCES / "digests.c")

    def test_rows(self):
        self.run_built(SOURCES / "rows.c")

    def test_labels(self):
        self.run_built(SOURCES / "labels.c")

    def test_streaming(self):
        self.run_built(SOURCES / "streaming.c")

    def test_null_with_a_size(self):
        self.run_built(SOURCES / "null.c")

    def test_null_with_a_size_by_bare_names(self):
        self.run_built(SOURCES / "null.c", LIBRARY)

    def test_null_of_size_0(self):
        self.run_built(SOURCES / "nothing.c")

    def test_refused_memory(self):
        printed = self.run_built(SOURCES / "memory.c", flags=WRAPPED)
        self.assertRegex(printed, r"^\d+ growths refused\n$")

    def test_joined_circuits(self):
        self.run_built(SOURCES / "joined.c")

    def test_threads(self):
        self.run_built(SOURCES / "threads.c", flags=["-pthread"])

    @unittest.skipUnless(platform.machine() == "x86_64", "the header's figures for the stack are those of x86-64")
    def test_stack(self):
        """Each call keeps within the kilobytes that the header names, which aren't twice what it needs."""
        said, others = stack_of_header()
        program, most = self.folder / "stack", {}
        for library in (ARCHIVE, *map(self.library_with_code, LEVELS)):
            build(SOURCES / "stack.c", program, f"-Wl,-rpath,{library.parent}", library=library)
            done = subprocess.run([program, EXAMPLES / "adder64.txt"], capture_output=True, text=True, check=True)
            for name, size in map(str.split, done.stdout.splitlines()):
                most[f"halfgates_{name}"] = max(int(size), most.get(f"halfgates_{name}", 0))
        self.assertEqual({*most}, declared_names())
        for name, size in most.items():
            self.assertLessEqual(size, 1000 * said.get(name, others), name)
        for name, kilobytes in said.items():
            self.assertLess(1000 * kilobytes, 2 * most[name], name)

    def test_memory_of_handles(self):
        """The bytes of each handle are those that the documents give, and it takes little more while it is made."""
        page = (TOP / "docs/LIBRARY.md").read_text().partition("## Memory\n")[2].partition("\n## ")[0]
        rows = re.findall(r"^\| (\w+) \| (\d+) \| (\d+) \| (\d+) \| (\d+) \|$", page, re.M)
        said = {handle: [int(it) for it in figures] for handle, *figures in rows}
        program, found = self.folder / "sizes", {}
        build(SOURCES / "sizes.c", program, *WRAPPED)
        for line in subprocess.run([program], capture_output=True, text=True, check=True).stdout.splitlines():
            handle, *words = line.split()
            found[handle] = [int(it) for it in words[1::3]]
            for kept, peak in zip(found[handle], map(int, words[2::3])):
                self.assertLessEqual(peak, kept + 16, line)
        self.assertEqual(found, said)

    def test_a_million_gates(self):
        self.run_built(SOURCES / "million.c")

    def test_examples_by_each_compiler(self):
        """None of them has a warning, with optimization or without."""
        for source in sorted(EXAMPLES.glob("c/*.c")):
            for command in filter(which, ("gcc", "clang")):
                for level in ("-O0", "-O2"):
                    words = [command, "-std=c11", *WARNINGS, level, f"-I{INCLUDE}", "-c", source, "-o", os.devnull]
                    said = subprocess.run(words, capture_output=True, text=True, check=False).stderr
                    self.assertEqual(said, "", (source.name, command, level))

    def test_files_that_the_examples_cannot_read(self):
        for name, words in (("two_parties", "7 9"), ("pipelined", "7 9"), ("sha256_chain", "abc")):
            program = self.folder / name
            build(EXAMPLES / f"c/{name}.c", program)
            for place, said in ((self.folder, "Is a directory"), (self.folder / "none", "No such file or directory")):
                done = subprocess.run([program, place, *words.split()], capture_output=True, text=True, check=False)
                self.assertEqual((done.returncode, done.stdout, done.stderr), (1, "", f"{name}: {said}\n"))

    def test_two_parties(self):
        example = EXAMPLES / "c/two_parties.c"
        self.assertEqual(self.run_built(example, EXAMPLES / "less8.txt", "7", "9"), "1\n")
        self.assertEqual(self.run_built(example, EXAMPLES / "less8.txt", "9", "7"), "0\n")
        sum_of_both = str(2**63 + 12345)
        words = EXAMPLES / "adder64.txt", str(2**63), "12345"
        self.assertEqual(self.run_built(example, *words), f"{sum_of_both}\n")


    def test_pipelined(self):
        example, less8 = EXAMPLES / "c/pipelined.c", EXAMPLES / "less8.txt"
        self.assertEqual(self.run_built(example, less8, "7", "9"), "1\n")
        self.assertEqual(self.run_built(example, less8, "9", "7"), "0\n")
        several = self.folder / "several"
        several.write_text(chain_of_ands(10_000))
        self.assertEqual(self.run_built(example, several, "255", "255"), "255\n")
        self.assertEqual(self.run_built(example, several, "191", "255"), "191\n")


# What the C++ header keeps a program from: each would compile with an earlier version of it.
MISUSES = {
    "a view of a list": "halfgates::view bits{1, 1};",
    "a view of a list that begins with 0": "halfgates::view bits{0, 1};",
    "a view of a temporary": "halfgates::view bits(halfgates::bytes(3));",
    "a seed of nothing": "halfgates::seed seed{};",
    "a seed of nothing, as an argument": "auto garbling = circuit.garble({});",
    "a seed of a list": "auto garbling = circuit.garble({{3}});",
    "outputs dropped": "circuit.plain({1, 1});",
    "a garbling dropped": "circuit.garble(halfgates::seed::random());",
    "a garbler dropped": "circuit.garbler(halfgates::seed::random());",
    "an audit dropped": "circuit.garble(halfgates::seed::random()).audit_rows({}, {});",
    "a circuit without its digest dropped": 'halfgates::circuit::read_without_digest("");',
    "how much was taken dropped": "circuit.evaluator(0, {}).feed({});",
    "a copy of a garbler": "halfgates::garbler one; halfgates::garbler other = one;",
    "a copy of a handle": "halfgates::circuit other = circuit;",
}


class FromCPlusPlus(LibraryTest):
    def test_its_header(self):
        self.run_built(SOURCES / "raii.cpp")

    def test_beside_the_c_calls(self):
        circuit, forged = self.folder / "circuit", []
        circuit.write_text(OF_FORGED_FILES)
        for number, file in enumerate(forged_files(OF_FORGED_FILES.encode(), bytes([3] * 32))):
            forged.append(self.folder / f"forged{number}")
            forged[-1].write_bytes(file)
        self.run_built(SOURCES / "beside.cpp", circuit, *forged)

    def test_seeds_without_random_bytes(self):
        source, program = self.folder / "entropy.cpp", self.folder / "entropy"
        source.write_text(NO_ENTROPY)
        build(source, program)
        self.assertEqual(subprocess.run([program], check=False).returncode, 0)

    def test_later_standards(self):
        for standard in ("-std=c++17", "-std=c++20"):
            with self.subTest(standard):
                self.run_built(SOURCES / "raii.cpp", flags=[standard])

    def test_misuses_do_not_compile(self):
        self.assertEqual(self.compiles("auto bits = circuit.plain({1, 1});"), "")
        for name, misuse in MISUSES.items():
            with self.subTest(name):
                self.assertIn("error: ", self.compiles(misuse))

    def compiles(self, statement):
        """What the compiler says of a function of this statement."""
        source = self.folder / "misuse.cpp"
        source.write_text(f"#include <halfgates.hpp>\nvoid use(halfgates::circuit &circuit) {{ {statement} }}\n")
        command, standard = compiler(".cpp")
        words = [command, standard, "-fsyntax-only", "-Werror=unused-result", f"-I{INCLUDE}", source]
        return subprocess.run(words, capture_output=True, text=True, check=False).stderr

    def test_the_c_header_in_c_plus_plus(self):
        source = self.folder / "header.cpp"
        source.write_text("#include <halfgates.h>\nint main() { return halfgates_fault_name(0).text[0] != 'O'; }\n")
        self.run_built(source)


class Files(LibraryTest):
    """The files that ./build makes."""

    def test_names(self):
        """The header, the checked-in list and the libraries have the same names, of one version."""
        self.assertEqual(listed_names(), {f"{name}@@HALFGATES_0" for name in declared_names()})
        for library in shared_libraries():
            self.assertEqual(names_in("-D", "--defined-only", library), listed_names(), library)
        for archive in LIB_DIR.rglob("libhalfgates.a"):
            self.assertEqual(names_in("-g", "--defined-only", archive), declared_names(), archive)

    def test_layout(self):
        self.run_built(SOURCES / "layout.c")

    def test_versions(self):
        """The version of the header is that of the library."""
        source = self.folder / "version.c"
        source.write_text(VERSION)
        self.assertEqual(self.run_built(source).split(), ["1"])

    def test_the_package_for_python_has_each_function(self):
        script = "from halfgates import _library; print(*_library._FUNCTIONS)"
        words = [sys.executable, "-c", script]
        how = {"env": environment_of_python(), "capture_output": True, "text": True, "check": True}
        names = subprocess.run(words, **how).stdout.split()
        self.assertEqual({f"halfgates_{name}" for name in names}, declared_names())

    def test_codes(self):
        """Each code has the name that the documents give it."""
        by_code = dict(re.findall(r"^\| (\d+) \| (\w+) \|", (TOP / "docs/FAULTS.md").read_text(), re.M))
        source = self.folder / "codes.c"
        source.write_text(CODES)
        printed = self.run_built(source)
        named = {int(code): name for code, name in map(str.split, printed.splitlines())}
        for name, code in declared_codes().items():
            self.assertEqual(named.pop(code), by_code[str(code)] if code else "Ok", name)
        self.assertEqual(set(named.values()), {"Unknown"})

    def test_linking(self):
        """Links as a user does, with the shared library."""
        source, program = EXAMPLES / "c/two_parties.c", self.folder / "two_parties"
        words = [compiler(".c")[0], source, f"-I{INCLUDE}", f"-L{LIB_DIR}", "-lhalfgates", "-o", program]
        subprocess.run(words, check=True)
        environment = {**os.environ, "LD_LIBRARY_PATH": str(LIB_DIR), "LD_DEBUG": "libs"}
        words = [program, EXAMPLES / "less8.txt", "1", "2"]
        done = subprocess.run(words, env=environment, capture_output=True, text=True, check=False)
        self.assertEqual((done.returncode, done.stdout), (0, "1\n"))
        self.assertIn(f"calling init: {LIB_DIR / SONAME}\n", done.stderr)

    def test_arm64(self):
        """The example runs on the library for ARM64, where there is an emulator."""
        archive, emulator, cross = LIB_DIR / "aarch64/libhalfgates.a", which(EMULATOR), which(CROSS_COMPILER)
        if not (archive.is_file() and emulator and cross):
            self.skipTest(f"the library for ARM64 isn't run: that takes a release's, {EMULATOR} and {CROSS_COMPILER}")
        source, program = EXAMPLES / "c/two_parties.c", self.folder / "two_parties"
        subprocess.run([cross, "-static", source, f"-I{INCLUDE}", archive, "-o", program], check=True)
        words = [emulator, program, EXAMPLES / "adder64.txt", "7", "9"]
        done = subprocess.run(words, capture_output=True, text=True, check=False)
        self.assertEqual((done.returncode, done.stdout), (0, "16\n"))


VERSION = """
#include <halfgates.h>
#include <stdio.h>
#include <string.h>
int main(void) {
    const halfgates_name version = halfgates_version();
    char text[32];
    snprintf(text, 32, "%d.%d.%d", HALFGATES_VERSION_MAJOR, HALFGATES_VERSION_MINOR, HALFGATES_VERSION_PATCH);
    printf("%d\\n", strcmp(text, version.text) == 0);
    return 0;
}
"""

# The system has no random bytes.
NO_ENTROPY = """
#include <halfgates.hpp>
extern "C" int getentropy(void *, size_t) noexcept {
    errno = ENOSYS;
    return -1;
}
int main() {
    try {
        (void)halfgates::seed::random();
    } catch (const std::system_error &error) {
        return error.code().value() != ENOSYS;
    }
    return 1;
}
"""

CODES = """
#include <halfgates.h>
#include <stdio.h>
int main(void) {
    for (int code = -1; code < 100; code++)
        printf("%d %s\\n", code, halfgates_fault_name(code).text);
    return 0;
}
"""


# Input values of 1 and 2 wires, output values of 2 and 1, and three AND gates.
OF_FORGED_FILES = """6 9
2 1 2
2 2 1

2 1 0 1 3 AND
2 1 0 2 4 XOR
2 1 4 2 5 AND
1 1 3 6 INV
2 1 5 1 7 AND
2 1 4 5 8 XOR
"""


def forged_files(text, seed):
    """Garbled files of both versions, each with one bit flipped, and sealed again: of the digest, and of each half
    gate, each decode bit and each decode entry."""
    circuit = bristol.read_circuit(text)
    garbling, files = reference.garble(circuit, seed), []
    rows, outputs = 2 * len(garbling.rows), len(bristol.output_wires(circuit))
    bits = 48 + 16 * rows
    for version in (1, 2):
        file = reference.garbled_file(circuit, garbling, version)
        places = [(8, 0), *((48 + 16 * row, 3) for row in range(rows)), *((bits, output) for output in range(outputs))]
        places += [(bits + 1 + 16 * entry, 7) for entry in range(2 * outputs if version == 2 else 0)]
        for place, bit in places:
            body = bytearray(file[:-32])
            body[place] ^= 1 << bit
            files.append(sealed(bytes(body)))
    return files


def files_of(vector, evaluation):
    """The files of a worked circuit and an evaluation of it, as worked.c reads them."""
    as_bits = lambda texts: bytes(int(digit) for digit in "".join(texts))
    return {
        "circuit": "\n".join(vector["circuit"]).encode(),
        "seed": bytes.fromhex(vector["seed"]),
        "digest": bytes.fromhex(vector["digest"]),
        "garbled1": bytes.fromhex("".join(vector["garbled_file_1"])),
        "garbled2": bytes.fromhex("".join(vector["garbled_file_2"])),
        "bits": as_bits(evaluation["values"]),
        "labels": bytes.fromhex("".join(evaluation["label_files"])),
        "outputs": as_bits(evaluation["outputs"]),
    }


def circuits_to_order():
    """The texts of random circuits, in any spelling, and of circuits of many AND depths."""
    for _, draw in draws(40, "order in C"):
        text = cases.random_circuit(draw, draw.below(9), draw.below(61), draw.below(2))
        yield respelled(draw, text).encode()
        yield layered(draw, [20 * [6]]).encode()


def files_of_order(number, text):
    """The files of a circuit, as ordered.c reads them."""
    circuit = bristol.read_circuit(text)
    values = [[(number + i) // 3 % 2 for i in range(width)] for width in circuit.input_widths]
    return {
        "circuit": text,
        "canonical": bristol.canonical_text(circuit),
        "ordered": bristol.canonical_text(bristol.order_by_depth(circuit)),
        "bits": bytes(bit for bits in values for bit in bits),
        "outputs": bytes(bristol.plain_eval(circuit, values)),
    }


if __name__ == "__main__":
    unittest.main()
