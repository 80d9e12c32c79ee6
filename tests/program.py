"""The program under test, and the circuits, files and endings of runs that several tests share.

The program is the one that the environment variable HALFGATES names, or else the one that ./halfgates
runs. What lies in vectors/ and examples/ is imported by its name, after this module.
"""
import os
import shutil
import subprocess
import sys
import tempfile
from hashlib import sha256
from pathlib import Path
from unittest import TestCase

TOP = Path(__file__).resolve().parent.parent


def ask(file, command):
    """Runs a command of machine.sh or sources.sh, and returns its status and what it prints."""
    script = f'top=$1; . "$top/{file}"; {command}'
    done = subprocess.run(["sh", "-c", script, "sh", TOP], stdout=subprocess.PIPE, text=True, check=False)
    return done.returncode, done.stdout.rstrip("\n")


PROGRAM = Path(os.environ.get("HALFGATES") or ask("machine.sh", "find_program; echo $program")[1]).resolve()

EXAMPLES = TOP / "examples"

sys.path += [str(TOP / "vectors"), str(EXAMPLES)]
import bristol  # noqa: E402
import reference  # noqa: E402

SEED = 64 * "0"

XOR = "1 3\n2 1 1\n1 1\n2 1 0 1 2 XOR"
AND = "1 3\n2 1 1\n1 1\n2 1 0 1 2 AND"
INV = "1 2\n1 1\n1 1\n1 1 0 1 INV"
# A copy of a wire. Wires 1 and 2 are not set.
FAR_COPY = "1 4\n1 1\n1 1\n1 1 0 3 EQW"
ONE = "1 1\n0\n1 1\n1 1 1 0 EQ"
ZERO = "1 1\n0\n1 1\n1 1 0 0 EQ"
CONSTANT_AND = "2 3\n1 1\n1 1\n1 1 1 1 EQ\n2 1 0 1 2 AND"
NO_GATES = "0 2\n1 2\n1 2"
EMPTY = "00 00 00 00"
SQUARE = "1 2\n1 1\n1 1\n2 1 0 0 1 AND"
# A value of twelve wires, and two output values of one and twelve wires.
WIDE = "1 13\n1 12\n2 1 12\n1 1 0 12 EQW"
# Wires with numbers of seven digits.
MANY_WIRES = (
    "3 2097152\n2 2097149 0\n0\n"
    "1 1 2097148 2097149 INV\n1 1 0 2097150 EQ\n1 1 2097150 2097151 EQW"
)
FULL_ADDER = (
    "5 8\n3 1 1 1\n1 2\n\n"
    "2 1 0 2 3 XOR\n2 1 1 2 4 XOR\n2 1 3 4 5 AND\n2 1 3 1 6 XOR\n2 1 5 2 7 XOR\n"
)


def label_file(index, *labels):
    """The label file of an input value with these labels, each of 16 bytes."""
    head = b"HLABELS1" + index.to_bytes(4, "little") + len(labels).to_bytes(4, "little")
    return head + b"".join(labels)


def sealed(body):
    """A garbled file with a trailer to match."""
    return body + sha256(body).digest()


def text_of_lines(lines):
    """The text of these lines."""
    return "".join(f"{line}\n" for line in lines)


def prints(text):
    """The ending of a run that prints this: its status, standard output and standard error."""
    return 0, text, ""


def fails(fault):
    """The ending of a run with this fault, such as `18 BadSeed`."""
    return 1, "", f"halfgates: fault {fault}\n"


def audits(lines):
    """The ending of a run of `audit` that prints these lines."""
    return 3 if lines.endswith("\ndishonest\n") else 0, lines, ""


def ending_of(work):
    """The ending of a run whose lines, or whose fault, this work of the reference comes to."""
    try:
        return prints(text_of_lines(work()))
    except bristol.Fault as fault:
        return fails(f"{fault.number} {fault.name}")


def ending_of_audit(work):
    """The ending of a run of `audit` whose lines, or whose fault, this work of the reference comes to."""
    ending = ending_of(work)
    return audits(ending[1]) if ending[0] == 0 else ending


def ending_of_eval(circuit, garbled, labels):
    """The ending of `eval` over a garbled file and label files, by the reference."""

    def work():
        _, bits = reference.eval_files(circuit, garbled, labels)
        return bristol.show_values(bits, circuit.output_widths)

    return ending_of(work)


def script(*words, folder=EXAMPLES, **how):
    """Runs the script that makes circuits, as it lies in a folder."""
    words = [str(word) for word in (sys.executable, folder / "make_circuits.py", *words)]
    return subprocess.run(words, capture_output=True, check=False, **how).returncode


# The number of a user who may not read or write what is closed to all.
NOBODY = 65534


class ProgramTest(TestCase):
    """A test that runs the program in a folder of its own, over files there."""

    def setUp(self):
        folder = tempfile.TemporaryDirectory()
        self.addCleanup(folder.cleanup)
        self.folder = Path(folder.name)

    def put(self, name, content):
        """Writes a file, of text or of bytes, and returns its name."""
        data = content.encode() if isinstance(content, str) else content
        (self.folder / name).write_bytes(data)
        return name

    def put_all(self, name, contents):
        """Writes numbered files, and returns their names."""
        return [self.put(f"{name}{i}", content) for i, content in enumerate(contents)]

    def make(self, name, *words):
        """Writes a circuit by the script."""
        self.assertEqual(script(name, *words, self.folder / name), 0)

    def bytes_of(self, name):
        return (self.folder / name).read_bytes()

    def as_a_user(self):
        """How the program runs as a user who isn't root. Where root runs the tests, that is another user, who has the
        folder and a copy of the program there.
        """
        if os.geteuid() != 0:
            return {}
        program = shutil.copy(PROGRAM, self.folder)
        for path in self.folder, *self.folder.iterdir():
            os.chown(path, NOBODY, NOBODY)
        return {"executable": program, "user": NOBODY, "group": NOBODY, "extra_groups": []}

    def run_program(self, *words, **how):
        """The status, and what the program prints on standard output and on standard error."""
        how = {"stdout": subprocess.PIPE, "stderr": subprocess.PIPE, **how}
        words = [word if isinstance(word, bytes) else str(word) for word in words]
        done = subprocess.run(
            [PROGRAM, *words],
            cwd=self.folder,
            stdin=subprocess.DEVNULL,
            timeout=120,
            check=False,
            **how,
        )
        return done.returncode, (done.stdout or b"").decode(), (done.stderr or b"").decode()

    def assert_ends(self, ending, *words):
        """The program has this status, and prints this on standard output and standard error."""
        self.assertEqual(self.run_program(*words), ending, words)

    def assert_prints(self, text, *words):
        """The program succeeds and prints this."""
        self.assert_ends(prints(text), *words)

    def assert_fault(self, fault, *words):
        """The program ends with this fault, and prints no output."""
        self.assert_ends(fails(fault), *words)

    def assert_usage(self, *words):
        """The program takes these words for no order, and has status 2."""
        status, printed, errors = self.run_program(*words)
        self.assertEqual((status, printed), (2, ""), words)
        self.assertTrue(errors.startswith("error: "), errors)

    def assert_writes(self, data, name, *words):
        """The program writes these bytes to the file of this name, and prints how many they are."""
        self.assert_prints(f"wrote {len(data)}\n", *words)
        self.assertEqual(self.bytes_of(name), data, words)
