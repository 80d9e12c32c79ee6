"""Files that are not regular: a FIFO without a writer, a device without an end, standard input. None is opened before
everything before it is found in order.
"""
import os
import resource
import subprocess
import unittest

from program import PROGRAM, SEED, ProgramTest, fails, prints

# Two values of seven wires: `jobs` reads eight lines ahead.
CIRCUIT = "1 15\n2 7 7\n1 1\n2 1 0 7 14 XOR"
# Wire 14 is not set.
UNSET = "1 16\n2 7 7\n1 1\n2 1 0 14 15 XOR"

PATIENCE = 20
MEMORY = 2 << 30

# Words of `eval`, of which the last ones are never opened, and the fault of those before.
EVALS = [
    (("unset", "{}", "0", "1"), "8 Unset"),
    (("unset", "g", "{}", "1"), "8 Unset"),
    (("unset", "g", "0", "{}"), "8 Unset"),
    (("c.txt", "trailer", "{}", "1"), "35 BadTrailer"),
    (("c.txt", "g", "g", "{}"), "30 BadMagic"),
]

# Lists, of which the last file is never opened, and the fault of those before.
LISTS = [
    ("trailer 0 1\n{} 0 1", "35 BadTrailer"),
    ("trailer {}", "35 BadTrailer"),
    ("g 0 1\ntrailer 0 1\n{} 0 1", "35 BadTrailer"),
    ("g 0 1\ntrailer {}\ng 0 1", "35 BadTrailer"),
    ("g 0 g\ng 0 {}", "30 BadMagic"),
    ("g 0 0\n{} 0 1", "44 DoubleValue"),
    ("g 0 0\ng 0 {}", "44 DoubleValue"),
    ("g 0\ng {}", "45 MissingValue"),
]


def limit_memory():
    resource.setrlimit(resource.RLIMIT_AS, (MEMORY, MEMORY))


class WaitingFiles(ProgramTest):
    def setUp(self):
        super().setUp()
        self.put("c.txt", CIRCUIT)
        self.put("unset", UNSET)
        for words in [
            ("garble", "c.txt", SEED, "g"),
            ("deal", "c.txt", SEED, "0", "1010101", "0"),
            ("deal", "c.txt", SEED, "1", "0010101", "1"),
        ]:
            self.assertEqual(self.run_program(*words)[0], 0, words)
        garbled = self.bytes_of("g")
        self.put("trailer", garbled[:-1] + bytes([garbled[-1] ^ 1]))
        os.mkfifo(self.folder / "fifo")

    def give(self, data):
        """A pipe with these bytes."""
        reading, writing = os.pipe()
        self.addCleanup(os.close, reading)
        os.write(writing, data)
        os.close(writing)
        return reading

    def assert_ends_at_once(self, ending, *words, stdin=subprocess.DEVNULL):
        """The program ends so without a file that keeps it waiting, and in little memory."""
        done = subprocess.run(
            [PROGRAM, *words],
            cwd=self.folder,
            stdin=stdin,
            capture_output=True,
            timeout=PATIENCE,
            preexec_fn=limit_memory,
            check=False,
        )
        self.assertEqual((done.returncode, done.stdout.decode(), done.stderr.decode()), ending, words)

    def assert_never_opens(self, name, **how):
        """No command opens the file of this name after a fault."""
        for words, fault in EVALS:
            words = [word.format(name) for word in words]
            self.assert_ends_at_once(fails(fault), "eval", *words, **how)
        for lines, fault in LISTS:
            self.put("list", lines.format(name))
            self.assert_ends_at_once(fails(fault), "jobs", "c.txt", "list", **how)

    def test_a_fifo(self):
        self.assert_never_opens("fifo")

    def test_a_device_without_an_end(self):
        self.assert_never_opens("/dev/zero")
        process = subprocess.Popen(
            [PROGRAM, "eval", "unset", "g", "/dev/zero", "1"],
            cwd=self.folder,
            stderr=subprocess.DEVNULL,
            preexec_fn=limit_memory,
        )
        _, status, usage = os.wait4(process.pid, 0)
        process.returncode = os.waitstatus_to_exitcode(status)
        self.assertEqual(process.returncode, 1)
        self.assertLess(usage.ru_maxrss, MEMORY // 4 // 1024)

    def test_standard_input(self):
        data = self.bytes_of("1")
        reading = self.give(data)
        self.assert_never_opens("/dev/stdin", stdin=reading)
        self.assertEqual(os.read(reading, len(data) + 1), data)

    def test_honest_files_that_are_not_regular(self):
        for place, name in enumerate(["g", "0", "1"]):
            words = ["g", "0", "1"]
            words[place] = "/dev/stdin"
            data = self.bytes_of(name)
            self.assert_ends_at_once(prints("1\n"), "eval", "c.txt", *words, stdin=self.give(data))
            self.put("list", f"g 0 1\n{' '.join(words)}\ng 0 1\n")
            self.assert_ends_at_once(prints(3 * "1\n\n"), "jobs", "c.txt", "list", stdin=self.give(data))


if __name__ == "__main__":
    unittest.main()
