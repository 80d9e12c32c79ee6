"""The file OUT of `garble`, `deal` and `order`: names that are refused, and that it is replaced at once."""
import ctypes
import os
import platform
import resource
import signal
import stat
import struct
import threading
import unittest
from pathlib import Path

from program import FULL_ADDER, SEED, XOR, ProgramTest, fails

import bristol
import reference

CIRCUIT = bristol.read_circuit(XOR.encode())
GARBLED = reference.garbled_file(CIRCUIT, reference.garble(CIRCUIT, bytes(32)), 2)

UNWRITTEN = fails("51 CannotWrite")

# The words before OUT.
WRITERS = ("garble", "c.txt", SEED), ("deal", "c.txt", SEED, "0", "1"), ("order", "c.txt")

STANDARD_OUTPUT = "/dev/stdout", "/dev/fd/1", "/proc/self/fd/1", "/dev/../dev/stdout"


def small_files():
    """Files can't grow beyond 100 bytes, which is a disk that fills up."""
    signal.signal(signal.SIGXFSZ, signal.SIG_IGN)
    resource.setrlimit(resource.RLIMIT_FSIZE, (100, 100))


# Numbers of calls of the system, by the machine.
FCHMOD = {"x86_64": 91, "aarch64": 52}
RENAME = {"x86_64": 82, "aarch64": 38}


def refuse(calls):
    """The system permits this call no more: a filter of four instructions refuses it."""
    refused, allowed, libc = 0x50001, 0x7FFF0000, ctypes.CDLL(None)
    lines = (0x20, 0, 0, 0), (0x15, 0, 1, calls[platform.machine()]), (6, 0, 0, refused), (6, 0, 0, allowed)
    code = ctypes.create_string_buffer(b"".join(struct.pack("HBBI", *line) for line in lines))
    program = struct.pack("HP", len(lines), ctypes.addressof(code))
    no_new_privileges, filter_calls = libc.prctl(38, 1, 0, 0, 0), libc.prctl(22, 2, program)
    assert (no_new_privileges, filter_calls) == (0, 0)


class Out(ProgramTest):
    def setUp(self):
        super().setUp()
        self.put("c.txt", XOR)

    def names(self):
        return sorted(path.name for path in self.folder.iterdir())

    @unittest.skipUnless(os.path.exists("/dev/stdout"), "there is no /dev/stdout")
    def test_names_of_standard_output(self):
        (self.folder / "link").symlink_to("/dev/stdout")
        (self.folder / "second").symlink_to("link")
        before = self.names()
        for words in WRITERS:
            for out in *STANDARD_OUTPUT, "link", "second":
                self.assertEqual(self.run_program(*words, out), UNWRITTEN, out)
                with (self.folder.parent / f"{self.folder.name}.out").open("w+b") as file:
                    ending = self.run_program(*words, out, stdout=file)
                    os.unlink(file.name)
                    self.assertEqual((ending, file.read()), (UNWRITTEN, b""), out)
        self.assertEqual(self.names(), before)

    def test_names_of_the_circuit(self):
        (self.folder / "link").symlink_to("c.txt")
        (self.folder / "folder").mkdir()
        for words in WRITERS:
            for out in "c.txt", "./c.txt", "folder/../c.txt", self.folder / "c.txt", "link":
                self.assertEqual(self.run_program(*words, out), UNWRITTEN, out)
        self.assertEqual(self.bytes_of("c.txt"), XOR.encode())
        self.assertEqual(self.names(), ["c.txt", "folder", "link"])

    def test_a_new_file(self):
        self.assert_writes(GARBLED, "g", *WRITERS[0], "g")
        self.assertEqual(self.names(), ["c.txt", "g"])

    def test_a_file_is_replaced(self):
        """The old file keeps its bytes under its other name, and the new one has its permissions."""
        self.put("g", "old")
        (self.folder / "g").chmod(0o640)
        os.link(self.folder / "g", self.folder / "other")
        self.assert_writes(GARBLED, "g", *WRITERS[0], "g")
        self.assertEqual(self.bytes_of("other"), b"old")
        self.assertEqual(stat.S_IMODE((self.folder / "g").stat().st_mode), 0o640)
        self.assertEqual(self.names(), ["c.txt", "g", "other"])

    def test_a_disk_that_fills_up(self):
        self.put("g", "old")
        for out in "g", "new":
            ending = self.run_program(*WRITERS[0], out, preexec_fn=small_files)
            self.assertEqual(ending, UNWRITTEN)
        self.assertEqual(self.bytes_of("g"), b"old")
        self.assertEqual(self.names(), ["c.txt", "g"])

    @unittest.skipUnless(platform.machine() in RENAME, "the numbers of calls aren't known")
    def test_a_new_file_that_is_refused(self):
        """A new file that can't have the permissions or the name of the old one is removed."""
        if os.environ.get("EMULATED"):
            self.skipTest("an emulator makes other system calls than its program")
        self.put("g", "old")
        for calls, out in (FCHMOD, "g"), (RENAME, "g"), (RENAME, "new"):
            ending = self.run_program(*WRITERS[0], out, preexec_fn=lambda: refuse(calls))
            self.assertEqual(ending, UNWRITTEN)
            self.assertEqual(self.bytes_of("g"), b"old")
            self.assertEqual(self.names(), ["c.txt", "g"])

    def test_a_fault(self):
        self.put("g", "old")
        self.assert_fault("22 BadWorkers", *WRITERS[0], "g", "--workers", 0)
        self.assertEqual(self.bytes_of("g"), b"old")
        self.assertEqual(self.names(), ["c.txt", "g"])

    def test_links_stay(self):
        """OUT is the file that a link leads to, whether it is there or not."""
        (self.folder / "folder").mkdir()
        (self.folder / "link").symlink_to("folder/g")
        for _ in range(2):
            self.assert_writes(GARBLED, "folder/g", *WRITERS[0], "link")
            self.assertTrue((self.folder / "link").is_symlink())
        self.assertEqual(os.listdir(self.folder / "folder"), ["g"])

    def test_links_in_other_folders(self):
        """A link leads on from the folder that it is in."""
        self.put("g", "old")
        (self.folder / "folder").mkdir()
        (self.folder / "folder/link").symlink_to("g")
        self.assert_writes(GARBLED, "folder/g", *WRITERS[0], "folder/link")
        self.assertEqual(self.bytes_of("g"), b"old")

    def test_a_link_to_itself(self):
        (self.folder / "link").symlink_to("link")
        self.assertEqual(self.run_program(*WRITERS[0], "link"), UNWRITTEN)
        self.assertEqual(self.names(), ["c.txt", "link"])

    def test_new_files_of_others(self):
        self.put(".halfgates-0.tmp", "kept")
        self.assert_writes(GARBLED, "g", *WRITERS[0], "g")
        self.assertEqual(self.bytes_of(".halfgates-0.tmp"), b"kept")
        self.assertEqual(self.names(), [".halfgates-0.tmp", "c.txt", "g"])

    def test_a_file_that_is_read_only(self):
        self.put("g", "old")
        (self.folder / "g").chmod(0o400)
        self.assertEqual(self.run_program(*WRITERS[0], "g", **self.as_a_user()), UNWRITTEN)
        self.assertEqual(self.bytes_of("g"), b"old")

    def test_a_fifo(self):
        os.mkfifo(self.folder / "fifo")
        read = []
        reader = threading.Thread(target=lambda: read.append(self.bytes_of("fifo")))
        reader.start()
        self.assert_prints(f"wrote {len(GARBLED)}\n", *WRITERS[0], "fifo")
        reader.join()
        self.assertEqual(read, [GARBLED])
        self.assertTrue((self.folder / "fifo").is_fifo())

    def test_a_device(self):
        self.assert_prints(f"wrote {len(GARBLED)}\n", *WRITERS[0], "/dev/null")
        self.assertTrue(Path("/dev/null").is_char_device())


if __name__ == "__main__":
    unittest.main()
