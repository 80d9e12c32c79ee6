"""A small stack, and address spaces of many sizes: a run ends as without a limit or by a fault, never by a signal."""
import resource
import subprocess

from program import PROGRAM, SEED, ProgramTest

# What every command, and every thread that it starts, keeps within.
STACK = 160 << 10

MEBIBYTE = 1 << 20
STEP = 96 << 10


def within(kind, size):
    """What limits the program that is about to start."""
    return lambda: resource.setrlimit(kind, (size, size))


class SmallMemory(ProgramTest):
    """Every command, over AES-128."""

    def setUp(self):
        super().setUp()
        self.make("aes128")
        key, block = "x" + 32 * "0", "x" + 32 * "1"
        self.run_program("garble", "aes128", SEED, "garbled")
        for i, value in enumerate((key, block)):
            self.run_program("deal", "aes128", SEED, i, value, f"label{i}")
        self.put("list", "garbled label0 label1\ngarbled label1 label0\n")
        labels = "label0", "label1"
        self.commands = [
            ("check", "aes128"),
            ("stats", "aes128"),
            ("locate", "aes128"),
            ("order", "aes128", "ordered"),
            ("plain", "aes128", key, block),
            ("run", "aes128", SEED, key, block),
            ("garble", "aes128", SEED, "out"),
            ("garble", "aes128", SEED, "out", "--workers", "4"),
            ("deal", "aes128", SEED, 0, key, "out"),
            ("eval", "aes128", "garbled", *labels),
            ("eval", "aes128", "garbled", *labels, "--workers", "4"),
            ("jobs", "aes128", "list", "--workers", "2"),
            ("labels", "aes128", SEED, key, block),
            ("audit", "aes128", SEED, "garbled", *labels),
            ("--help",),
            ("run", "aes128", SEED, key, "--explain"),
        ]

    def test_a_small_stack(self):
        for words in self.commands:
            small = self.run_program(*words, preexec_fn=within(resource.RLIMIT_STACK, STACK))
            self.assertEqual(small, self.run_program(*words), words)

    def status(self, words, size):
        """The status of a run in an address space of this size, less than 0 where a signal ended it."""
        done = subprocess.run(
            [PROGRAM, *map(str, words)], cwd=self.folder, capture_output=True, check=False,
            preexec_fn=within(resource.RLIMIT_AS, size),
        )
        return done.returncode

    def test_no_signal_ends_a_run(self):
        for words in self.commands:
            least = next(n for n in range(1, 1000) if self.status(("--version",), n * MEBIBYTE) == 0)
            size, done = least * MEBIBYTE, 0
            while done < 3 and size < (least + 200) * MEBIBYTE:
                status = self.status(words, size)
                self.assertGreaterEqual(status, 0, (words, size))
                done = done + 1 if status == 0 else 0
                size += STEP
