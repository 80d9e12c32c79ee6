"""On a terminal a line says what a long command is at, and nowhere else.

A command takes long where a file that it opens is a pipe to which nobody has written yet.
"""
import os
import pty
import re
import subprocess
import threading
import time
import unittest
from concurrent.futures import ThreadPoolExecutor

from program import FULL_ADDER, PROGRAM, SEED, ProgramTest, fails, prints

# A command is at work for this many seconds before its line is shown.
PATIENCE = 2

# What wipes the line of the terminal.
WIPED = "\r\x1b[K"

CHECKING = "step 1 of 1, reading the circuit"
READING = "step 1 of 3, reading the circuit"
READING_FILES = "step 2 of 3, reading the files"
READING_JOB = "step 2 of 3, reading job 2 of 2"
WRITING = "step 3 of 3, writing the garbled file"
READING_OF_TWO = "step 1 of 2, reading the circuit"
ORDERING = "step 2 of 2, ordering the gates"


def read_piece(terminal):
    """What a terminal shows next, or nothing at its end, which Linux answers as an error."""
    try:
        return os.read(terminal, 4096)
    except OSError:
        return b""


class Progress(ProgramTest):
    def setUp(self):
        super().setUp()
        self.put("adder", FULL_ADDER)

    def on_terminal(self, go_on, *words):
        """The status of a run, what it prints on standard output, and what a terminal shows that is
        its standard error. `go_on` is called once something is shown there.
        """
        terminal, end = pty.openpty()
        how = {"stdin": subprocess.DEVNULL, "stdout": subprocess.PIPE, "stderr": end}
        words = [PROGRAM, *[str(word) for word in words]]
        shown = b""
        with subprocess.Popen(words, cwd=self.folder, **how) as child:
            os.close(end)
            limit = threading.Timer(60, child.kill)
            limit.start()
            while piece := read_piece(terminal):
                if not shown:
                    go_on()
                shown += piece
            printed = child.stdout.read()
            limit.cancel()
        os.close(terminal)
        return child.returncode, printed.decode(), shown.decode()

    def assert_shows(self, line, ending, go_on, *words):
        """A run shows this line until `go_on` is called, and has this ending when it is gone."""
        begun, times = time.monotonic(), []

        def note_time():
            times.append(time.monotonic() - begun)
            go_on()

        status, printed, shown = self.on_terminal(note_time, *words)
        before, *lines, errors = shown.split(WIPED)
        self.assertEqual((status, printed, errors.replace("\r\n", "\n")), ending, words)
        self.assertEqual(before, "", words)
        self.assertTrue(lines, words)
        self.assertRegex(lines[0], f"^halfgates: {re.escape(line)}, [0-9]+ s$", words)
        self.assertGreaterEqual(times[0], PATIENCE, words)
        self.assertLess(times[0], 5 * PATIENCE, words)

    def make_files(self):
        """The names of a garbled file and label files, and what they evaluate to."""
        names = ["garbled", "labels0", "labels1", "labels2"]
        self.run_program("garble", "adder", SEED, "garbled")
        for index, name in enumerate(names[1:]):
            self.run_program("deal", "adder", SEED, index, "1", name)
        return names, "11\n"

    def test_each_step(self):
        (garbled, *labels), outputs = self.make_files()
        data, files = self.bytes_of(garbled), " ".join([garbled, *labels])
        self.put("list", files)
        self.put("slow_list", f"{files}\n{' '.join(['slow_job', *labels])}")
        checked, wrote = self.run_program("check", "adder"), prints(f"wrote {len(data)}\n")
        audited = self.run_program("audit", "adder", SEED, garbled, *labels)
        put_in_order = self.run_program("order", "adder", "ordered")
        job, taken = f"{outputs}\n", []
        rows = [
            ("a", CHECKING, checked, FULL_ADDER, "check", "a"),
            ("b", READING, prints(outputs), FULL_ADDER, "run", "b", SEED, 1, 1, 1),
            ("c", READING, wrote, FULL_ADDER, "garble", "c", SEED, "made"),
            ("d", READING, prints(outputs), FULL_ADDER, "eval", "d", garbled, *labels),
            ("e", READING, prints(job), FULL_ADDER, "jobs", "e", "list"),
            ("f", READING_FILES, prints(outputs), data, "eval", "adder", "f", *labels),
            ("g", READING_FILES, audited, data, "audit", "adder", SEED, "g", *labels),
            ("slow_job", READING_JOB, prints(2 * job), data, "jobs", "adder", "slow_list"),
            ("h", WRITING, wrote, None, "garble", "adder", SEED, "h"),
            ("i", READING_OF_TWO, put_in_order, FULL_ADDER, "order", "i", "made_in_order"),
            ("j", ORDERING, put_in_order, None, "order", "adder", "j"),
        ]

        def check(pipe, line, ending, content, *words):
            def go_on():
                if content is None:
                    taken.append(self.bytes_of(pipe))
                else:
                    self.put(pipe, content)

            self.assert_shows(line, ending, go_on, *words)

        for row in rows:
            os.mkfifo(self.folder / row[0])
        with ThreadPoolExecutor(len(rows)) as pool:
            for outcome in [pool.submit(check, *row) for row in rows]:
                outcome.result()
        self.assertEqual(sorted(taken), sorted([data, self.bytes_of("ordered")]))

    def test_the_line_is_drawn_again(self):
        """Within a second and a half it is drawn twice more, and tells another second."""
        os.mkfifo(self.folder / "slow")

        def go_on():
            time.sleep(1.5)
            self.put("slow", FULL_ADDER)

        _, _, shown = self.on_terminal(go_on, "check", "slow")
        seconds = re.findall("([0-9]+) s", shown)
        self.assertGreater(len(seconds), 2, shown)
        self.assertGreater(len(set(seconds)), 1, shown)

    def test_a_fault_stands_alone(self):
        """The line of progress is gone before the fault is printed, and explained, as it is on a terminal."""
        os.mkfifo(self.folder / "slow")
        go_on = lambda: self.put("slow", "5 8")
        status, printed, errors = fails("1 Truncated")
        errors += "halfgates: slow: the text ends before the circuit does\n"
        self.assert_shows(CHECKING, (status, printed, errors), go_on, "check", "slow")

    def run_short(self, go_on, *words):
        """A run that ends before its line would be shown: the thread of the line keeps nobody waiting."""
        begun = time.monotonic()
        ending = self.on_terminal(go_on, *words)
        self.assertLess(time.monotonic() - begun, PATIENCE, words)
        return ending

    def test_nothing_of_short_commands(self):
        for words in (["check", "adder"], ["run", "adder", SEED, 1, 1, 1], ["--version"], ["--help"], ["run", "--help"]):
            status, printed, shown = self.run_short(self.fail, *words)
            self.assertEqual((status, shown), (0, ""), words)
            self.assertNotEqual(printed, "", words)

    def test_wrong_arguments_end_at_once(self):
        for words in (["nonsense"], ["check"], ["check", "adder", "more"]):
            status, printed, shown = self.run_short(lambda: None, *words)
            self.assertEqual((status, printed), (2, ""), words)
            self.assertIn("Usage", shown, words)
            self.assertNotIn(WIPED, shown, words)

    def test_nothing_without_a_terminal(self):
        os.mkfifo(self.folder / "slow")
        with open(self.folder / "errors", "wb") as file:
            for errors in (subprocess.PIPE, file):
                go_on = threading.Timer(PATIENCE + 0.5, self.put, ["slow", FULL_ADDER])
                go_on.start()
                begun = time.monotonic()
                status, _, said = self.run_program("check", "slow", stderr=errors)
                self.assertEqual((status, said), (0, ""))
                self.assertGreater(time.monotonic() - begun, PATIENCE)
        self.assertEqual(self.bytes_of("errors"), b"")


if __name__ == "__main__":
    unittest.main()
