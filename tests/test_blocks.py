"""The commands in the documents print what stands below them.

A block that begins with ```sh is run, and a block ```text that follows it is what it prints.
Without one it prints nothing. A block that begins with ```sh no-run is not run.
"""
import os
import re
import shutil
import subprocess
import tempfile
import unittest
from collections import namedtuple
from pathlib import Path

from library import INCLUDE, LIB_DIR
from program import PROGRAM, TOP

DOCUMENTS = [*sorted(TOP.glob("*.md")), *sorted(TOP.glob("docs/*.md"))]
DOCUMENTS += [TOP / "examples/README.md", TOP / "vectors/README.md"]

# What the blocks find where they are run, in addition to the program and the library.
FOLDERS = "bench", "examples", "include", "python", "vectors"

# What is printed after each block, to tell the outputs of blocks from one another.
END = "\0"

# The language of a block, the other words after it, the number of its first line, and its lines.
Block = namedtuple("Block", "language words number text")


def blocks(text):
    """The blocks of a document."""
    lines = text.splitlines(keepends=True)
    fences = [i for i, line in enumerate(lines) if line.startswith("```")]
    for first, last in zip(fences[::2], fences[1::2]):
        language, *words = lines[first][3:].split() or [""]
        yield Block(language, words, first + 2, "".join(lines[first + 1 : last]))


def commands(text):
    """The blocks to be run, each with what it prints."""
    found = list(blocks(text))
    for block, after in zip(found, [*found[1:], None]):
        if block.language == "sh" and not block.words:
            is_output = after is not None and after.language == "text"
            yield block, after.text if is_output and follows(text, block, after) else ""


def follows(text, block, after):
    """Whether nothing but blank lines stands between two blocks."""
    end = block.number + block.text.count("\n")
    return not "".join(text.splitlines()[end : after.number - 2]).strip()


def outputs(scripts, folder):
    """What each script prints, where one shell runs them one after another."""
    script = "".join(f"{it}\nprintf '\\0'\n" for it in scripts)
    how = {"stdin": subprocess.DEVNULL, "stdout": subprocess.PIPE, "stderr": subprocess.STDOUT}
    environment = {**os.environ, "PYTHONDONTWRITEBYTECODE": "1"}
    words = ["bash", "-c", script]
    done = subprocess.run(words, cwd=folder, env=environment, timeout=300, check=False, **how)
    return done.stdout.decode().split(END)[:-1]


class Blocks(unittest.TestCase):
    def test_commands_print_what_the_documents_say(self):
        ran = 0
        for document in DOCUMENTS:
            found = list(commands(document.read_text()))
            ran += len(found)
            with tempfile.TemporaryDirectory() as folder:
                self.fill(Path(folder))
                printed = outputs([block.text for block, _ in found], folder)
            self.assertEqual(len(printed), len(found), document)
            for (block, expected), output in zip(found, printed):
                place = f"{document.relative_to(TOP)}:{block.number}"
                with self.subTest(place=place):
                    self.assertEqual(output, expected, place)
        self.assertGreater(ran, 5)

    def fill(self, folder):
        for name in FOLDERS:
            ignored = shutil.ignore_patterns("__pycache__")
            shutil.copytree(TOP / name, folder / name, ignore=ignored)
        (folder / "halfgates").symlink_to(PROGRAM)
        (folder / "dist").mkdir()
        (folder / "dist/include").symlink_to(INCLUDE)
        (folder / "dist/lib").symlink_to(LIB_DIR)

    def test_each_block_names_its_language(self):
        nameless = []
        for document in DOCUMENTS:
            text = document.read_text()
            self.assertEqual(len(re.findall("^```", text, re.M)) % 2, 0, document)
            for block in blocks(text):
                if not block.language or block.words not in ([], ["no-run"]):
                    nameless.append(f"{document.relative_to(TOP)}:{block.number}")
        self.assertEqual(nameless, [])


class Reading(unittest.TestCase):
    """What this test takes for commands, and for their outputs."""

    def test_blocks(self):
        text = "```sh\na\n```\n\n```text\n1\n```\nand\n```sh no-run\nb\n```\n```text\n2\n```\n"
        self.assertEqual([(it.text, out) for it, out in commands(text)], [("a\n", "1\n")])
        text = "```sh\na\n```\nthen\n```text\n1\n```\n```sh\nb\n```\n"
        self.assertEqual([(it.text, out) for it, out in commands(text)], [("a\n", ""), ("b\n", "")])

    def test_outputs(self):
        with tempfile.TemporaryDirectory() as folder:
            scripts = ["a=1\n", "echo $a\necho $a >&2\n", "false\n"]
            self.assertEqual(outputs(scripts, folder), ["", "1\n1\n", ""])


if __name__ == "__main__":
    unittest.main()
