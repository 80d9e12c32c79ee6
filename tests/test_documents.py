"""The documents name no file, crate, test, edit or definition that is missing, and the picture is
of crates.txt.
"""
import glob
import re
import subprocess
import sys
import unittest

from program import TOP, ask

DOCUMENTS = [TOP / f"{name}.md" for name in ("README", "CONTRIBUTING", "SECURITY", "CHANGELOG")]
DOCUMENTS += [*sorted(TOP.glob("docs/*.md")), TOP / "examples/README.md", TOP / "vectors/README.md"]

# A page of one paragraph for each crate.
PAGES = sorted(TOP.glob("crates/*/README.md"))
DOCUMENTS += PAGES

CRATES = set(re.findall(r"^(\w+)[^:\n]*:", (TOP / "crates.txt").read_text(), re.M))

# A name without a folder is taken for that of a file of the repository where it ends so.
SUFFIXES = ".antt", ".edit", ".json", ".md", ".py", ".rt", ".sh", ".svg"

# The folders of any crate and the proof files of any function, which documents name without one.
ANYWHERE = "src", "specs", "proofs", "must-fail", "Answers.antt", "Invariants.antt"


def crates_of(text):
    """What a text names as crates of libraries or tests."""
    return re.findall(r"\bgc_\w+", text)


def numbered_lines(document):
    return enumerate(document.read_text().splitlines(), 1)


def sections(document):
    """The sections of a document, each with the number of its first line and its lines."""
    found, in_code = [(1, [])], False
    for number, line in numbered_lines(document):
        in_code ^= line.startswith("```")
        if line.startswith("#") and not in_code:
            found.append((number, []))
        found[-1][1].append(line)
    return found


def code_lines(document):
    """The number of each line, its code, which is the text in backticks, or the whole line in a
    block, and the crates that paths there may begin at: those that a row of a table names, else
    those that the section names, else all."""
    in_code = False
    for first, lines in sections(document):
        named = crates_of("\n".join(lines)) or CRATES
        for number, line in enumerate(lines, first):
            in_code ^= line.startswith("```")
            code = [line] if in_code else re.findall(r"`([^`]+)`", line)
            in_row = crates_of(line) if line.startswith("|") else []
            yield number, " ".join(code), in_row or named


def looks_like_a_path(word):
    """Whether a word looks like a path of the repository, and of nothing that a build makes. A part
    in capitals stands for any name, as NAME in crates/NAME, unless it is a document's."""
    if not re.search(r"\w", word) or word in SUFFIXES or word.rstrip("/") in ANYWHERE:
        return False
    parts = word.split("/")
    stands_for_any = any(it.split(".")[0].isupper() and not it.endswith(".md") for it in parts)
    is_elsewhere = word.startswith("/") or "out" in parts
    return ("/" in word or word.endswith(SUFFIXES)) and not stands_for_any and not is_elsewhere


def is_due(path):
    """Whether a path is in dist/, and the release of the sources' version is still to be made."""
    versions = [ask("sources.sh", f'version_in "$top/{it}/halfgates.h"')[1] for it in ("include", "dist/include")]
    return path.startswith("dist/") and versions[0] != versions[1]


def is_there(path, document, crates):
    """Whether there is such a file or folder, from the top, the document's folder, or a crate."""
    folders = [TOP, document.parent, TOP / "crates"]
    for crate in crates:
        folders += [TOP / "crates" / crate, TOP / "crates" / crate / "specs"]
    return any(glob.glob(str(folder / path)) for folder in folders)


# The crates of tests, by the first part of the names of their tests, if these have one.
TESTS = {"cli": ["gc_cli_tests"], "": ["gc_tests", "gc_eval_tests"]}


def is_test(name):
    """Whether there is a test of this name, or a file of tests; None where the name is no test's."""
    first, _, rest = name.partition("::")
    if first == "tests":
        file, _, test = rest.partition("::")
        path = TOP / f"tests/test_{file}.py"
        return path.exists() and f"def test_{test}" in path.read_text()
    crates, rest = (TESTS[first], rest) if first in TESTS else (TESTS[""], name)
    file, _, test = rest.partition("::")
    texts = [p.read_text() for it in crates for p in (TOP / "crates" / it / "src").glob(f"{file}.rt")]
    if first not in TESTS and not texts:
        return None
    return any(f"fn {test}" in text for text in texts)


def edits_of(document):
    """The names in italics, which are those of wrong bodies."""
    return set(re.findall(r"(?<!\*)\*(\w+)\*(?!\*)", document.read_text()))


# What stands in the place of a clause's name: other parts of a contract, and traits.
NO_CLAUSES = {"ensures", "type", "signature", "output", "Wait", "Allocator"}


def rows(document, column):
    """The rows of tables that have a column of this name, with the number of the line, the first
    cell, and the cell in that column."""
    place = None
    for number, line in numbered_lines(document):
        cells = [cell.strip() for cell in line.split("|")[1:-1]]
        if not cells:
            place = None
        elif column in cells:
            place = cells.index(column)
        elif place is not None and len(cells) > place:
            yield number, cells[0], cells[place]


def unknown_names(text, known):
    """The names in backticks that are not known."""
    names = re.findall(r"`([A-Za-z_]\w*(?:::\w+)?)`", text)
    return [it for it in names if it.rpartition("::")[2] not in known]


def place(document, number):
    return f"{document.relative_to(TOP)}:{number}"


class Documents(unittest.TestCase):
    def test_the_picture_is_that_of_the_crates(self):
        script = [sys.executable, TOP / "scripts/picture.py"]
        printed = subprocess.run(script, capture_output=True, text=True, check=True).stdout
        is_same = (TOP / "docs/crates.svg").read_text() == printed
        self.assertTrue(is_same, "scripts/picture.py >docs/crates.svg draws the picture anew")

    def test_readme_is_short(self):
        self.assertLessEqual(len((TOP / "README.md").read_text().split()), 1400)

    def test_links(self):
        missing = []
        for document in DOCUMENTS:
            for number, line in numbered_lines(document):
                for link in re.findall(r"\]\(([^)\s]+)", line):
                    target = link.partition("#")[0]
                    if not re.match(r"\w+:", link) and not (document.parent / target).exists():
                        missing.append(f"{place(document, number)} {link}")
        self.assertEqual(missing, [])

    def test_paths(self):
        missing = []
        for document in DOCUMENTS:
            # What a command of the document writes.
            written = {f"./{name}" for name in re.findall(r" -o (\w+)$", document.read_text(), re.M)}
            for number, code, crates in code_lines(document):
                for word in filter(looks_like_a_path, re.findall(r"[\w./*-]+", code)):
                    if word not in written and not is_there(word, document, crates) and not is_due(word):
                        missing.append(f"{place(document, number)} {word}")
        self.assertEqual(missing, [])

    def test_names_of_tests(self):
        missing = []
        for number, line in numbered_lines(TOP / "docs/PROMISES.md"):
            for name in re.findall(r"`((?:tests|cli)::[\w:]+|\w+::\w+)`", line):
                if not name.endswith("::name") and is_test(name) is False:
                    missing.append(f"{number} {name}")
        self.assertEqual(missing, [])

    def test_edits(self):
        """Each wrong body of the crates is named in the promises, and no other."""
        edits = {it.stem for it in TOP.glob("crates/*/must-fail/*.edit")}
        self.assertEqual(edits_of(TOP / "docs/PROMISES.md"), edits)

    def test_each_crate_has_a_page(self):
        """It is the crate's name, an empty line and one paragraph."""
        self.assertEqual({it.parent.name for it in PAGES}, CRATES)
        for page in PAGES:
            head, empty, *paragraph = page.read_text().splitlines()
            self.assertEqual((head, empty), (f"# {page.parent.name}", ""), page)
            self.assertTrue(paragraph and all(re.match("[^|#-]", it) for it in paragraph), page)

    def test_definitions(self):
        """What definitions, promises and the crates' pages name is in specs or in sources."""
        files = [*TOP.glob("crates/*/specs/**/*.antt"), *TOP.glob("crates/*/src/*.rt")]
        known = CRATES.union(*[re.findall(r"\w+", it.read_text()) for it in files])
        missing = []
        for document in (TOP / "docs/DEFINITIONS.md", *PAGES):
            for number, line in numbered_lines(document):
                missing += [f"{place(document, number)} {it}" for it in unknown_names(line, known)]
        for number, call, _ in rows(TOP / "docs/PROMISES.md", "Clause"):
            missing += [f"PROMISES.md:{number} {it}" for it in unknown_names(call, known)]
        self.assertEqual(missing, [])

    def test_clauses(self):
        """Each clause that the promises name is in a contract."""
        sources = "".join(it.read_text() for it in TOP.glob("crates/*/src/*.rt"))
        known = NO_CLAUSES.union(re.findall(r"\b(?:ensures|fn) (\w+)", sources))
        missing, found = [], 0
        for number, _, clause in rows(TOP / "docs/PROMISES.md", "Clause"):
            found += 1
            missing += [f"PROMISES.md:{number} {it}" for it in unknown_names(clause, known)]
        self.assertEqual(missing, [])
        self.assertGreater(found, 70)

    def test_faults(self):
        """The faults of the vectors stand in the table of faults, under their codes."""
        table = (TOP / "docs/FAULTS.md").read_text()
        by_code = dict(re.findall(r"^\| (\d+) \| (\w+) \|", table, re.M))
        for file in TOP.glob("vectors/bad_*.json"):
            found = re.findall(r'"fault": (\d+),\s+"name": "(\w+)"', file.read_text())
            self.assertTrue(found, file.name)
            for code, name in found:
                self.assertEqual(by_code[code], name)

    def test_crates(self):
        missing = []
        for document in DOCUMENTS:
            for number, line in numbered_lines(document):
                unknown = [it for it in crates_of(line) if it not in CRATES]
                missing += [f"{place(document, number)} {it}" for it in unknown]
        self.assertEqual(missing, [])


if __name__ == "__main__":
    unittest.main()
