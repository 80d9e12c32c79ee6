"""bench/plot.py keeps the figures of the documents, and draws their charts."""
import contextlib
import io
import shutil
import subprocess
import sys
import tempfile
import unittest
from datetime import date
from pathlib import Path
from xml.etree import ElementTree

from program import TOP

sys.path.append(str(TOP / "bench"))
import measure  # noqa: E402
import plot  # noqa: E402

SVG = "{http://www.w3.org/2000/svg}"

CIRCUITS = "AES-128, 33 times", "64 chains & more < less", "independent gates, all AND"
SIZES = 1_000, 250_000, 16_000_000


def printed(names, sizes):
    """What the benchmark prints of circuits of these names, and of these numbers of gates."""
    took = {part: 50_000 * 7**place for place, part in enumerate(measure.PARTS)}
    output = io.StringIO()
    with contextlib.redirect_stdout(output):
        print("reading: 7 ns a gate\nrun: 8 ns")
        measure.print_row("circuit", "gates", "AND", *2 * ["thread", "1", "2", "4"])
        for name in names:
            measure.print_times(name, {"gates": 1_000_000, "and": 0, **took})
        print("independent gates, all AND: garble4 3.40 times as fast as garble (at least 3.4)")
        for count in sizes:
            measure.print_times(f"size {count}", {"gates": count, "and": count // 2, **took})
    row = "|---|\n| some circuit | 1,234 |\n"
    return output.getvalue() + "".join(f"{head}{row}" for head in plot.AS_PRINTED)


class Plot(unittest.TestCase):
    def setUp(self):
        folder = tempfile.TemporaryDirectory()
        self.addCleanup(folder.cleanup)
        self.top = Path(folder.name)
        for file in ("bench/plot.py", "docs/SPEED.md", "README.md"):
            (self.top / file).parent.mkdir(exist_ok=True)
            shutil.copy(TOP / file, self.top / file)

    def plot(self, *words):
        words = [sys.executable, self.top / "bench/plot.py", *words]
        return subprocess.run(words, cwd=self.top, capture_output=True, check=False).returncode

    def plot_printed(self, text):
        (self.top / "printed").write_text(text)
        return self.plot("printed")

    def text_of(self, file):
        return (self.top / file).read_text()

    def shapes(self, name, tag):
        return ElementTree.parse(self.top / "docs" / name).getroot().findall(f"{SVG}{tag}")

    def test_charts_are_of_the_page(self):
        """The charts in docs/ are those of its tables, and README.md has the same figures."""
        self.assertEqual(self.plot(), 0)
        page = (TOP / "docs/SPEED.md").read_text()
        for name, head in (("workers", plot.BY_WORKERS), ("sizes", plot.BY_GATES)):
            chart = TOP / f"docs/{name}.svg"
            self.assertEqual(chart.exists(), head in page, name)
            if chart.exists():
                self.assertEqual(self.text_of(f"docs/{name}.svg"), chart.read_text(), name)
                self.assertEqual(page.count(f"({name}.svg)"), 1, name)
        readme = (TOP / "README.md").read_text()
        self.assertEqual(plot.with_readme_figures(readme, page), readme)

    def test_figures(self):
        text = printed(CIRCUITS, SIZES)
        self.assertEqual(self.plot_printed(text), 0)
        page = self.text_of("docs/SPEED.md")
        rows = plot.table_of(page, plot.BY_WORKERS)
        self.assertEqual([row[0] for row in rows], [*CIRCUITS])
        self.assertEqual(rows[0][1:5], ["1,000,000", "0", "0", "0"])
        self.assertEqual(rows[0][-1], "41177")
        rows = plot.table_of(page, plot.BY_GATES)
        self.assertEqual([row[0] for row in rows], [f"{it:,}" for it in SIZES])
        self.assertEqual(rows[0][1:4], ["500", "50", "350"])
        for head in plot.AS_PRINTED:
            self.assertEqual(plot.table_of(page, head), [["some circuit", "1,234"]])
        self.assertIn("\n- reading: 7 ns a gate\n", page)
        self.assertIn("\n- `run`: 8 ns\n", page)
        self.assertIn(f"one run on {date.today().day} ", page)
        self.assertIn("| AES-128, 33 times | 1,000,000 | 0 | 0 | 17 |", self.text_of("README.md"))
        self.assertEqual(self.plot_printed(text), 0)
        self.assertEqual(self.text_of("docs/SPEED.md"), page)

    def test_charts(self):
        self.assertEqual(self.plot_printed(printed(CIRCUITS, SIZES)), 0)
        said = [it.text for it in self.shapes("workers.svg", "text")]
        self.assertLessEqual({*CIRCUITS, "Garbling", "Evaluating", "4 workers", "17"}, {*said})
        bars_and_legend = 1 + 4 + 8 * len(CIRCUITS)
        self.assertEqual(len(self.shapes("workers.svg", "rect")), bars_and_legend)
        said = [it.text for it in self.shapes("sizes.svg", "text")]
        self.assertLessEqual({"1k", "250k", "16M", "one thread"}, {*said})
        lines = [it for it in self.shapes("sizes.svg", "path") if it.get("fill") == "none"]
        self.assertEqual(len(lines), 8)

    def test_rows_that_are_not_there(self):
        for text in ("", printed(["AES-128"], []), printed([], [1_000])):
            self.assertEqual(self.plot_printed(text), 1)
        for file in ("docs/SPEED.md", "README.md"):
            self.assertEqual(self.text_of(file), (TOP / file).read_text())


if __name__ == "__main__":
    unittest.main()
