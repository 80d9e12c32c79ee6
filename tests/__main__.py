"""Runs the tests here on the program, `python3 tests`, and prints last how many passed."""
import sys
import unittest
from pathlib import Path

folder = Path(__file__).resolve().parent
sys.path.insert(0, str(folder))
result = unittest.TextTestRunner(sys.stdout).run(unittest.defaultTestLoader.discover(folder))
# A subtest that fails counts for its test, and a run of no tests as a failure.
broken = {getattr(it, "test_case", it).id() for it, _ in result.failures + result.errors}
failed = len(broken) or int(not result.testsRun)
passed = max(result.testsRun - len(broken) - len(result.skipped), 0)
for _, reason in result.skipped:
    print(f"skipped: {reason}")
print(f"{passed} passed, {failed} failed")
sys.exit(failed > 0)
