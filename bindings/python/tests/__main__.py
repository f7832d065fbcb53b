"""Runs all tests. The last line is 'N passed, M failed'."""
from __future__ import annotations

import sys
import unittest
from pathlib import Path

here = Path(__file__).resolve().parent
result = unittest.TextTestRunner(stream=sys.stdout).run(unittest.defaultTestLoader.discover(str(here)))
failed = len(result.failures) + len(result.errors) + len(result.unexpectedSuccesses)
for test, why in result.skipped:
    print(f"not run: {test.id()}, for want of {why}")
print(f"{max(result.testsRun - failed - len(result.skipped), 0)} passed, {failed} failed")
sys.exit(failed != 0)
