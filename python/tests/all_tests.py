"""Runs the tests of the package for Python: python/test says which."""

from __future__ import annotations

import os
import signal
import sys
import time
import unittest
from pathlib import Path

HERE = Path(__file__).resolve().parent


def main() -> int:
    """Runs all tests, or those that the command line names, and answers 0 if all of them pass."""
    os.chdir(HERE.parent.parent)
    # (what is begun in the background without a terminal has no Ctrl-C, and nor have its children)
    signal.signal(signal.SIGINT, signal.default_int_handler)
    sys.path[:0] = [str(HERE), str(HERE.parent), str(HERE.parent / "backend")]
    begin = time.monotonic()
    loader = unittest.TestLoader()
    suite = loader.loadTestsFromNames(sys.argv[1:]) if sys.argv[1:] else loader.discover(str(HERE))
    result = unittest.TextTestRunner().run(suite)
    for _, why in result.skipped:
        print(f"left out, as {why}")
    if not result.wasSuccessful():
        return 1
    print(f"{result.testsRun} tests of the package for Python pass ({time.monotonic() - begin:.0f} s)")
    return 0


if __name__ == "__main__":
    sys.exit(main())
