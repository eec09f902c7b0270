"""run.py MODULE...: runs these modules of tests. As each ends it says how many tests passed and the seconds, and so of each test that took long; to
the stream too that TSAV_PROGRESS names. The last line is 'N passed, M failed'."""

import os
import sys
import time
import unittest

# A test that takes more seconds is named.
LONG = 10

_progress = os.environ.get("TSAV_PROGRESS")


def say(text: str) -> None:
    print(text, flush=True)
    if _progress:
        os.write(int(_progress), f"{text}\n".encode("utf-8"))


class Result(unittest.TextTestResult):
    """Which says what took long."""

    def startTest(self, test):
        super().startTest(test)
        self.began = time.monotonic()

    def stopTest(self, test):
        super().stopTest(test)
        seconds = time.monotonic() - self.began
        if seconds > LONG:
            say(f"{test.id()}: {seconds:.0f} s")


def ran(module: str) -> tuple:
    """How many tests of a module passed, and how many failed."""
    began = time.monotonic()
    suite = unittest.defaultTestLoader.loadTestsFromName(module)
    result = unittest.TextTestRunner(stream=sys.stdout, verbosity=1, resultclass=Result).run(suite)
    # A test of several parts counts once, however many of them fail.
    failing = {getattr(test, "test_case", test) for test, _why in result.failures + result.errors}
    failed = len(failing) + len(result.unexpectedSuccesses)
    passed = result.testsRun - failed - len(result.skipped)
    for test, why in result.skipped:
        print(f"skipped: {test}: {why}")
    say(f"{module}: {passed} passed, {failed} failed ({time.monotonic() - began:.0f} s)")
    return passed, failed


counts = [ran(module) for module in sys.argv[1:]]
passed, failed = (sum(count) for count in zip(*counts))
print(f"{passed} passed, {failed} failed")
sys.exit(failed > 0)
