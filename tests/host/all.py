"""Runs every test of this folder, a line each, and ends with 'host: N tests, M failed'."""
import sys
import time
import unittest

ROOT, WANTED = sys.argv[1], sys.argv[2:]


class Lines(unittest.TestResult):
    """One line a test; what went wrong comes right under it."""

    def startTest(self, test):
        super().startTest(test)
        self.began = time.monotonic()

    def line(self, word, test, text=""):
        took = time.monotonic() - self.began
        print("host: %s: %s (%.1f s)%s" % (test.shortDescription() or test.id(), word, took, text and "\n" + text), flush=True)

    def addSuccess(self, test):
        super().addSuccess(test)
        self.line("ok", test)

    def addFailure(self, test, err):
        super().addFailure(test, err)
        self.line("FAILED", test, self.failures[-1][1])

    def addError(self, test, err):
        super().addError(test, err)
        self.line("FAILED", test, self.errors[-1][1])

    def addSubTest(self, test, subtest, err):
        before = len(self.failures) + len(self.errors)
        super().addSubTest(test, subtest, err)
        if len(self.failures) + len(self.errors) > before:
            self.line("FAILED", test, str(subtest) + "\n" + self._exc_info_to_string(err, test))

    def addSkip(self, test, reason):
        super().addSkip(test, reason)
        self.testsRun -= 1
        self.line("not run, " + reason, test)


def flat(suite):
    for test in suite:
        if isinstance(test, unittest.TestSuite):
            yield from flat(test)
        else:
            yield test


tests = list(flat(unittest.defaultTestLoader.discover(".", "test_*.py")))
tests = [test for test in tests if not WANTED or any(word in test.id() for word in WANTED)]
result = Lines()
unittest.TestSuite(tests).run(result)
failed = len(result.failures) + len(result.errors)
print("host: %d tests, %d failed" % (result.testsRun, failed))
sys.exit(failed > 0 or result.testsRun == 0)
