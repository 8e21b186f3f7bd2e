"""Runs the tests of README.md's table on an older host (see `old`): each must fail there, in the words that the table has between backquotes."""
import pathlib
import re
import sys
import time
import unittest

WANTED = sys.argv[2:]


def points():
    """Point, test, and the words that its failure must have."""
    for line in (pathlib.Path(__file__).parent / "README.md").read_text().splitlines():
        cells = line.strip("|").split(" | ")
        if len(cells) == 3 and cells[1].startswith("`test_"):
            yield cells[0].strip(), cells[1].strip("`"), re.findall(r"`([^`]+)`", cells[2])


def missing(test, words):
    """What the test's failures on this host don't say; none if it fails as it should."""
    result = unittest.TestResult()
    unittest.defaultTestLoader.loadTestsFromName(test).run(result)
    said = "".join(text for _, text in result.failures + result.errors)
    return [word for word in words if word not in said] if said else ["any failure"], said


wanted = [point for point in points() if not WANTED or any(word in point[1] for word in WANTED)]
not_shown = 0
for point, test, words in wanted:
    began = time.monotonic()
    lacks, said = missing(test, words)
    not_shown += bool(lacks)
    print("old: %s (%s): %s (%.1f s)" % (point, test, "NOT SHOWN, for want of %s\n%s" % (lacks, said) if lacks else "fails there", time.monotonic() - began), flush=True)
print("old: %d points, %d not shown" % (len(wanted), not_shown))
sys.exit(not_shown > 0 or not wanted)
