"""An older host under these tests (FRINGEMOLE_CHECKOUT names its checkout): what it has never heard of is left out of its commands, so that a
test fails there by what the host does, not by a word that it doesn't know."""
import os
import pathlib
import re
import sys

ROOT = pathlib.Path(sys.argv[1])
HOST = pathlib.Path(os.environ.get("FRINGEMOLE_CHECKOUT", ROOT))
OLDER = HOST != ROOT


def told(checkout):
    """Each command and option that --help tells, and whether a word follows it."""
    text = (checkout / "host" / "options.c").read_text()
    return {word: bool(value) for word, value in re.findall(r'"  (--[a-z-]+|[a-z]+)( [A-Z]+)?', text)}


UNKNOWN = {word: value for word, value in told(ROOT).items() if word not in told(HOST)}


def without_unknown(words):
    """The words of a command without the options that this host doesn't know."""
    left, words = [], list(words)
    while words:
        word = words.pop(0)
        name = str(word).split("=")[0]
        if not name.startswith("--") or name not in UNKNOWN:
            left.append(word)
        elif UNKNOWN[name] and name == word:
            words.pop(0)
    return left
