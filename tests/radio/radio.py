"""Two of our nodes by radio: real AX.25 over real audio between two direwolf stations. To be run by `stations`, as `run` and `long` do.

    python3 radio.py ROOT whole | silenced | fades [--seconds N] [--seed N]
"""
import argparse
import os
import pathlib
import random
import re
import signal
import sys
import tempfile
import threading
import time

ROOT = pathlib.Path(sys.argv[1]).resolve()
sys.dont_write_bytecode = True
sys.path.insert(0, str(ROOT / "tests" / "host"))

from node import DECLINED, DONE, FORWARDED, LINK_DROPPED, WAITING, Message, Node  # noqa: E402

PROGRAM = ROOT / "target" / "radio" / "fringemole"
RADIO = pathlib.Path(os.environ["RADIO"])
NORTH, SOUTH = ("8100", "N0AAA-1"), ("8200", "N0BBB-1")
EVERY = bytes(range(256))
LATE = 900  # seconds that a session may take on a busy machine
LOST = b"the radio link is lost (RETRYOUT)"
I_FRAME = re.compile(rb"(?m)^\[0\.\d+\] N0AAA-1>N0BBB-1:\(I ")


class Wrong(Exception):
    """Mail was lost, doubled, changed or marked wrongly."""


def must(right, *what):
    if not right:
        raise Wrong(" ".join(str(word) for word in what))


def said(bytes_of, file):
    """What one side said, from a transcript, byte for byte."""
    got = b""
    for line in file.read_bytes().splitlines():
        if line.startswith(bytes_of):
            got += re.sub(rb"\\(x..|.)", lambda m: {b"r": b"\r", b"n": b"\n", b"\\": b"\\"}.get(m[1]) or bytes([int(m[1][1:], 16)]), line[10:])
    return got


class Pair:
    """North calls by station A, south listens at station B."""

    def __init__(self, folder):
        self.folder, self.calls = pathlib.Path(folder), 0
        self.north, self.south = Node(folder, "north", PROGRAM), Node(folder, "south", PROGRAM)
        self.south.right("admit", "N0AAA")
        self.air = self.folder / "south.transcript"
        self.listener = self.south.start("agw", *SOUTH, "--listen", "--transcript=%s" % self.air, "--log", self.folder / "south.log")
        self.wait(lambda: b"listening as" in self.log(), "south to listen")

    def log(self):
        try:
            return (self.folder / "south.log").read_bytes()
        except FileNotFoundError:
            return b""

    def wait(self, true, what, seconds=LATE):
        end = time.monotonic() + seconds
        while not true():
            must(time.monotonic() < end, "waited in vain for", what)
            time.sleep(0.05)

    def call(self, *options, meanwhile=None, patient=True):
        """North's exit code and what it said, once both sessions are over; an impatient one doesn't wait for south's."""
        self.calls += 1
        mine = self.folder / ("north%d.transcript" % self.calls)
        began, sessions = time.monotonic(), self.count(self.south)
        process = self.north.start("agw", *NORTH, SOUTH[1], "--transcript=%s" % mine, *options)
        threading.Thread(target=meanwhile, daemon=True).start() if meanwhile else None
        err = process.communicate(timeout=LATE)[1].decode(errors="replace")
        self.took = time.monotonic() - began
        if patient and "linked with" in err:
            self.wait(lambda: self.count(self.south) > sessions, "south's session to end")
        for text in (err, self.log().decode(errors="replace")):
            must("Sanitizer" not in text and "runtime error" not in text, text)
        return process.returncode, err, mine

    def count(self, node):
        return node.ask("SELECT count(*) FROM session WHERE ended IS NOT NULL")[0][0]

    def endings(self, node):
        return [row for row, in node.ask("SELECT CAST(ending AS BLOB) FROM session ORDER BY number")]

    def end(self):
        self.listener.terminate()
        self.listener.wait(60)


def report(name, *what):
    print("radio: %s: %s" % (name, " ".join(str(word) for word in what)), flush=True)


def size(*messages):
    return sum(len(message.body) for message in messages)


def whole(folder, name="whole"):
    """Packed mail in both directions, byte for byte; nothing but what each said is what the other heard."""
    ours = [Message(b"1_N", EVERY + b"north"), Message(b"2_N", EVERY[::-1], form="file", title=b"", name=b"NORTH.BIN")]
    theirs = [Message(b"1_S", EVERY * 2)]
    pair = Pair(folder)
    pair.north.add(*ours)
    pair.south.add(*theirs)
    code, err, mine = pair.call()
    must(code == DONE, "north ended with", code, err)
    must(pair.endings(pair.north) == pair.endings(pair.south) == [b"FQ"], "rows:", pair.endings(pair.north), pair.endings(pair.south))
    must(pair.north.states() == {b"1_N": FORWARDED, b"2_N": FORWARDED}, "north's marks:", pair.north.states())
    must(pair.south.states() == {b"1_S": FORWARDED}, "south's marks:", pair.south.states())
    must(pair.south.inbox() == [message.checked().row() for message in ours], "south has", pair.south.inbox())
    must(pair.north.inbox() == [message.checked().row() for message in theirs], "north has", pair.north.inbox())
    must(said(b"us:", mine) == said(b"partner:", pair.air) and said(b"partner:", mine) == said(b"us:", pair.air), "not what was said was heard")
    report(name, "3 packed messages, %d bytes of bodies both ways, %d bytes on the link, all the same: %.0f s"
           % (size(*ours, *theirs), len(said(b"us:", mine)) + len(said(b"partner:", mine)), pair.took))
    pair.end()


def silenced(folder):
    """South's station isn't heard any more in the middle of a transfer; north calls again."""
    ours, theirs = [Message(b"1_N", b"short"), Message(b"2_N", EVERY * 4)], [Message(b"1_S", EVERY)]
    pair = Pair(folder)
    pair.north.add(*ours)
    pair.south.add(*theirs)

    def mute():
        pair.wait(lambda: len(I_FRAME.findall((RADIO / "b.log").read_bytes())) >= 5, "the transfer to begin")
        (RADIO / "mute_b").touch()
    code, err, _ = pair.call(meanwhile=mute)
    first = pair.took
    must(code == LINK_DROPPED and LOST.decode() in err, "north ended with", code, err)
    must(pair.endings(pair.north) == [LOST], "north's row:", pair.endings(pair.north))
    must(pair.north.states() == {b"1_N": WAITING, b"2_N": WAITING}, "north's marks after the drop:", pair.north.states())
    must(pair.south.states() == {b"1_S": WAITING}, "south's marks after the drop:", pair.south.states())
    before = [row[5] for row in pair.south.inbox()]
    must(b"2_N" not in before, "south has the long message already")
    (RADIO / "mute_b").unlink()
    code, err, _ = pair.call()
    must(code == DONE, "north's second call ended with", code, err)
    must(pair.north.states() == {b"1_N": DECLINED if b"1_N" in before else FORWARDED, b"2_N": FORWARDED}, "north's marks:", pair.north.states())
    must(pair.south.states() == {b"1_S": FORWARDED}, "south's marks:", pair.south.states())
    must(pair.south.inbox() == [message.checked().row() for message in ours], "south has", pair.south.inbox())
    must(pair.north.inbox() == [message.checked().row() for message in theirs], "north has", pair.north.inbox())
    report("silenced", "dropped after %.0f s (%s), south had %d of 2 messages; called again %.0f s: nothing lost, nothing doubled, marks right"
           % (first, pair.endings(pair.south)[0].decode(), len(before), pair.took))
    pair.end()


class Mail:
    """What a node was given, and that it is at the other exactly once when it is marked."""

    def __init__(self, node, name):
        self.node, self.name, self.sent = node, name, {}

    def put(self, draw, count):
        for _ in range(count):
            names = draw.choice([dict(form="message", title=bytes(draw.choices(range(0x21, 0x100), k=20))),
                                 dict(form="file", title=b"", name=b"A.BIN")])
            message = Message(b"%d_%s" % (len(self.sent) + 1, self.name), draw.randbytes(draw.choice([0, 30, 300, 700])), **names)
            self.sent[message.bid] = message
            self.node.add(message)

    def check(self, other):
        rows = other.inbox()
        kept = {row[5]: row for row in rows}
        must(len(kept) == len(rows), "kept twice:", [row[5] for row in rows])
        for bid, row in kept.items():
            must(row == self.sent[bid].checked().row(), bid, "isn't what was sent:", row)
        for bid, state in self.node.states().items():
            must(state == WAITING or bid in kept, bid, "is marked and isn't there")


def fades(folder, seconds, seed):
    """Sessions with random fades of either station, the bases checked after each. North calls again at once, whether south has seen its end or not."""
    draw, pair = random.Random(seed), Pair(folder)
    north, south = Mail(pair.north, b"N"), Mail(pair.south, b"S")
    began, count, dropped = time.monotonic(), 0, 0
    over = threading.Event()

    def fade():
        while not over.is_set():
            over.wait(draw.uniform(2, 25))
            mute = RADIO / draw.choice(["mute_a", "mute_b"])
            mute.touch()
            over.wait(draw.choice([1, 3, 6, 40]))
            mute.unlink()
    threading.Thread(target=fade, daemon=True).start()
    while time.monotonic() - began < seconds:
        north.put(draw, draw.choice([0, 1, 2]))
        south.put(draw, draw.choice([0, 1, 2]))
        code, err, _ = pair.call("--sid-limit", "60", patient=False)
        count, dropped = count + 1, dropped + (code != DONE)
        must(code in (DONE, LINK_DROPPED), "north ended with", code, err)
        north.check(pair.south)
        south.check(pair.north)
        report("fades", "session %d: exit code %d, %.0f s, %s" % (count, code, pair.took, err.strip().splitlines()[-1]))
    over.set()
    time.sleep(0.5)
    for mute in RADIO.glob("mute_?"):
        mute.unlink()
    for _ in range(5):
        if pair.call("--sid-limit", "60", patient=False)[0] == DONE:
            break
    pair.wait(lambda: pair.south.ask("SELECT count(*) FROM session WHERE ended IS NULL") == [(0,)], "south's session to end")
    for one, other in ((north, pair.south), (south, pair.north)):
        one.check(other)
        must(WAITING not in one.node.states().values(), "left waiting:", one.node.states())
    report("fades", "%d sessions, %d dropped, %d messages, each at the other end once, byte for byte; seed %d" % (count, dropped, len(north.sent) + len(south.sent), seed))
    pair.end()


def main():
    words = argparse.ArgumentParser()
    words.add_argument("root")
    words.add_argument("what", choices=["whole", "silenced", "fades"])
    words.add_argument("--name", default="whole")
    words.add_argument("--seconds", type=int, default=3600)
    words.add_argument("--seed", type=int, default=int(time.time()))
    words = words.parse_args()
    signal.signal(signal.SIGTERM, lambda *_: sys.exit(1))  # and no node is left behind
    with tempfile.TemporaryDirectory(prefix="radio.") as folder:
        try:
            if words.what == "fades":
                fades(folder, words.seconds, words.seed)
            else:
                whole(folder, words.name) if words.what == "whole" else silenced(folder)
        except Wrong as wrong:
            report(words.what, "FAILED:", wrong)
            sys.exit(1)
        finally:
            for process in Node.started:
                if process.poll() is None:
                    process.kill()


main()
