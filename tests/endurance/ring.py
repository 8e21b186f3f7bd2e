"""Four of our nodes in a ring, each with two partners, as real host processes on SQLite bases, over links that drop at random bytes: every bulletin
comes everywhere once and nowhere twice, and private mail comes to where its routes lead and stays there. See tests/endurance/run."""
import argparse
import os
import random
import re
import signal
import socket
import sqlite3
import subprocess
import sys
import tempfile
import time

sys.dont_write_bytecode = True
sys.path.insert(0, os.path.dirname(os.path.abspath(__file__)))

from nodes import DECLINED, DONE, FORWARDED, LINK_DROPPED, WAITING, Message, Wrong, crc16, letter, pass_on  # noqa: E402

CALLS = ["N0AAA", "N0BBB", "N0CCC", "N0DDD"]
NEW = [0, 0, 0, 1, 2]  # how many messages come in at a node before a session
EARLY = [60, 400, 2000, 6000]  # a session is dropped within so many bytes
PATIENCE = 60
BULLETIN, PRIVATE = b"B", b"P"


class Station:
    """A node of the ring, and what was put into it: BID to type, at-field and body."""

    def __init__(self, program, folder, place):
        self.program, self.call, self.base, self.sent = program, CALLS[place], os.path.join(folder, CALLS[place] + ".base"), {}
        self.next, self.last = CALLS[(place + 1) % 4], CALLS[place - 1]
        self.run("init", "--call", self.call)
        for partner in sorted((self.next, self.last), key=lambda _: random.random()):
            self.run("admit", partner)
        for partner in (self.next, self.last):
            self.run("route", partner, partner)
        self.run("route", "*", self.next)  # to the station opposite, one way round

    def run(self, *words, given=None):
        done = subprocess.run([self.program, self.base, *words], input=given, capture_output=True, timeout=PATIENCE)
        if done.returncode != DONE:
            raise Wrong(f"{self.call}: {words}: {done.stderr.decode('latin-1')}")

    def start(self, *words):
        return subprocess.Popen([self.program, self.base, *words, "--timeout", str(PATIENCE)], stdin=subprocess.DEVNULL, stdout=subprocess.DEVNULL,
                                stderr=subprocess.PIPE)

    def rows(self, sql):
        with sqlite3.connect(self.base) as base:
            return base.execute(sql).fetchall()

    def put(self, count):
        letters = []
        for _ in range(count):
            kind, at = random.choice([(BULLETIN, b"WW"), (BULLETIN, b"WW"), (PRIVATE, random.choice([c for c in CALLS if c != self.call]).encode())])
            message = Message(bid=b"%d_%s" % (len(self.sent) + 1, self.call.encode()), form=random.choice([1, 2]), type=kind, at=at, stored=0)
            body = random.randbytes(random.choice([0, 10, 255, 256, 700, 3000]))
            letters.append(letter(message, body, len(body)))
            self.sent[message.bid] = (kind, at, crc16(body).to_bytes(2, "little") + body)
        if letters:
            self.run("import", "-", "--as-is", given=b"".join(letters))

    def kept(self):
        """What came in; nothing did twice."""
        rows = self.rows("SELECT bid, type, at, body, copy FROM inbox")
        if any(copy for *_, copy in rows) or len({bid.upper() for bid, *_ in rows}) != len(rows):
            raise Wrong(f"{self.call}: a message came twice")
        return {bid: (kind.encode(), at, body) for bid, kind, at, body, _ in rows}

    def passages(self):
        return self.rows("SELECT bid, CAST(passage.call AS TEXT), passage.state FROM passage JOIN outbox USING (number)")


def session(caller, called, drop_after):
    """Whether it ended by FQ at both ends."""
    answers = called.start("listen", "0", "--once", "--partner", caller.call)
    port = int(re.search(rb":(\d+)\s*$", answers.stderr.readline()).group(1))
    with socket.create_server(("127.0.0.1", 0)) as listener:
        listener.settimeout(PATIENCE)
        calls = caller.start("call", "127.0.0.1:%d" % listener.getsockname()[1], "--partner", called.call)
        try:
            with listener.accept()[0] as first, socket.create_connection(("127.0.0.1", port)) as second:
                pass_on(first, second, drop_after)
        except OSError:
            pass  # an end that is gone is a dropped link
    said = [process.communicate(timeout=2 * PATIENCE)[1] for process in (calls, answers)]
    codes = [calls.returncode, answers.returncode]
    if not set(codes) <= {DONE, LINK_DROPPED}:
        raise Wrong(f"a session ended with {codes}: {said}")
    return codes == [DONE, DONE]


def check(stations):
    """What holds after every session; gives how many wait."""
    sent = {bid: message for station in stations for bid, message in station.sent.items()}
    kept = {station.call: station.kept() for station in stations}
    waiting = 0
    for station in stations:
        for bid, message in kept[station.call].items():
            if sent.get(bid) != message or bid in station.sent:
                raise Wrong(f"{station.call}: {bid} was kept changed, or came back")
        for bid, partner, state in station.passages():
            there = bid in kept[partner] or bid in dict.fromkeys(next(s for s in stations if s.call == partner).sent)
            if state in (FORWARDED, DECLINED) and not there:
                raise Wrong(f"{station.call}: {bid} is marked {state} for {partner} and isn't there")
            waiting += state == WAITING
    return waiting


def arrived(stations):
    """Every bulletin everywhere, private mail where it should be."""
    for station in stations:
        for bid, (kind, at, _) in station.sent.items():
            for other in stations:
                wanted = other is not station and (kind == BULLETIN or other.call.encode() == at)
                if wanted and bid not in other.kept():
                    raise Wrong(f"{bid} never came to {other.call}")


def run(stations, sessions):
    count = drops = 0
    while count < sessions or check(stations):
        last = count >= sessions
        if count > sessions + 200:
            raise Wrong("mail still waits after 200 sessions without a drop")
        for station in stations:
            station.put(0 if last else random.choice(NEW))
        place = random.randrange(4)
        pair = [stations[place], stations[place - 1]]
        random.shuffle(pair)
        drops += not session(*pair, 10 ** 9 if last else random.randint(1, random.choice(EARLY)))
        check(stations)
        count += 1
    arrived(stations)
    return count, drops


def main():
    words = argparse.ArgumentParser(description=__doc__)
    words.add_argument("--host", required=True)
    words.add_argument("--sessions", type=int, default=300)
    words.add_argument("--seed", type=int, default=time.time_ns() % 2 ** 32)
    options = words.parse_args()
    random.seed(options.seed)
    signal.signal(signal.SIGTERM, lambda *_: sys.exit(1))
    start = time.monotonic()
    with tempfile.TemporaryDirectory(prefix="ring.") as folder:
        stations = [Station(os.path.abspath(options.host), folder, place) for place in range(4)]
        try:
            count, drops = run(stations, options.sessions)
        except Wrong as wrong:
            print(f"ring: FAILED: {wrong}\nrepeat with --seed {options.seed}")
            return 1
        bulletins = sum(kind == BULLETIN for station in stations for kind, *_ in station.sent.values())
        private = sum(len(station.sent) for station in stations) - bulletins
        kept = sum(len(station.kept()) for station in stations)
    print(f"ring: four nodes, {count} sessions, {drops} dropped; {bulletins} bulletins came everywhere once, {private} private messages to their "
          f"mailbox; {kept} messages kept, none twice: {time.monotonic() - start:.1f} s")
    return 0


if __name__ == "__main__":
    sys.exit(main())
