"""Two of our nodes, as real host processes on SQLite bases, over a link that drops at random bytes. See tests/endurance/run."""
import argparse
import os
import random
import select
import signal
import socket
import sys
import tempfile
import time

sys.dont_write_bytecode = True
TESTS = os.path.join(os.path.dirname(os.path.abspath(__file__)), "..")
sys.path[:0] = [os.path.join(TESTS, "interop"), os.path.join(TESTS, "peers")]

from lzhuf import crc16  # noqa: E402
from message import Message, letter  # noqa: E402
from node import DECLINED, DONE, FORWARDED, LINK_DROPPED, WAITING, Node  # noqa: E402

NEW = [0, 0, 1, 1, 2, 3, 8]  # how many messages come in at a node before a session
EARLY = [60, 400, 2000, 10 ** 9]  # a session is dropped within so many bytes, or anywhere


class Wrong(Exception):
    """Mail was lost, doubled, changed or marked wrongly."""


class Base:
    """A node, what was put into it, and what it was found to hold."""

    def __init__(self, program, folder, name):
        self.name, self.node = name, Node(program, folder, name)
        self.sent, self.states, self.kept, self.seen = {}, {}, {}, 0

    def put(self, count):
        """New mail of any form, with any bytes in title, BID and body."""
        letters = []
        for _ in range(count):
            number = len(self.sent) + 1
            # Plain records wait for a partner without B; soon there are more of them than a table holds.
            message = Message(bid=b"%d_%s\xe9" % (number, self.name.encode()), form=random.choice([0, 1, 1, 1, 2]),
                              type=random.choice([b"P", b"B"]), stored=0, title=bytes(random.choices(range(0x20, 0x100), k=random.randint(1, 80))))
            body = random.randbytes(random.choice([0, 10, 200, 255, 256, 257, 700, 4000]))
            body = body if message.form else body.replace(b"\x1a", b"\r")
            letters.append(letter(message, body, len(body)))
            # Both nodes have B1: a packed text arrives with its check in front.
            body = crc16(body).to_bytes(2, "little") + body if message.form else body
            self.sent[message.bid] = (message.form, message.type, message.title, body)
        if letters:
            self.node.run("import", "-", "--as-is", given=b"".join(letters))

    def look(self):
        """Reads what has changed. A mark is final, and what was kept before stays."""
        for bid, state in self.node.rows("SELECT bid, passage.state FROM outbox JOIN passage USING (number)"):
            before = self.states.get(bid, WAITING)
            if before not in (WAITING, state):
                raise Wrong(f"{self.name}: {bid} was marked {before}, then {state}")
            self.states[bid] = state
        rows = self.node.rows(f'SELECT number, bid, form, type, title, name, body FROM inbox WHERE number > {self.seen} ORDER BY number')
        for number, bid, form, kind, title, name, body in rows:
            if bid in self.kept:
                raise Wrong(f"{self.name}: {bid} was kept twice")
            self.kept[bid], self.seen = (form, kind.encode(), title + name, body), number

    def waiting(self):
        return [bid for bid, state in self.states.items() if state == WAITING and self.sent[bid][0] != 0]


def check(ours, theirs):
    """What must hold after every session."""
    for bid, message in theirs.kept.items():
        if ours.sent.get(bid) != message:
            raise Wrong(f"{theirs.name}: {bid} was kept changed")
    for bid, state in ours.states.items():
        if state in (FORWARDED, DECLINED) and bid not in theirs.kept:
            raise Wrong(f"{ours.name}: {bid} is marked {state} and isn't there")


def pass_on(first, second, drop_after):
    """Delivers what each end gives, so many bytes in all at most; gives how many it were."""
    ways, delivered = {first: second, second: first}, 0
    while ways:
        for s in select.select(list(ways), [], [], 60)[0]:
            data = s.recv(65536)[:drop_after - delivered]
            if data:
                ways[s].sendall(data)
            else:
                ways.pop(s).shutdown(socket.SHUT_WR)
            delivered += len(data)
            if delivered == drop_after:
                return delivered
    return delivered


def session(caller, called, drop_after):
    """One session; gives the bytes delivered and whether it ended by FQ at both ends."""
    port = called.node.listen()
    with socket.create_server(("127.0.0.1", 0)) as listener:
        listener.settimeout(60)
        process = caller.node.start_call(listener.getsockname()[1])
        delivered = 0
        try:
            with listener.accept()[0] as first, socket.create_connection(("127.0.0.1", port)) as second:
                delivered = pass_on(first, second, drop_after)
        except OSError:
            pass  # an end that is gone is a dropped link
    ended = [process(), called.node.ended()]
    for one in ended:
        if one.code not in (DONE, LINK_DROPPED):
            raise Wrong(f"a session ended with exit code {one.code}: {one.said}")
    return delivered, all(one.code == DONE for one in ended)


def run(bases, sessions):
    """The sessions, and more without drops until all mail is there."""
    bytes_, drops, count = 0, 0, 0
    while count < sessions or any(base.waiting() for base in bases):
        last = count >= sessions
        if count > sessions + 100:
            raise Wrong("mail still waits after 100 sessions without a drop")
        for base in bases:
            if not last:
                base.put(random.choice(NEW))
        drop = 10 ** 9 if last else random.randint(1, min(random.choice(EARLY), 20000))
        caller, called = random.sample(bases, 2)
        delivered, whole = session(caller, called, drop)
        for base in bases:
            base.look()
        check(*bases)
        check(*reversed(bases))
        bytes_, drops, count = bytes_ + delivered, drops + (not whole), count + 1
    for ours, theirs in (bases, bases[::-1]):
        missing = [bid for bid, message in ours.sent.items() if message[0] != 0 and bid not in theirs.kept]
        if missing:
            raise Wrong(f"{ours.name}: {missing} never arrived")
    return count, drops, bytes_


def main():
    words = argparse.ArgumentParser(description=__doc__)
    words.add_argument("--host", required=True)
    words.add_argument("--sessions", type=int, default=1000)
    words.add_argument("--seed", type=int, default=time.time_ns() % 2 ** 32)
    options = words.parse_args()
    random.seed(options.seed)
    for number in (signal.SIGINT, signal.SIGTERM, signal.SIGHUP):
        signal.signal(number, lambda *_: sys.exit(1))
    start = time.monotonic()
    with tempfile.TemporaryDirectory(prefix="endurance.") as folder:
        bases = [Base(os.path.abspath(options.host), folder, name) for name in ("NORTH", "SOUTH")]
        try:
            count, drops, delivered = run(bases, options.sessions)
        except Wrong as wrong:
            print(f"host: FAILED: {wrong}\nrepeat with --seed {options.seed}")
            return 1
        finally:
            for base in bases:
                base.node.stop()
    kept = sum(len(base.kept) for base in bases)
    states = [state for base in bases for state in base.states.values()]
    print(f"host: {count} sessions on one base a node, {drops} dropped, {delivered} bytes delivered; {kept} messages kept, "
          f"{states.count(FORWARDED)} records forwarded, {states.count(DECLINED)} declined; none lost, none doubled, none marked that "
          f"isn't there: {time.monotonic() - start:.1f} s")
    return 0


if __name__ == "__main__":
    sys.exit(main())
