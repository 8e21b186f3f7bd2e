"""The link between our node and the mailbox: records what passes, and can drop or edit it."""
import dataclasses
import re
import select
import socket
import threading
import time

QUIET = 0.1  # seconds after which bytes that an edit held back go on


def listener(port=0):
    s = socket.socket()
    s.setsockopt(socket.SOL_SOCKET, socket.SO_REUSEADDR, 1)
    s.bind(("127.0.0.1", port))
    s.listen(1)
    return s


@dataclasses.dataclass
class Drop:
    """The link drops once `count` bytes of our node were delivered and, after these, `more` bytes of the mailbox; `pause` seconds later, so that
    the mailbox has read them."""
    count: int
    more: int = 0
    pause: float = 0


def other_letter(bid):
    """An edit of what the mailbox says: one letter of a BID in a proposal. The pattern, what stands for it, and the beginnings of it that are
    held back."""
    wrong = bid[:-1] + bytes([bid[-1] ^ 1])
    beginnings = b"|".join(re.escape((b" " + bid)[:n]) for n in range(1, len(bid) + 2))
    return re.compile(b" " + re.escape(bid) + b"(?= )"), b" " + wrong, re.compile(b"(?:" + beginnings + b")$")


def wrong_line():
    """An edit: a letter of the command of a proposal."""
    return re.compile(rb"F[AB] P F0AAA "), b"FX P F0AAA ", re.compile(rb"F(?:[AB](?: (?:P(?: (?:F(?:0A{0,3})?)?)?)?)?)?$")


def wrong_data(title):
    """An edit: the first data byte of a framed transfer."""
    def wrong(found):
        return found.group(1) + bytes([found.group(2)[0] ^ 1])
    beginnings = b"|".join(re.escape(title[:n]) for n in range(1, len(title) + 1))
    head = re.escape(title) + rb"\0     0\0\x02."
    partial = re.escape(title) + rb"\0 {0,5}(?:     0(?:\0(?:\x02.?)?)?)?"
    return re.compile(b"(" + head + b")(.)", re.S), wrong, re.compile(b"(?:" + beginnings + b"|" + partial + b")$", re.S)


class Relay:
    """One session between our node and the mailbox."""

    def __init__(self, we_call, to, port=0, drop=None, edits=(), spoil=None):
        self.we_call, self.to, self.edits, self.spoil = we_call, to, edits, spoil
        self.heard = {"us": b"", "peer": b""}
        self.left = {"us": drop.count, "peer": drop.more} if drop else {}
        self.pause = drop.pause if drop else 0
        self.held = b""
        self.listener = listener(port)
        self.port = self.listener.getsockname()[1]
        self.thread = threading.Thread(target=self.run, daemon=True)
        self.thread.start()

    def run(self):
        self.listener.settimeout(60)
        try:
            first = self.listener.accept()[0]
        except OSError:
            return
        finally:
            self.listener.close()
        try:
            with first, socket.create_connection(("127.0.0.1", self.to)) as second:
                ours, theirs = (first, second) if self.we_call else (second, first)
                self.pass_on(ours, theirs)
        except OSError:
            pass  # an end that is gone is a dropped link

    def pass_on(self, ours, theirs):
        ways = {ours: ("us", theirs), theirs: ("peer", ours)}
        while ways:
            ready = select.select(list(ways), [], [], QUIET)[0]
            if not ready and self.held:
                self.deliver("peer", ours, b"", True)
            for s in ready:
                side, to = ways[s]
                data = s.recv(65536)
                dropped = self.deliver(side, to, data, not data)
                if dropped:
                    time.sleep(self.pause)
                    return
                if not data:
                    del ways[s]
                    to.shutdown(socket.SHUT_WR)

    def deliver(self, side, to, data, flush):
        """True if the link drops now."""
        if side == "peer" and self.edits:
            data = self.edit(data, flush)
        if side == "us" and self.spoil:
            data = self.spoil(data)
        cut = len(data)
        # What the mailbox says counts once our node has been heard so far.
        if self.left and (side == "us" or self.left["us"] == 0):
            cut = min(cut, self.left[side])
            self.left[side] -= cut
        self.heard[side] += data[:cut]
        to.sendall(data[:cut])
        return cut < len(data) or self.left == {"us": 0, "peer": 0}

    def edit(self, data, flush):
        data, self.held = self.held + data, b""
        for pattern, new, _ in self.edits:
            data = pattern.sub(new, data)
        for _, _, beginning in self.edits:
            found = beginning.search(data)
            if found and not flush:
                data, self.held = data[:found.start()], data[found.start():] + self.held
        return data

    def close(self):
        """Waits for the session's end."""
        self.thread.join(90)
        self.listener.close()
