"""What a case has to work with: mailboxes, nodes, and sessions between them."""
import os
import re

from linfbb import FRAMED, PLAIN, Box
from message import Message
from node import Node
from relay import Relay

PASSWORD = "Secret Word"
LEVELS = {"level1": 1, "level0": 0, "asked": 1}  # in force with these mailboxes; the others speak plain
WAYS = [(mode, role) for mode in ("level1", "level0", "plain") for role in ("caller", "called")]


class Failed(Exception):
    """A case didn't hold."""


def expect(what, found, wanted):
    if found != wanted:
        raise Failed(f"{what}\n    found:  {found!r}\n    wanted: {wanted!r}")


class World:
    def __init__(self, program, folder):
        self.program, self.folder, self.waiting = program, folder, None
        os.makedirs(folder)
        self.boxes, self.fetched, self.nodes, self.number = {}, {}, 0, 0

    def box(self, name):
        """level1: as installed; level0: B without a number in its SID; plain: without B; old: without F; asked: says callsign and password when it
        calls."""
        if name not in self.boxes:
            settings = {"level1": {}, "level0": {"comp": "OK 2"}, "plain": {"comp": "NO"}, "old": {"fwd": "NO"}, "asked": {"extra": "\nV F0FBB$W" + PASSWORD + "$W"}}[name]
            self.boxes[name] = Box(self.folder, "box-" + name, **settings)
        return self.boxes[name]

    def stop(self):
        if self.waiting:
            self.waiting.stop()
        for box in self.boxes.values():
            box.stop()

    def logs(self):
        """What the mailboxes have said of themselves."""
        return "".join(f"{name}: {box.log()}\n" for name, box in self.boxes.items())

    def node(self, *messages):
        """A node with a fresh base and these messages waiting."""
        self.nodes += 1
        node = Node(self.program, self.folder, f"node-{self.nodes}")
        return node.put(*messages) if messages else node

    def bid(self):
        """One that no other message of the run has."""
        self.number += 1
        return b"%d_N0DE" % self.number

    def message(self, mode, **fields):
        """A message that goes in this mode. On the shelf every second one has the form of the other level, which the host must change."""
        bid = self.bid()
        return Message(**{"bid": bid, "form": int(mode in LEVELS), "level": LEVELS.get(mode, 0), "stored": self.number % 2, **fields})

    def session(self, mode, role, node, drop=None, edits=(), spoil=None, login=".N0DE", options=()):
        """A session of the node with the mailbox of this mode; gives how it ended, and the link. edits: of what the mailbox says; spoil: a
        function of what we say."""
        box = self.box(mode)
        if role == "caller":
            telnet = [] if login.startswith(".") else ["--telnet"]
            relay = Relay(True, box.port, drop=drop, edits=edits, spoil=spoil)
            ended = node.call(relay.port, "--login", login, *telnet, *options)
        else:
            self.waiting = node
            port = node.listen(*options) if mode == "asked" else node.listen("--telnet", *options)
            relay = Relay(False, port, box.call_port, drop=drop, edits=edits, spoil=spoil)
            box.call_us()
            ended = node.ended()
        relay.close()
        return ended, relay

    def secret(self, password):
        """A file with a password."""
        path = os.path.join(self.folder, "password")
        with open(path, "w") as file:
            file.write(password + "\n")
        return path

    def fetch(self, mode):
        """All that LinFBB has had for F0SRC so far, as {BID: [(title, text)]}. Fetching before a BID is proposed again, too, keeps
        clear of LinFBB's slip with copies (cases.py, unpassed_copy)."""
        fetched = self.fetched.setdefault(mode, {})
        for bid, copies in self.box(mode).fetch(PLAIN if mode == "plain" else FRAMED).items():
            fetched.setdefault(bid, []).extend(copies)
        return fetched


def kept_in(mode, text):
    """A text as LinFBB gives it back: in plain mode without LF and with a CR at its end, in framed mode each line end as CR LF."""
    if mode == "plain":
        text = text.replace(b"\n", b"")
        return text if text.endswith(b"\r") or not text else text + b"\r"
    return re.sub(rb"\r\n|\r|\n", b"\r\n", text)


def wire(role, data):
    """How many bytes these are on the link: where LinFBB calls, FF bytes are doubled."""
    return len(data) + (data.count(b"\xff") if role == "called" else 0)
