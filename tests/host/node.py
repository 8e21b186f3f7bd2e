"""Nodes to test, as an operator has them: a base, commands on it, and partners who talk to it."""
import copy
import os
import pathlib
import re
import select
import shutil
import signal
import socket
import sqlite3
import stat
import subprocess
import sys
import tempfile
import time
import unittest

sys.path.insert(0, str(pathlib.Path(__file__).resolve().parents[1] / "peers"))
from lzhuf import crc16  # noqa: E402
from older import HOST, OLDER, ROOT, UNKNOWN, without_unknown

PLAIN = HOST / "target" / "host" / "fringemole"
SANITIZED = HOST / "target" / "host-sanitized" / "fringemole"
PATIENCE = int(os.environ.get("FRINGEMOLE_PATIENCE", "60"))  # seconds until a test gives up waiting
LATE = PATIENCE / 2  # on a busy machine what a limit of a few seconds ends has ended by then

DONE, FAILED, BAD_USAGE, BAD_BASE, BAD_PORT, LINK_DROPPED, REFUSED, BAD_FILE, NOT_ADMITTED = range(9)
WAITING, FORWARDED, DECLINED, HELD = range(4)
OUR_SID = b"[NOD-1-B1FH$]\r"
GREETING = OUR_SID + b">\r"
PROTOCOL_ERROR, CHECKSUM_ERROR = b"*** Protocol error\r", b"*** Checksum error\r"

# Where these tests run in the background SIGINT is ignored, and nodes would inherit that.
signal.signal(signal.SIGINT, signal.default_int_handler)

COLUMNS = 'form, type, "from", at, "to", bid, title, name, body'


def reason(refusal):
    """What we say after it, before we hang up."""
    return {9: CHECKSUM_ERROR, 11: b""}.get(refusal, PROTOCOL_ERROR)


class Message:
    """A message with good fields but for those that are given."""

    def __init__(self, bid, body=b"", form="message", kind=b"P", frm=b"F0ABC", at=b"N0DE.TST", to=b"F0XYZ", title=b"Hello", name=b"", size=None, level=0):
        self.bid, self.body, self.form, self.kind, self.frm, self.at, self.to = bid, body, form, kind, frm, at, to
        self.title, self.name, self.size, self.level = title, name, size, level

    def file(self):
        """In the form of 003, section 9, with X-Length always, so that any body passes."""
        lines = [b"From: " + self.frm, b"To: " + self.to + b"@" + self.at, b"Subject: " + self.title, b"X-BID: " + self.bid,
                 b"X-msgtype: " + self.kind, b"X-Form: " + self.form.encode(), b"X-File-Name: " + self.name,
                 b"X-Length: %d" % len(self.body)]
        lines += [b"X-Size: %d" % self.size] if self.size is not None else []
        lines += [b"X-Level: %d" % self.level] if self.level else []
        return b"\r\n".join(lines + [b"", self.body]) + b"\r\n/EX\r\n"

    def checked(self):
        """The same packed message as level 1 has it."""
        changed = copy.copy(self)
        if self.form != "plain":
            changed.body, changed.level = crc16(self.body).to_bytes(2, "little") + self.body, 1
        return changed

    def row(self):
        """As both boxes have it."""
        form = ["plain", "message", "file"].index(self.form)
        return (form, self.kind.decode(), self.frm, self.at, self.to, self.bid, self.title, self.name, self.body)

    def proposal(self):
        letters = b"FA" if self.form == "message" else b"FB"
        size = len(self.body) if self.size is None else self.size
        return b" ".join([letters, self.kind, self.frm, self.at, self.to, self.bid, b"%d" % size]) + b"\r"

    def transfer(self):
        """As 01 writes it."""
        heading = self.name if self.form == "file" else self.title
        if self.form == "plain":
            return heading + b"\r" + self.body + b"\x1a\r"
        blocks = [self.body[i:i + 256] for i in range(0, len(self.body), 256)]
        out = bytes([1, len(heading) + 3]) + heading + b"\0000\0"
        out += b"".join(bytes([2, len(block) % 256]) + block for block in blocks)
        return out + bytes([4, -sum(self.body) % 256])


class Node:
    """A base in a folder, and the program."""

    started = []  # every process, so that a test that fails leaves none behind

    def __init__(self, folder, name="node", program=SANITIZED, options=()):
        self.path, self.program = pathlib.Path(folder) / (name + ".base"), program
        if not self.path.exists():
            self.right("init", *options)

    def start(self, *words, **more):
        more.setdefault("stdin", subprocess.DEVNULL)
        more.setdefault("stdout", subprocess.PIPE)
        self.started.append(subprocess.Popen([self.program, self.path] + without_unknown(words), stderr=subprocess.PIPE, **more))
        return self.started[-1]

    def run(self, *words, input=b""):
        """Exit code, standard output, standard error."""
        process = self.start(*words, stdin=subprocess.PIPE)
        out, err = process.communicate(input, timeout=PATIENCE)
        return process.returncode, out, err.decode(errors="replace")

    def right(self, *words, input=b""):
        if words[0] in UNKNOWN:  # to an older host, where nothing can be done about it
            return b""
        code, out, err = self.run(*words, input=input)
        assert code == DONE, (words, code, err)
        return out

    def add(self, *messages):
        self.right("import", "-", input=b"".join(message.file() for message in messages))
        return self

    def ask(self, sql, *values):
        base = sqlite3.connect(self.path)
        rows = base.execute(sql, values).fetchall()
        base.commit()
        base.close()
        return rows

    def states(self):
        """Of each message for the base's partner, or HELD."""
        return {bid: state for bid, state in self.ask(
            "SELECT bid, CASE WHEN outbox.state = 3 AND passage.state = 0 THEN 3 ELSE passage.state END FROM outbox JOIN passage USING (number) JOIN forward USING (call)"
            " WHERE place = 0 ORDER BY number")}

    def states_of(self, call):
        """The same for one of several partners; a message that isn't for it isn't there."""
        return {bid: state for bid, state in self.ask(
            "SELECT bid, passage.state FROM outbox JOIN passage USING (number) WHERE call = ? ORDER BY number", call)}

    def mark(self, state, where="1"):
        """Messages of the outbox have this state, for everybody."""
        self.ask("UPDATE passage SET state = ? WHERE number IN (SELECT number FROM outbox WHERE " + where + ")", state)

    def inbox(self):
        return self.ask("SELECT " + COLUMNS + " FROM inbox ORDER BY number")

    def outbox(self):
        return self.ask("SELECT " + COLUMNS + " FROM outbox ORDER BY number")

    def known(self):
        return {bid for bid, in self.ask("SELECT bid FROM known")}

    def stdio(self, *options):
        return Partner.of_process(self.start("stdio", *options, stdin=subprocess.PIPE))

    def listen(self, *options):
        """A listening program and its port."""
        process = self.start("listen", "0", *options)
        line = process.stderr.readline().decode()
        found = re.search(r"listening on 127\.0\.0\.1:(\d+)$", line.strip())
        assert found, line
        return process, int(found.group(1))


class Partner:
    """The other end of a node's link, who says what a test says and hears what it expects."""

    def __init__(self, process, read, write, hang_up):
        self.process, self.read, self.write, self.hang_up = process, read, write, hang_up
        self.early, self.said, self.heard = b"", b"", b""

    @classmethod
    def of_process(cls, process):
        out, into = process.stdout.fileno(), process.stdin

        def write(data):
            into.write(data)
            into.flush()
        return cls(process, lambda: cls.read_of(process, out, os.read), write, into.close)

    @classmethod
    def of_socket(cls, process, link):
        return cls(process, lambda: cls.read_of(process, link.fileno(), lambda _, n: link.recv(n)), link.sendall, link.close)

    @classmethod
    def of_terminal(cls, process, master):
        def read(descriptor, n):
            try:
                return os.read(descriptor, n)
            except OSError:  # the other side is closed
                return b""
        return cls(process, lambda: cls.read_of(process, master, read), lambda data: os.write(master, data), lambda: os.close(master))

    @staticmethod
    def read_of(process, descriptor, read):
        assert select.select([descriptor], [], [], PATIENCE)[0], "the node is silent" + last_words(process)
        return read(descriptor, 65536)

    def says(self, data):
        self.said += data
        self.write(data)

    def hears(self, data):
        """Exactly these bytes come next."""
        while len(self.early) < len(data) and data.startswith(self.early):
            more = self.read()
            if not more:
                raise HungUp("the node hung up after %r, %r was due" % (self.early, data), self.process)
            self.early += more
        assert self.early.startswith(data), "heard %r, %r was due" % (self.early[:200], data[:200])
        self.early = self.early[len(data):]
        self.heard += data

    def hears_end(self):
        """Nothing more, and the node hangs up."""
        more = self.early or self.read()
        assert more == b"", "heard %r, the end was due" % more

    def ends(self):
        """Exit code and standard error, once the node has ended."""
        out, err = self.process.communicate(timeout=PATIENCE) if self.process.stdin is None else self.rest()
        assert not out, out
        return self.process.returncode, err.decode(errors="replace")

    def ends_itself(self):
        """The same, of a node that ends while we say nothing."""
        self.process.wait(PATIENCE)
        return self.ends()

    def rest(self):
        if not self.process.stdin.closed:
            self.process.stdin.close()
        err = self.process.stderr.read()
        self.process.wait(PATIENCE)
        out = self.process.stdout.read()
        for pipe in (self.process.stdout, self.process.stderr):
            pipe.close()
        return out, err


class Folder(unittest.TestCase):
    """A test with a folder of its own."""

    def setUp(self):
        self.folder = pathlib.Path(tempfile.mkdtemp(prefix="fringemole."))
        self.addCleanup(shutil.rmtree, self.folder)

    def tearDown(self):
        for process in Node.started:
            if process.poll() is None:
                process.kill()
                process.wait()
        Node.started.clear()

    def node(self, name="node", **more):
        return Node(self.folder, name, **more)

    def shim(self, name):
        """A library of this folder, to load before the C library (LD_PRELOAD)."""
        made = self.folder / (name + ".so")
        subprocess.run(["cc", "-shared", "-fPIC", "-o", made, ROOT / "tests" / "host" / (name + ".c"), "-ldl"], check=True)
        return str(made)

    def traced(self, start):
        """What `synced.c` noted of a process that `start` starts, with its settings and the descriptor to pass: a function, to call when it has ended."""
        read, write = os.pipe()
        start(env=dict(os.environ, LD_PRELOAD=self.shim("synced"), SYNCED_TO=str(write)), pass_fds=[write])
        os.close(write)

        def events():
            with open(read, "rb") as noted:
                return noted.read().decode()
        return events

    def says_why(self, answer, code, *words):
        """A command ended with this code and said these words."""
        self.assertEqual(answer[0], code, answer)
        said = answer[-1]
        for word in words:
            self.assertIn(word, said)
        for word in ("AddressSanitizer", "runtime error", "LeakSanitizer"):
            self.assertNotIn(word, said)


def panel_columns(head, row):
    """What a row of `sessions` has under the names of the front panel's numbers; each stands at the right."""
    names = ("proposed", "forwarded", "declined", "deferred", "unsettled", "waiting", "bytes")
    ends = [head.index(" " + name + " ") + 1 + len(name) for name in ("partner ",) + names]
    return [row[start:end].strip() for start, end in zip(ends, ends[1:])]


def last_words(process):
    """Of a node that has ended, or is about to."""
    try:
        return "; it ended with %d and said %r" % (process.wait(1), process.stderr and process.stderr.read())
    except subprocess.TimeoutExpired:
        return ""


class HungUp(AssertionError):
    """Told with the node's last words, which are read only then: a test that expects it to hang up may read them itself."""

    def __init__(self, what, process):
        super().__init__(what)
        self.process = process

    def __str__(self):
        return super().__str__() + last_words(self.process)


def next_line(process):
    """The next line on standard error, which must come in time."""
    assert select.select([process.stderr], [], [], PATIENCE)[0], "the node says nothing"
    return process.stderr.readline().decode()


def free_port():
    """A port where nobody listens."""
    with socket.socket() as s:
        s.bind(("127.0.0.1", 0))
        return s.getsockname()[1]
