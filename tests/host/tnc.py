"""A TNC as programs know it (AGW over TCP), without a radio: links between the programs at it, and with stations that a test plays.

Like a real one it forgets what it still has to send when it is told to disconnect, counts what isn't acknowledged, and puts nothing on the
air when a program's connection ends. Unlike one it notes every frame, and a test says when a station acknowledges."""
import collections
import socket
import struct
import threading
import time

HEAD = struct.Struct("<B3xBxBx10s10sI4x")  # radio, kind, PID, from, to, length
Frame = collections.namedtuple("Frame", "radio kind source target data")


def pack(kind, source="", target="", data=b"", radio=0, pid=0xF0):
    return HEAD.pack(radio, ord(kind), pid, source.encode(), target.encode(), len(data)) + data


class End:
    """One end of a link: a program's, or a test's own. What it has sent and the other hasn't acknowledged stands in `queue`."""

    def __init__(self, name, program=None):
        self.name, self.program, self.queue, self.holds = name, program, [], False
        self.heard, self.ended, self.other, self.radio = b"", None, None, 0


class Program:
    """A connection of a program with the TNC."""

    def __init__(self, tnc, link):
        self.tnc, self.link, self.names, self.closed = tnc, link, [], False
        threading.Thread(target=self.serve, daemon=True).start()

    def some(self, count):
        got = b""
        while len(got) < count:
            part = self.link.recv(count - len(got))
            if not part:
                raise EOFError
            got += part
        return got

    def serve(self):
        try:
            while True:
                radio, kind, _, source, target, count = HEAD.unpack(self.some(HEAD.size))
                source, target = (name.split(b"\0")[0].decode() for name in (source, target))
                frame = Frame(radio, chr(kind), source, target, self.some(count))
                with self.tnc.changed:
                    self.tnc.take(self, frame)
                    self.tnc.changed.notify_all()
        except (EOFError, OSError):
            with self.tnc.changed:
                self.closed = True
                self.tnc.note("closed")
                self.tnc.changed.notify_all()

    def send(self, data):
        try:
            self.link.sendall(data)
        except OSError:
            pass


class Tnc:
    def __init__(self, patience=60, radios=b"1;Port1 a test's own;\0", registers=b"\1", port=0):
        self.patience, self.radios, self.registers = patience, radios, registers
        self.changed = threading.Condition()
        self.frames, self.programs, self.ends, self.noted = [], [], [], []
        self.confirms = 0  # seconds until a disconnect is confirmed; None: never
        self.cuts = 1  # frames on the air for each frame of data
        self.answers_outstanding = True
        self.server = socket.create_server(("127.0.0.1", port))
        self.port = self.server.getsockname()[1]
        threading.Thread(target=self.accept, daemon=True).start()

    def accept(self):
        while True:
            try:
                link = self.server.accept()[0]
            except OSError:
                return
            with self.changed:
                self.programs.append(Program(self, link))
                self.changed.notify_all()

    def close(self):
        """The TNC goes away."""
        with self.changed:
            try:
                self.server.shutdown(socket.SHUT_RDWR)  # wakes who waits for calls
            except OSError:
                pass
            self.server.close()
            for program in self.programs:
                try:
                    program.link.shutdown(socket.SHUT_RDWR)
                except OSError:
                    pass

    def note(self, word):
        self.noted.append((time.monotonic(), word))

    def words(self):
        return [word for _, word in self.noted]

    def until(self, true, what):
        """Waits, and gives what it waited for."""
        with self.changed:
            if not self.changed.wait_for(true, self.patience):
                raise AssertionError("the TNC waits for %s; it was told %r" % (what, self.words()[-20:]))
            return true()

    # ---- what programs say

    def take(self, program, frame):
        self.frames.append(frame)
        self.note(frame.kind)
        getattr(self, "take_" + frame.kind, lambda *_: None)(program, frame)

    def take_G(self, program, frame):
        program.send(pack("G", data=self.radios))

    def take_X(self, program, frame):
        if self.registers == b"\1":
            program.names.append(frame.source)
        program.send(pack("X", frame.source, data=self.registers))

    def program_of(self, name):
        return next((p for p in self.programs if name in p.names and not p.closed), None)

    def take_C(self, program, frame):
        other = self.program_of(frame.target)
        if other:  # else a test answers
            self.join(End(frame.source, program), End(frame.target, other), frame.radio)

    def join(self, caller, called, radio=0):
        caller.other, called.other = called, caller
        for end, word in ((caller, "With"), (called, "To")):
            end.radio = radio
            if end.program:
                text = "*** CONNECTED %s Station %s\r\0" % (word, end.other.name)
                end.program.send(pack("C", end.other.name, end.name, text.encode(), radio))
        self.ends += [caller, called]

    def end_of(self, frame):
        """The link that a program's frame is about."""
        return next((end for end in reversed(self.ends) if end.program and (end.name, end.other.name, end.radio) == (frame.source, frame.target, frame.radio)
                     and end.ended is None), None)

    def take_D(self, program, frame):
        end = self.end_of(frame)
        if end:
            end.queue.append(frame.data)
            self.deliver(end)

    def deliver(self, end, count=None):
        """The other end acknowledges so many frames, or all; what it has acknowledged it has."""
        if count is None:
            count = 0 if end.holds else len(end.queue)
        for data in end.queue[:count]:
            if end.other.program:
                end.other.program.send(pack("D", end.name, end.other.name, data, end.radio))
            end.other.heard += data
        del end.queue[:count]

    def take_Y(self, program, frame):
        end = self.end_of(frame)
        count = self.cuts * len(end.queue) if end else 0
        if self.answers_outstanding:
            program.send(pack("Y", frame.source, frame.target, struct.pack("<I", count), frame.radio))

    def take_d(self, program, frame):
        end = self.end_of(frame)
        if end and end.queue:
            self.note("lost %d" % len(end.queue))
        if end:
            end.queue.clear()
            end.ended = end.other.ended = "disconnected"
            if end.other.program:
                end.other.program.send(pack("d", end.name, end.other.name, b"*** DISCONNECTED From Station " + end.name.encode() + b"\r\0", end.radio))
        if self.confirms == 0:
            self.confirm(program, frame)
        elif self.confirms is not None:
            threading.Timer(self.confirms, self.confirm, [program, frame]).start()

    def confirm(self, program, frame):
        with self.changed:
            self.note("confirmed")
            program.send(pack("d", frame.target, frame.source, b"*** DISCONNECTED From Station " + frame.target.encode() + b"\r\0", frame.radio))
            self.changed.notify_all()

    # ---- what a test says

    def registered(self, name):
        return self.until(lambda: self.program_of(name), name + " to be registered")

    def called(self, name, holds=False):
        """A station that a program calls; it answers."""
        frame = self.until(lambda: next((f for f in self.frames if f.kind in "Cv" and f.target == name), None), "a call of " + name)
        self.frames.remove(frame)
        with self.changed:
            ours, theirs = End(name), End(frame.source, self.program_of(frame.source))
            theirs.holds = holds
            self.join(theirs, ours, frame.radio)
        return Station(self, ours)

    def calls(self, name, whom, radio=0, holds=False):
        """A station calls a program."""
        self.registered(whom)
        with self.changed:
            ours, theirs = End(name), End(whom, self.program_of(whom))
            theirs.holds = holds
            self.join(ours, theirs, radio)
        return Station(self, ours)

    def sends(self, name, data):
        """Bytes from the TNC to the program with this callsign, whatever they are."""
        self.registered(name).send(data)


class Station:
    """A station that a test plays: it says what the test says and hears what it expects."""

    def __init__(self, tnc, end):
        self.tnc, self.end, self.taken = tnc, end, 0

    def says(self, data):
        with self.tnc.changed:
            for at in range(0, len(data), 236):
                self.end.queue.append(data[at:at + 236])
            self.tnc.deliver(self.end)

    def hears(self, data):
        def came():
            heard = self.end.heard[self.taken:]
            return len(heard) >= len(data) or not data.startswith(heard) or self.end.ended
        self.tnc.until(came, "%r" % data[:80])
        heard = self.end.heard[self.taken:]
        assert heard.startswith(data), "heard %r, %r was due" % (heard[:200], data[:200])
        self.taken += len(data)

    def hears_end(self):
        self.tnc.until(lambda: self.end.ended, "the end of the link")
        heard = self.end.heard[self.taken:]
        assert not heard, "heard %r, the end was due" % heard

    def acknowledges(self, count):
        with self.tnc.changed:
            self.tnc.deliver(self.end.other, count)
            self.tnc.changed.notify_all()

    def acknowledges_all(self):
        with self.tnc.changed:
            self.end.other.holds = False
            self.tnc.deliver(self.end.other)
            self.tnc.changed.notify_all()

    def holds(self, count=1):
        """So many frames are outstanding."""
        self.tnc.until(lambda: len(self.end.other.queue) >= count, "%d frames" % count)

    def disconnects(self, text="From Station"):
        """The program is told of a disconnect in these words."""
        with self.tnc.changed:
            end = self.end.other
            self.end.ended = end.ended = text
            if end.program:
                end.program.send(pack("d", self.end.name, end.name, b"*** DISCONNECTED " + text.encode() + b" " + self.end.name.encode() + b"\r\0", end.radio))

    def is_lost(self):
        self.disconnects("RETRYOUT With")
