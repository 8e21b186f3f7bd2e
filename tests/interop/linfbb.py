"""A LinFBB mailbox on loopback, in a scratch folder."""
import contextlib
import os
import random
import re
import subprocess
import time

import partner
from relay import listener

SETUP = os.path.join(os.path.dirname(os.path.abspath(__file__)), "../peers/linfbb-setup.sh")

FRAMED, PLAIN = "[NOD-1-B1FH$]", "[NOD-1-FH$]"

# What LinFBB puts in front of a text that it passes on.
HEAD = re.compile(rb"(?:R:[^\r]*\r\n?)+\r\n?From: [^\r]*\r\n?To  : [^\r]*\r\n?\r\n?")


CONSOLE_PATIENCE = 10  # seconds until the console shows what happens
GREETING_PATIENCE = 10  # seconds until a mailbox that is up greets
STARTS = 3  # so often it is begun until it does
LOG_SHOWN = 2000  # bytes of its log, where a case fails


GIVEN = set()  # to mailboxes of this run, which don't all listen yet


def free_port():
    """One where nobody listens, below those that the system gives to callers (32768 on Linux): it stays free while nobody listens there."""
    while True:
        port = random.randrange(20000, 32000)
        if port in GIVEN:
            continue
        try:
            listener(port).close()
        except OSError:
            continue
        GIVEN.add(port)
        return port


def partner_message(message):
    """A message for the lenient partner to send."""
    return partner.message(type=message.type.decode(), frm=message.sender, at=message.at, to=message.to, bid=message.bid,
                           title=message.title, hex=message.text.hex())


class Box:
    def __init__(self, folder, name, comp="OK 3", fwd="OK 160", extra=""):
        """A mailbox that greets its callers. One that is up and hangs up on them instead is begun anew, on other ports: nothing can be tested on it."""
        said = ""
        for attempt in range(STARTS):
            self.folder = os.path.join(folder, f"{name}-{attempt}" if attempt else name)
            self.start(comp, fwd, extra)
            if self.greets():
                return
            said = self.log()
            self.stop()
        raise RuntimeError("LinFBB hangs up on whoever calls it:\n" + said)

    def start(self, comp, fwd, extra):
        self.port, self.call_port, self.console_port = free_port(), free_port(), free_port()
        self.console_word = "%016x" % random.SystemRandom().getrandbits(64)
        env = dict(os.environ, CONSOLE_PORT=str(self.console_port), CONSOLE_WORD=self.console_word, TELNET_PORT=str(self.port), CALL_PORT=str(self.call_port), FBBCOMP=comp, FBBFWD=fwd,
                   SECURITY="8 12 59", SOURCE_EXTRA="G WW", FWD_EXTRA="Z 75*" + extra)
        done = subprocess.run([SETUP, "start", self.folder], env=env, stdout=subprocess.PIPE, stderr=subprocess.PIPE)
        if done.returncode != 0:
            raise RuntimeError("LinFBB doesn't start: " + done.stderr.decode("latin-1"))

    def greets(self):
        """Whether it asks a caller for the callsign, within some time: it may still be starting behind an open port."""
        end = time.monotonic() + GREETING_PATIENCE
        while time.monotonic() < end:
            try:
                link = partner.login_call(self.port, None)
                link.until(b"Callsign : ")
                link.s.close()
                return True
            except (partner.Closed, partner.Silent, OSError):
                time.sleep(0.2)
        return False

    def log(self):
        """The end of what LinFBB has said of itself."""
        with open(os.path.join(self.folder, "xfbbd.log"), "rb") as file:
            return file.read()[-LOG_SHOWN:].decode("latin-1")

    def stop(self):
        if os.path.exists(os.path.join(self.folder, "xfbbd.pid")):
            subprocess.run([SETUP, "stop", self.folder], check=False, stderr=subprocess.DEVNULL)

    def login(self, call, sid, messages=()):
        """A session of the lenient partner; gives it with what it kept."""
        link = partner.login_call(self.port, "." + call)
        done = partner.Partner(link, sid, messages, hooks={"linger": 0.05}).run(True)
        if "FQ" not in done.log[-2]:
            raise RuntimeError(f"{call} at LinFBB: " + "; ".join(done.log))
        return done

    def fetch(self, sid=PLAIN):
        """What LinFBB has for F0SRC, as {BID: [(title, text)]}: the text with LinFBB's own lines in front taken off."""
        found = {}
        for kept in self.login("F0SRC", sid).kept:
            body = bytes.fromhex(kept["unpacked"] if "unpacked" in kept else kept["hex"])
            head = HEAD.match(body)
            text = body[head.end():] if head else body
            found.setdefault(kept["bid"].encode("latin-1"), []).append((kept["title"].encode("latin-1"), text))
        return found

    @contextlib.contextmanager
    def holding(self, *messages, sid=PLAIN):
        """LinFBB has mail for N0DE meanwhile, brought by F0SRC; what is left of it is taken out at the end."""
        self.login("F0SRC", sid, [partner_message(message) for message in messages])
        try:
            yield
        finally:
            self.login("N0DE", FRAMED)

    @contextlib.contextmanager
    def asking(self, password):
        """LinFBB asks N0DE for this password meanwhile (the sysop's command EU gives it one), and lets nobody in without."""
        self.login("N0DE", FRAMED)
        link = partner.login_call(self.port, ".F0SYS")
        for line in (b"EU N0DE\r", b"N\r", b"W " + password + b"\r", b"\r"):
            link.until(b">\r" if line.startswith((b"EU", b"W", b"\r")) else b"?")
            link.send(line)
        link.until(b"BBS>\r")
        link.send(b"B\r")
        link.s.close()
        path = os.path.join(self.folder, "etc/passwd.sys")
        with open(path) as file:
            trusting = file.read()
        with open(path, "w") as file:
            file.write("password\n")
        try:
            yield
        finally:
            with open(path, "w") as file:
                file.write(trusting)

    @contextlib.contextmanager
    def watched(self):
        """Gives a function that tells what LinFBB's own console has shown of its sessions since, once the last of them is over."""
        path = os.path.join(self.folder, "console")
        words = ["-r", "-f", "-m", "0", "-h", "127.0.0.1", "-p", str(self.console_port), "-i", "F0CON", "-w", self.console_word]

        def shown(until=b" Disconnect "):
            end = time.monotonic() + CONSOLE_PATIENCE
            while True:
                with open(path, "rb") as file:
                    text = file.read()
                if text.count(until) >= max(1, text.count(b" Connect ")) or time.monotonic() > end:
                    return text
                time.sleep(0.05)
        with open(path, "wb") as file:
            console = subprocess.Popen(["xfbbC", *words], stdin=subprocess.DEVNULL, stdout=file, stderr=subprocess.STDOUT)
        try:
            shown(b"Monitoring channel")
            yield shown
        finally:
            console.kill()
            console.wait()

    def call_us(self):
        """Makes LinFBB call us at call_port now, mail or not (sysop command FR)."""
        link = partner.login_call(self.port, ".F0SYS")
        link.until(b">\r")
        link.send(b"FR N0DE\r")
        link.until(b">\r")
        link.send(b"B\r")
        link.s.close()
