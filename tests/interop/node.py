"""Our node: the host program on a base of its own."""
import dataclasses
import os
import re
import sqlite3
import subprocess

WAITING, FORWARDED, DECLINED = 0, 1, 2

# exit codes of the host (fringemole --help)
DONE, LINK_DROPPED, REFUSED, NOT_ADMITTED = 0, 5, 6, 8

PATIENCE = 30  # seconds for a session; LinFBB answers at once


@dataclasses.dataclass
class Ended:
    """How a session ended."""
    code: int
    said: str

    def refusal(self):
        """The number of the refusal that was said, or 0."""
        found = re.search(r"refusal (\d+)", self.said)
        return int(found.group(1)) if self.code == REFUSED and found else 0


def wait_for(process):
    """How a session of this process ends."""
    try:
        said = process.communicate(timeout=3 * PATIENCE)[1]
    finally:
        process.kill()
    return Ended(process.returncode, said.decode("latin-1"))


class Node:
    def __init__(self, program, folder, name):
        self.program, self.base = program, os.path.join(folder, name + ".base")
        self.listening, self.address = None, "127.0.0.1"
        self.run("init", "--call", "N0DE", "--partner", "F0FBB")

    def run(self, command, *words, given=None):
        done = subprocess.run([self.program, self.base, command, *words], input=given, capture_output=True, timeout=PATIENCE)
        if done.returncode != 0:
            raise RuntimeError(f"host {command}: exit {done.returncode}: {done.stderr.decode('latin-1')}")
        return done

    def put(self, *messages):
        """Puts messages into the outbox."""
        self.run("import", "-", "--as-is", given=b"".join(message.letter() for message in messages))
        return self

    def admit(self, call, password):
        """Listens outside from now on, and this partner may call."""
        self.run("admit", call, "-", given=password.encode())
        self.address = "0.0.0.0"

    def start(self, *words):
        command = [self.program, self.base, *words, "--timeout", str(PATIENCE)]
        return subprocess.Popen(command, stdout=subprocess.DEVNULL, stderr=subprocess.PIPE)

    def start_call(self, port, *words):
        """Starts a session as caller; gives a function that waits for its end."""
        process = self.start("call", str(port), *words)
        return lambda: wait_for(process)

    def call(self, port, *words):
        """A session as caller."""
        return self.start_call(port, *words)()

    def listen(self, *words):
        """Starts to wait for one call; gives the port."""
        self.listening = self.start("listen", self.address + ":0", "--once", *words)
        said = self.listening.stderr.readline().decode("latin-1")
        found = re.search(r"listening on [0-9.]+:(\d+)", said)
        if not found:
            self.ended()
            raise RuntimeError("the host doesn't listen: " + said)
        return int(found.group(1))

    def ended(self):
        """Waits for the end of the session that listen began."""
        process, self.listening = self.listening, None
        return wait_for(process)

    def stop(self):
        """Ends a listener that nobody has called."""
        if self.listening:
            self.listening.kill()
            self.listening.wait()

    def rows(self, what):
        base = sqlite3.connect("file:" + self.base + "?mode=ro", uri=True)
        try:
            return base.execute(what).fetchall()
        finally:
            base.close()

    def states(self):
        """{BID: state} of the outbox."""
        return dict(self.rows("SELECT bid, CASE outbox.state WHEN 3 THEN 3 ELSE passage.state END FROM outbox JOIN passage USING (number) ORDER BY number"))

    def inbox(self):
        """[(BID, heading, body)] in order."""
        rows = self.rows("SELECT bid, title, name, body FROM inbox ORDER BY number")
        return [(bid, title + name, body) for bid, title, name, body in rows]
