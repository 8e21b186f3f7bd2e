"""Messages of the tests: what our node has on its shelf, as bytes."""
import dataclasses

import lzhuf

FORMS = ["plain", "message", "file"]


def letter(message, body, size):
    """A message file for the host's import (host/letter.h)."""
    heading = b"X-File-Name: " if message.form == 2 else b"Subject: "
    lines = [b"From: " + message.sender, b"To: " + message.to + b"@" + message.at, b"X-BID: " + message.bid, heading + message.title,
             b"X-msgtype: " + message.type, b"X-Form: " + FORMS[message.form].encode(), b"X-Level: %d" % message.stored, b"X-Size: %d" % size,
             b"X-Length: %d" % len(body), b"", body, b"/EX", b""]
    return b"\r\n".join(lines)


@dataclasses.dataclass
class Message:
    bid: bytes
    title: bytes = b"A title"
    text: bytes = b"A text\r"
    form: int = 0  # 0 plain text, 1 packed message, 2 packed file
    type: bytes = b"P"
    sender: bytes = b"F0AAA"
    at: bytes = b"F0SRC"
    to: bytes = b"F0BBB"
    level: int = 1  # in force on the link; and in whose form it stands on the shelf
    stored: int = 1

    def body(self):
        """As it goes over the link."""
        return lzhuf.pack(self.text, self.level) if self.form else self.text

    def proposal(self):
        """Our line, with CR."""
        letters = b"FA" if self.form == 1 else b"FB"
        size = b"%d" % len(self.text)
        return b" ".join([letters, self.type, self.sender, self.at, self.to, self.bid, size]) + b"\r"

    def transfer(self):
        """As 01 has it, written here a second time."""
        body = self.body()
        if not self.form:
            return self.title + b"\r" + body + b"\x1a\r"
        out = bytes([1, len(self.title) + 3]) + self.title + b"\0" + b"0" + b"\0"
        for at in range(0, len(body), 256):
            data = body[at:at + 256]
            out += bytes([2, len(data) % 256]) + data
        return out + bytes([4, -sum(body) % 256])

    def letter(self):
        body = lzhuf.pack(self.text, self.stored) if self.form else self.text
        return letter(self, body, len(self.text))
