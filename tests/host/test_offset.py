"""--blank-offset: blanks in the offset of a framed header count as zeros, and no other byte is touched."""
from node import *
from test_sessions import FRAMED_SID, PLAIN_SID, Sessions

OPTION = "--blank-offset"
LINFBB = b"     0"  # as LinFBB writes it


def framed(message, offset=LINFBB, block=250):
    """A framed transfer with this offset, in blocks of so many bytes."""
    heading, body = message.name if message.form == "file" else message.title, message.body
    blocks = [body[at:at + block] for at in range(0, len(body), block)]
    out = bytes([1, len(heading) + len(offset) + 2]) + heading + b"\0" + offset + b"\0"
    return out + b"".join(bytes([2, len(data)]) + data for data in blocks) + bytes([4, -sum(body) % 256])


HEADER = b"\x01\x0aAB\0" + LINFBB + b"\0"  # what would be a header, were it no body

# Titles, names, BIDs and bodies of blanks and zeros; 0x20 as L, as n and as checksum.
AWKWARD = [
    Message(b"000000000000", b"\x20" * 500 + b"\x30" * 500, title=b" " * 80),
    Message(b"0", b"\x30\x20" * 700, title=b"0" * 80),
    Message(b"00", b"\x00\x20\x20\x20\x20\x20\x30\x00" * 200, title=b"0     0"),
    Message(b"0_0", HEADER * 60, title=b"     0"),
    Message(b"0_1", b"\x00" * 40 + b" " * 40, form="file", name=b" 0 0 ", title=b""),
    Message(b"0_2", b" " * 32, title=b"t" * (0x20 - len(LINFBB) - 2)),
    Message(b"0_3", b"\xe0", title=b"t"),
    Message(b"0_4", b"", title=b" "),
]


class BlankOffset(Sessions):
    def exchange(self, messages, transfers, *options, sid=FRAMED_SID, portion=None, role="called"):
        """The node after it was sent these messages, five at most, by these transfers."""
        node = self.node("node%d" % len(list(self.folder.glob("*.base"))), program=PLAIN)
        partner = node.stdio(*options, *(["--caller"] if role == "caller" else []))
        partner.says(b"" if role == "called" else sid + b">\r")
        partner.hears(GREETING if role == "called" else OUR_SID + b"FF\r")
        partner.says((sid if role == "called" else b"") + b"".join(m.proposal() for m in messages) + b"F>\r")
        partner.hears(b"FS " + b"+" * len(messages) + b"\r")
        said = b"".join(transfers)
        for at in range(0, len(said), portion or len(said)):
            partner.says(said[at:at + (portion or len(said))])
        partner.hears(b"FF\r")
        partner.says(b"FQ\r")
        self.says_why(partner.ends(), DONE)
        return node

    def test_off(self):
        "without it the first blank gets 8, as 01 has it, and nothing is kept"
        message = Message(b"1_T", b"text")
        for blanks in range(1, 7):
            partner = self.called(node := self.node("node%d" % blanks), FRAMED_SID)
            partner.says(message.proposal() + b"F>\r")
            partner.hears(b"FS +\r")
            partner.says(framed(message, b" " * blanks + b"0" * (6 - blanks))[:len(message.title) + 4])
            partner.hears(PROTOCOL_ERROR)
            partner.hears_end()
            self.says_why(partner.ends(), REFUSED, "refusal 8: ")
            self.assertEqual(node.inbox(), [])

    def test_taken(self):
        "with it offsets of one to six blanks and zeros are taken, in both roles, in whatever portions"
        messages = [Message(b"%d_T" % n, b"text %d" % n) for n in range(5)]
        for role in ("called", "caller"):
            for offsets in ([b"0", b" 0", b"  0", b"   0", LINFBB], [b" ", b"      ", b"0 0 0 ", b"000000", b"00    "]):
                for portion in (1, 7, None):
                    transfers = [framed(m, offset) for m, offset in zip(messages, offsets)]
                    node = self.exchange(messages, transfers, OPTION, portion=portion, role=role)
                    self.assertEqual(node.inbox(), [m.row() for m in messages])

    def test_unchanged(self):
        "titles, names, BIDs and bodies full of blanks and bytes 0x30 come unchanged, as they do without it"
        for group in (AWKWARD[:4], AWKWARD[4:]):
            rows = [m.row() for m in group]
            for portion in (1, 13, None):
                for block in (250, 255, 1, 32):
                    node = self.exchange(group, [framed(m, block=block) for m in group], OPTION, portion=portion)
                    self.assertEqual(node.inbox(), rows)
            self.assertEqual(self.exchange(group, [m.transfer() for m in group]).inbox(), rows)

    def test_plain(self):
        "nor does it touch a plain title or body, or a line: doubled spaces count in a block's checksum"
        messages = [Message(b"00%d" % n, m.body.replace(b"\x1a", b""), form="plain", title=m.title) for n, m in enumerate(AWKWARD[:4])]
        for portion in (1, 13, None):
            node = self.exchange(messages, [m.transfer() for m in messages], OPTION, sid=PLAIN_SID, portion=portion)
            self.assertEqual(node.inbox(), [m.row() for m in messages])
        line = b"FB  P A B   C 0_0 00  \r"
        partner = self.called(self.node(), PLAIN_SID, OPTION)
        partner.says(line + b"F> %02X\r" % (-sum(line) % 256))
        partner.hears(b"FS +\r")
        partner.says(b" 0 \r 0 \x1a  \r\n")
        self.quits_after_ff(partner)

    def quits_after_ff(self, partner):
        partner.hears(b"FF\r")
        partner.says(b"FQ\r")
        self.says_why(partner.ends(), DONE)

    def test_judged(self):
        "the library still judges each byte: another digit, a seventh byte, a blank where 00, 01, 02 or a digit's end is due"
        message = Message(b"1_T", b"text")
        whole = framed(message)
        body = len(message.title) + 2 + len(LINFBB) + 2
        wrong = [framed(message, offset) for offset in (b"     1", b" 1536 ", b"0    9", b"", b"       ", b"-    0", b"\t    0")]
        wrong += [whole[:at] + b" " + whole[at + 1:] for at in (0, len(message.title) + 2, body - 1, body)]
        for n, said in enumerate(wrong):
            partner = self.called(node := self.node("node%d" % n), FRAMED_SID, OPTION)
            partner.says(message.proposal() + b"F>\r")
            partner.hears(b"FS +\r")
            partner.says(said)
            partner.hears(PROTOCOL_ERROR)
            partner.hears_end()
            self.says_why(partner.ends(), REFUSED, "refusal 8: ")
            self.assertEqual(node.inbox(), [])

    def test_sum(self):
        "a blank where the checksum is due stays a blank: right where 20 is due, wrong where 30 is"
        message = Message(b"1_T", b"\xd0")
        partner = self.called(node := self.node(), FRAMED_SID, OPTION)
        partner.says(message.proposal() + b"F>\r")
        partner.hears(b"FS +\r")
        partner.says(framed(message)[:-1] + b" ")
        partner.hears(CHECKSUM_ERROR)
        partner.hears_end()
        self.says_why(partner.ends(), REFUSED, "refusal 9: ")
        self.assertEqual(node.inbox(), [])
