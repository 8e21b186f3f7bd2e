"""Message files: 003, section 9."""
import random
import unittest

from node import *

HEAD = b"From: F0ABC\r\nTo: F0XYZ@N0DE.TST\r\nSubject: Hello\r\n"


def letter(head=HEAD + b"X-BID: 1_A\r\n", body=b"text", end=b"\r\n/EX\r\n"):
    return head + b"\r\n" + body + end


class Exact(Folder):
    BODIES = [b"", b"\n", b"\nfirst byte LF", b"\r", b"\r\n", b"ends with CR\r", b"ends with LF\n", b"a\r\n/EX\r\nb", b"/EX", b"/EX\r\n", b"\r/EX\r",
              b"\n/EX", b"a\r/EX \r", b"/EX\n/EX\n", bytes(range(256)), bytes(range(255, -1, -1)) * 16, b"\xff" * 65535]

    def test_bodies(self):
        "every body goes in and out byte for byte"
        messages = [Message(b"%d_BODY" % i, body) for i, body in enumerate(self.BODIES)]
        self.there_and_back(messages)

    def test_fields(self):
        "every spelling of title, name and BID goes in and out byte for byte"
        high = bytes(range(0xB0, 0x100))
        messages = [Message(b"spaces", title=b"  two before and after  "), Message(b"high", title=high), Message(b"low", title=b" " + bytes(range(0x21, 0x70))),
                    Message(b"colon", title=b"To: nobody"), Message(b"../%41/.", title=b"path"), Message(bytes(range(0x21, 0x2D)), title=b"!"),
                    Message(bytes(range(0xF4, 0x100)), title=b"y"), Message(b"file", form="file", name=b" name ", title=b""),
                    Message(b"both", form="file", name=b"NAME", title=b"and title"), Message(b"plain", b"line\r", form="plain", title=high, kind=b"B"),
                    Message(b"sizes", b"abc", size=999999), Message(b"calls", frm=b"!#$%&'", at=b"a.b.c.d~", to=b"{|}~^_")]
        self.there_and_back(messages)

    def test_random(self):
        "random bodies made of line ends and end marks go in and out"
        dice = random.Random(7)
        words = [b"\r", b"\n", b"\r\n", b"/EX", b"/E", b"X", b" ", b"\x1a", b"\xff", b"a"]
        messages = [Message(b"%d_R" % i, b"".join(dice.choice(words) for _ in range(dice.randrange(12)))) for i in range(300)]
        self.there_and_back(messages)

    def there_and_back(self, messages):
        first, second = self.node("first").add(*messages), self.node("second")
        rows = [message.row() for message in messages]
        self.assertEqual(first.outbox(), rows)
        first.right("export", self.folder / "out", "--outbox")
        files = list((self.folder / "out").iterdir())
        self.assertEqual(len(files), len(messages))
        second.right("import", *sorted(files))
        self.assertEqual(sorted(second.outbox()), sorted(rows))
        sizes = "SELECT bid, size FROM outbox ORDER BY bid"
        self.assertEqual((first.ask(sizes), first.states()), (second.ask(sizes), second.states()))

    def test_form(self):
        "the exported file is the form that the samples have, with X-Length only where it is needed"
        node = self.node().add(Message(b"1_A", b"text\r"), Message(b"2_A", b"\r/EX\r"))
        node.right("export", self.folder / "out", "--outbox")
        self.assertEqual((self.folder / "out" / "1_A.msg").read_bytes(),
                         b"From: F0ABC\r\nTo: F0XYZ@N0DE.TST\r\nSubject: Hello\r\nMessage-ID: 1_A\r\nX-msgtype: P\r\nX-BID: 1_A\r\n"
                         b"X-Form: message\r\n\r\ntext\r\r\n/EX\r\n")
        self.assertIn(b"X-Length: 5\r\n\r\n\r/EX\r\r\n/EX\r\n", (self.folder / "out" / "2_A.msg").read_bytes())

    def test_samples(self):
        "the samples are what their script makes of the texts"
        script = ROOT / "host" / "samples" / "make.py"
        if not (ROOT / "tests" / "peers" / "lzhuf.py").exists():
            self.skipTest("there is no tests/peers/lzhuf.py")
        subprocess.run([sys.executable, script, self.folder], check=True)
        for made in self.folder.rglob("*.msg"):
            self.assertEqual(made.read_bytes(), (script.parent / made.relative_to(self.folder)).read_bytes(), made)
        self.assertEqual(len(list(self.folder.rglob("*.msg"))), len(list(script.parent.rglob("*.msg"))))

class Keywords(Folder):
    def imported(self, *files, options=(), init=()):
        node = self.node(options=init)
        node.right("import", "-", *options, input=b"".join(files))
        return node

    def one(self, *files, **more):
        rows = self.imported(*files, **more).outbox()
        self.assertEqual(len(rows), 1)
        return rows[0]

    def test_either_case(self):
        "keywords are taken in either case, with or without a space"
        row = self.one(b"FROM:F0ABC\r\nto:F0XYZ@N0DE.TST\r\nsubject:Hello\r\nmessage-id:1_A\r\nX-MSGTYPE:b\r\n\r\ntext\r\n/EX\r\n")
        self.assertEqual(row, Message(b"1_A", b"text", form="plain", kind=b"B").row())

    def test_line_ends(self):
        "CR LF, CR and LF end a line; the last one may be missing"
        for number, end in enumerate([b"\r\n", b"\r", b"\n"]):
            with self.subTest(end):
                head = HEAD.replace(b"\r\n", end) + b"X-BID: %d_A" % number + end
                node = self.node(str(number))
                node.right("import", "-", "--as-is", input=head + end + b"a" + end + b"b" + end + b"/EX")
                self.assertEqual(node.outbox()[0][-1], b"a" + end + b"b")

    def test_several(self):
        "a file may hold several messages, with empty lines between"
        node = self.imported(letter(), b"\r\n\r\n", letter(HEAD + b"X-BID: 2_A\r\n", b"next"), b"\n")
        self.assertEqual([(row[5], row[-1]) for row in node.outbox()], [(b"1_A", b"text"), (b"2_A", b"next")])

    def test_bid(self):
        "X-BID decides, else Message-ID is the BID"
        self.assertEqual(self.one(letter(HEAD + b"Message-ID: 1_A\r\nX-BID: 2_A\r\n"))[5], b"2_A")

    def test_jnos(self):
        "X-BBS-Msg-Type gives the type; unknown keywords and their further lines are passed over"
        head = HEAD + b"X-BID: 1_A\r\nReceived: here\r\n  and there\r\nX-BBS-Msg-Type: B\r\n"
        self.assertEqual(self.one(letter(head))[1], "B")

    def test_addresses(self):
        "white space around @ and the sender's mailbox are passed over"
        row = self.one(letter(b"From: F0ABC@F0ABC.FRA\r\nTo: F0XYZ @ N0DE.TST \r\nSubject: Hello\r\nX-BID: 1_A\r\n"))
        self.assertEqual(row, Message(b"1_A", b"text", form="plain").row())

    def test_own_bid(self):
        "a message without BID gets number and callsign; so do the copies for cc"
        node = self.imported(letter(HEAD + b"cc: A@B, C@D.E\r\n"), letter(), init=("--call", "N0DE"))
        self.assertEqual([(row[5], row[4], row[3]) for row in node.outbox()],
                         [(b"1_N0DE", b"F0XYZ", b"N0DE.TST"), (b"2_N0DE", b"A", b"B"), (b"3_N0DE", b"C", b"D.E"), (b"1_A", b"F0XYZ", b"N0DE.TST")])

    def test_hold(self):
        "a held message doesn't go until it is released"
        node = self.imported(letter(HEAD + b"X-BID: 1_A\r\nX-BBS-Hold: ask first\r\n"))
        self.assertEqual(node.states(), {b"1_A": HELD})
        self.session_of_nothing(node)
        self.assertEqual(node.states(), {b"1_A": HELD})
        node.right("export", self.folder / "out", "--outbox")
        self.assertIn(b"X-BBS-Hold: ", (self.folder / "out" / "1_A.msg").read_bytes())
        self.assertEqual(node.run("release", "2_A")[0], BAD_USAGE)
        node.right("release", "1_A")
        self.assertEqual(node.states(), {b"1_A": WAITING})

    def session_of_nothing(self, node):
        partner = node.stdio()
        partner.hears(GREETING)
        partner.says(b"[TST-1-F$]\rFF\r")
        partner.hears(b"FQ\r")
        self.assertEqual(partner.ends()[0], DONE)

    def test_forwarded_to(self):
        "a message that the partner has is forwarded already, and says so when it is exported"
        files = [letter(HEAD + b"X-BID: %d_A\r\nX-Forwarded-To: %s\r\n" % (i, to)) for i, to in enumerate([b"F0FBB", b"A, f0sou", b"F0SO"])]
        node = self.imported(*files, init=("--partner", "F0SOU"))
        self.assertEqual(node.states(), {b"0_A": WAITING, b"1_A": FORWARDED, b"2_A": WAITING})
        node.right("export", self.folder / "out", "--outbox")
        said = [b"X-Forwarded-To: F0SOU\r\n" in (self.folder / "out" / name).read_bytes() for name in ("0_A.msg", "1_A.msg", "2_A.msg")]
        self.assertEqual(said, [False, True, False])

    def test_text(self):
        "--text makes a person's line ends CR, in the body only"
        row = self.one(letter(body=b"\na\nb\r\nc\rd\n").replace(b"\r\n/EX", b"\n/EX"), options=("--text",))
        self.assertEqual(row[-1], b"\ra\rb\rc\rd\r")


class Bad(Folder):
    def test_bad(self):
        "each bad file is refused, with its place and what is wrong, and nothing of it is imported"
        bid = b"X-BID: 2_A\r\n"
        wrong = {
            "no line /EX": letter(HEAD + bid, b"text", b""), "no empty line": HEAD + bid, "no colon": letter(b"Hello\r\n"),
            "begins with a space": letter(HEAD + b" folded\r\n"), "To is not": letter(b"From: A\r\nTo: B\r\nSubject: C\r\n" + bid),
            "X-Form": letter(HEAD + bid + b"X-Form: zip\r\n"), "X-Size is no number": letter(HEAD + bid + b"X-Size: -1\r\n"),
            "shorter than X-Length": letter(HEAD + bid + b"X-Length: 999\r\n"), "no /EX where": letter(HEAD + bid + b"X-Length: 3\r\n"),
            "X-Length is no number": letter(HEAD + bid + b"X-Length: x\r\n"), "cc is not": letter(HEAD + bid + b"cc: nobody\r\n"),
            "no callsign": letter(HEAD), "one letter": letter(HEAD + bid + b"X-msgtype: PB\r\n"), "type is P or B": letter(HEAD + bid + b"X-msgtype: T\r\n"),
        }
        for words, file in wrong.items():
            with self.subTest(words):
                node = self.node(words.replace("/", "-"))
                code, _, err = node.run("import", "-", input=letter() + file)
                self.says_why((code, err), BAD_FILE, "-: message 2: ", words)
                self.assertEqual((node.outbox(), node.known()), ([], set()))

    def limit(self, word, good, bad):
        for message in good:
            self.assertEqual(self.node("limits").run("import", "-", input=message.file())[0], DONE, message.row())
        for message in bad:
            code, _, err = self.node("limits").run("import", "-", input=message.file())
            self.says_why((code, err), BAD_FILE, word)

    def test_limits(self):
        "each limit of 01's fields, at it and beyond, by the library's own open"
        with_bid = iter(range(100, 999))

        def made(**fields):
            return Message(fields.pop("bid", b"%d_L" % next(with_bid)), **fields)
        self.limit("from has", [made(frm=b"A" * 6)], [made(frm=b"A" * 7), made(frm=b""), made(frm=b"A.B"), made(frm=b"\xe9")])
        self.limit("at has", [made(at=b"A" * 6), made(at=b"AAAAAA" + b".BBBBBB" * 4 + b".BBB")],
                   [made(at=b"A" * 7), made(at=b"A" + b".BBBBBB" * 4 + b".BBBB"), made(at=b"A..B"), made(at=b"A.")])
        self.limit("to has", [made(to=b"A" * 6)], [made(to=b"A" * 7), made(to=b"A.B")])
        self.limit("BID has", [made(bid=b"B" * 12), made(bid=b"\xff")], [made(bid=b"B" * 13), made(bid=b"A B"), made(bid=b"B" * 300)])
        self.limit("title has", [made(title=b"T" * 80)], [made(title=b"T" * 81), made(title=b""), made(title=b"a\tb"), made(title=b"T" * 300)])
        self.limit("name has", [made(form="file", name=b"N" * 80)], [made(form="file", name=b"N" * 81), made(form="file")])
        self.limit("size is", [made(size=999999)], [made(size=1000000)])
        self.limit("body has", [made(body=b"b" * 65535), made(body=b"\x1a")], [made(body=b"b" * 65536), made(body=b"\x1a", form="plain")])

    def test_no_file(self):
        "a file that isn't there, and a folder that can't be made"
        node = self.node()
        self.says_why(node.run("import", self.folder / "none"), BAD_FILE, "none: No such file")
        self.says_why(node.run("export", self.folder / "no" / "where"), BAD_FILE, "where: No such file")


if __name__ == "__main__":
    unittest.main()
