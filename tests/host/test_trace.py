"""Routing headers: the way of a message is shown, and our own header goes in front of plain messages on the air, never in the base."""
from node import *
from test_files import HEAD, letter
from test_mail import Kept, PLAIN_SID

# 003's own lines.
FOUR = (b"R:930108/1729 @:N6QMY.#NOCAL.CA.USA.NA Fremont #:1114 Z:94536\r"
        b"R:930108/1259 1530@KA6FUB.#NOCAL.CA.USA.NA\r"
        b'R:930107/1638z @:WD6CMU.#NOCAL.CA.USA.NA "OSKbox" #:10576 Z:94805\r'
        b"R:930107/1045 50724@WX3K.#NOCAL.CA.USA.NA\r")
CAME = 1794836700  # 2026-11-16 13:45 GMT
OURS = b"R:261116/1345z 1@N0DE.TST.EU\r"
LONGEST = 65535


def plain(bid, body, **more):
    return Message(bid, body, form="plain", **more)


def rows(out):
    """The table's rows, without the spaces between its columns."""
    return [line.split() for line in out.decode().splitlines() if re.match(r" +\d+  ", line)]


class Traced(Kept):
    ROWS = [["1", "1993-01-07", "10:45", "unknown", "WX3K.#NOCAL.CA.USA.NA", "50724", "origin"],
            ["2", "1993-01-07", "16:38", "GMT", "WD6CMU.#NOCAL.CA.USA.NA", "10576"],
            ["3", "1993-01-08", "12:59", "unknown", "KA6FUB.#NOCAL.CA.USA.NA", "1530"],
            ["4", "1993-01-08", "17:29", "unknown", "N6QMY.#NOCAL.CA.USA.NA", "1114"]]

    def test_boxes(self):
        "the way of a message of the outbox, of one that came, and of one in a file: hop by hop from the origin, unknown zones said so"
        node = self.node().add(plain(b"1_US", FOUR + b"\rtext\r"))
        self.sends(node, plain(b"1_THEM", FOUR + b"\rtext\r", title=b"Theirs"))
        file = self.folder / "one.msg"
        file.write_bytes(plain(b"1_FILE", FOUR + b"\rtext\r").file())
        for word, title in (("1_us", b"outbox 1, BID 1_US, P from F0ABC to F0XYZ@N0DE.TST: Hello\n"), ("1_Them", b"inbox 1, BID 1_THEM, P from F0ABC to F0XYZ@N0DE.TST: Theirs\n"),
                            (file, b"%s, message 1, BID 1_FILE, P from F0ABC to F0XYZ@N0DE.TST: Hello\n" % bytes(file))):
            out = node.right("trace", word)
            self.assertEqual(rows(out), self.ROWS)
            self.assertTrue(out.startswith(title + b"   began at WX3K.#NOCAL.CA.USA.NA, 4 hops\n  hop  time "), out)

    def test_none(self):
        "without a header there is no origin; the headers end at the first line that is none; what is packed isn't read"
        node = self.node().add(plain(b"1_A", b"text\r" + FOUR), plain(b"2_A", b""), Message(b"3_A", FOUR), plain(b"4_A", b"R:930107/1045 7@WX3K\rR:931307/1045 8@WX4K\r"))
        for bid in ("1_A", "2_A"):
            self.assertEqual((node.right("trace", bid).splitlines()[1:], rows(node.right("trace", bid))), ([b"   no routing header, so no origin"], []))
        self.assertIn(b"\n   packed: its routing headers lie in what is packed\n", node.right("trace", "3_A"))
        self.assertIn(b"\n   began at WX3K, 1 hop\n", node.right("trace", "4_A"))

    def test_copies(self):
        "copies of a BID that came by different ways stand side by side from their origin, and what differs is marked"
        node = self.node()
        origin, middle = b"R:261115/0800Z 7@F0SRC.TST.EU\r", b"R:261115/0900z 12@F0MID\r"
        self.sends(node, plain(b"7_F0SRC", b"R:261115/1200 101@F0FBB.TST.EU\r" + middle + origin + b"text\r"))
        self.sends(node, plain(b"X", b"another"))
        self.import_others(node)
        other = b"R:261115/0800z @:F0SRC.TST.EU #:7 [Town]\r"
        self.sends(node, plain(b"7_f0src", middle + other + b"text\r"))
        out = node.right("trace", "7_F0SRC")
        lines = out.decode().splitlines()
        self.assertRegex(lines[0], r"^1: inbox 1, BID 7_F0SRC, ")
        self.assertRegex(lines[2], r"^2: inbox 3, copy 1, BID 7_f0src, ")
        self.assertEqual([lines[1], lines[3]], ["   began at F0SRC.TST.EU, 3 hops", "   began at F0SRC.TST.EU, 2 hops"])
        first, second = "2026-11-15 08:00 GMT F0SRC.TST.EU 7 ".split(), "2026-11-15 09:00 GMT F0MID 12".split()
        self.assertEqual(rows(out), [["1", *first, *first, "origin"], ["2", *second, *second], ["3", *"2026-11-15 12:00 unknown F0FBB.TST.EU 101 differs".split()]])
        self.assertEqual(len({line.index(word) for line, word in zip(lines[4:7], ("number", "     7", "    12"))}), 1, out)

    def test_both(self):
        "all that several words name stands side by side; the letters of one file each by itself"
        node = self.node().add(plain(b"1_A", b"R:261115/0800Z 7@ONE\r"))
        file = self.folder / "two.msg"
        file.write_bytes(plain(b"1_A", b"R:261115/0800Z 7@TWO\r").file() + plain(b"1_B", b"R:261115/0800Z 7@THREE\r").file())
        for words, mailboxes in ((("1_A", file), "ONE TWO THREE"), ((file, "1_A"), "TWO THREE ONE")):
            row, = rows(node.right("trace", *words))
            self.assertEqual((row[4:16:5], row[16:]), (mailboxes.split(), ["origin", "differs"]))
        self.assertEqual([row[4:] for row in rows(node.right("trace", file))], [["TWO", "7", "origin"], ["THREE", "7", "origin"]])

    def test_not_there(self):
        "what can't be traced gets a sentence: no such BID or file, a bad file, lines that end with LF"
        node, file = self.node(), self.folder / "lf.msg"
        self.says_why(node.run("trace", "1_A"), BAD_USAGE, "1_A: no message of the base has this BID, and no file this name")
        self.says_why(node.run("trace"), BAD_USAGE, "trace: wrong number of arguments")
        self.says_why(node.run("trace", "-", input=b"no letter"), BAD_FILE, "-: message 1: ")
        self.says_why(node.run("trace", "-", input=b"\xef\xbb\xbf" + letter()), BAD_FILE, "byte order mark")
        self.says_why(node.run("trace", self.folder), BAD_FILE, "directory")
        file.write_bytes((HEAD + b"\n" + FOUR + b"text\r/EX\r").replace(b"\r\n", b"\n").replace(b"\r", b"\n"))
        self.says_why(node.run("trace", file), BAD_FILE, "lines end with LF", "--text")
        self.assertEqual(rows(node.right("trace", file, "--text")), self.ROWS)
        self.assertEqual(node.right("trace", "-"), b"no messages\n")

    def test_beside(self):
        "beside a session"
        node = self.node().add(plain(b"1_US", FOUR))
        partner = node.stdio()
        partner.hears(GREETING)
        self.assertEqual(rows(node.right("trace", "1_US")), self.ROWS)
        partner.hang_up()
        partner.rest()

    def test_output(self):
        "output that can't be written is an error"
        with open("/dev/full", "wb") as full:
            process = self.node().add(plain(b"1_US", FOUR)).start("trace", "1_US", stdout=full)
            self.says_why((process.wait(PATIENCE), process.stderr.read().decode()), FAILED, "standard output")

    def test_many(self):
        "a body full of headers, and damaged ones, end as they should"
        line = b"R:700101/0000 1@A\r"
        full = (line * (LONGEST // len(line) + 1))[:LONGEST]
        node = self.node().add(plain(b"FULL", full), plain(b"LF", b"\n" + line.replace(b"\r", b"\r\n") * 3), plain(b"CUT", FOUR[:-4]))
        self.assertEqual(len(rows(node.right("trace", "FULL"))), LONGEST // len(line))
        self.assertEqual([len(rows(node.right("trace", bid))) for bid in ("LF", "CUT")], [3, 4])


class Added(Folder):
    """A partner takes plain messages of a node that adds its header."""

    def takes(self, node, proposals, transfers, *options):
        partner = node.stdio(*options)
        partner.hears(GREETING)
        partner.says(PLAIN_SID + b"FF\r")
        partner.hears(proposals + b"F>\r")
        partner.says(b"FS " + b"+" * proposals.count(b"\r") + b"\r")
        partner.hears(transfers)
        partner.says(b"FF\r")
        partner.hears(b"FQ\r")
        return partner.ends()

    def waiting(self, *messages, name="node"):
        node = self.node(name).add(*messages)
        node.ask("UPDATE outbox SET came = ?", CAME)
        return node

    def test_off(self):
        "unless it is asked for, a message goes as it is"
        message = plain(b"1_A", FOUR + b"\rtext\r")
        self.says_why(self.takes(self.waiting(message), message.proposal(), message.transfer()), DONE, "1 forwarded")

    def test_added(self):
        "our header goes in front, announced with its bytes, and every byte below it is the sender's; the base has what it had"
        node = self.waiting(plain(b"1_A", FOUR + b"\rtext\r"), plain(b"2_A", b"\nbegins with LF\r"), plain(b"3_A", b"", size=100))
        before = node.outbox()
        sent = [plain(b"1_A", OURS + FOUR + b"\rtext\r"), plain(b"2_A", OURS.replace(b" 1@", b" 2@") + b"\nbegins with LF\r"),
                plain(b"3_A", OURS.replace(b" 1@", b" 3@"), size=100 + len(OURS))]
        self.says_why(self.takes(node, b"".join(m.proposal() for m in sent), b"".join(m.transfer() for m in sent), "--header", "N0DE.TST.EU"), DONE, "3 forwarded")
        self.assertEqual((node.outbox(), node.ask("SELECT size FROM outbox")), (before, [(len(row[8]) or 100,) for row in before]))

    def test_again(self):
        "after a dropped link the same bytes go again"
        node = self.waiting(plain(b"1_A", b"text\r"))
        sent = plain(b"1_A", OURS + b"text\r")
        partner = node.stdio("--header", "N0DE.TST.EU")
        partner.hears(GREETING)
        partner.says(PLAIN_SID + b"FF\r")
        partner.hears(sent.proposal() + b"F>\r")
        partner.says(b"FS +\r")
        partner.hears(sent.transfer()[:9])
        partner.hang_up()
        partner.rest()
        self.says_why(self.takes(node, sent.proposal(), sent.transfer(), "--header", "N0DE.TST.EU"), DONE, "1 forwarded")

    def test_read_back(self):
        "the trace of what was sent has our hop behind those that were there"
        node = self.waiting(plain(b"1_A", FOUR + b"\rtext\r"))
        sent = plain(b"1_A", OURS + FOUR + b"\rtext\r")
        self.takes(node, sent.proposal(), sent.transfer(), "--header", "N0DE.TST.EU")
        theirs = self.node("theirs").add(sent)
        self.assertEqual(rows(theirs.right("trace", "1_A")), rows(node.right("trace", "1_A")) + [["5", "2026-11-16", "13:45", "GMT", "N0DE.TST.EU", "1"]])

    def test_longest(self):
        "a body that would pass 65,535 bytes goes as it is, and that is said"
        fits, over = plain(b"1_A", b"x" * (LONGEST - len(OURS))), plain(b"1_A", b"y" * (LONGEST - len(OURS) + 1))
        sent = plain(b"1_A", OURS + fits.body)
        answer = self.takes(self.waiting(fits), sent.proposal(), sent.transfer(), "--header", "N0DE.TST.EU")
        self.says_why(answer, DONE, "1 forwarded")
        self.assertNotIn("routing header", answer[1])
        self.says_why(self.takes(self.waiting(over, name="over"), over.proposal(), over.transfer(), "--header", "N0DE.TST.EU"), DONE,
                      "message 1 of the base, BID 1_A, goes as it is, without our routing header: it would pass 65,535 bytes", "1 forwarded")

    def test_no_place(self):
        "one whose time nobody noted, or has no place in a header, or whose announced size has none, goes as it is, and that is said"
        message = plain(b"1_A", b"text\r")
        for number, (came, why) in enumerate(((None, "nobody noted when it came"), (-1, "has no place in a header"), (3155760000, "has no place in a header"), (1 << 60, ""))):
            node = self.node("node%d" % number).add(message)
            node.ask("UPDATE outbox SET came = ?", came)
            self.says_why(self.takes(node, message.proposal(), message.transfer(), "--header", "N0DE.TST.EU"), DONE, "goes as it is, without our routing header: ", why)
        sized = plain(b"1_A", b"text\r", size=999999)
        self.says_why(self.takes(self.waiting(sized, name="sized"), sized.proposal(), sized.transfer(), "--header", "N0DE.TST.EU"), DONE, "an announced size is 0 to 999,999")

    def test_packed(self):
        "a packed body is never touched"
        message = Message(b"1_A", FOUR)
        partner = self.waiting(message).stdio("--header", "N0DE.TST.EU")
        partner.hears(GREETING)
        partner.says(b"[TST-1-BF$]\rFF\r")
        partner.hears(message.proposal() + b"F>\r")
        partner.says(b"FS +\r")
        partner.hears(message.transfer())
        partner.says(b"FF\r")
        partner.hears(b"FQ\r")
        self.assertNotIn("routing header", partner.ends()[1])

    def test_names(self):
        "the mailbox is one by 01's rule, and our own where the base has our callsign"
        node = self.node(options=("--call", "N0DE"))
        for mailbox in ("", "N0DE.", "N0DE@X", "TOOLONG", "N0 DE", "N0DE" + ".ABCDEF" * 5):
            self.says_why(node.run("stdio", "--header", mailbox), BAD_USAGE, "--header: %s is no mailbox" % mailbox)
        for command in (("stdio",), ("call", "1"), ("listen", "0")):
            self.says_why(node.run(*command, "--header", "F0FBB.TST"), BAD_BASE, "--header: F0FBB.TST is not a mailbox of N0DE, whose base this is")
        self.says_why(node.run("stdio", "--header", "n0de.TST"), LINK_DROPPED)
