"""Sessions on standard input and output, with a partner who says what the test says."""
import re

from node import *

PLAIN_SID, FRAMED_SID = b"[TST-1-F$]\r", b"[TST-1-BF$]\r"


def read_transcript(text):
    """The bytes of both directions, from a transcript."""
    both = {"us": b"", "partner": b""}
    for line in text.splitlines():
        found = re.fullmatch(r"(us|partner): +(.*)", line)
        if found:
            shown = re.sub(r"\\(\\|r|n|x..)", lambda m: {"\\": "\\", "r": "\r", "n": "\n"}.get(m[1]) or chr(0xDC00 + int(m[1][1:], 16)), found[2])
            # every byte that was escaped as \xNN stands as a lone half of a pair
            both[found[1]] += b"".join(bytes([ord(c) - 0xDC00]) if 0xDC00 <= ord(c) < 0xDD00 else c.encode() for c in shown)
    return both["us"], both["partner"]


class Sessions(Folder):
    def called(self, node, sid=PLAIN_SID, *options):
        partner = node.stdio(*options)
        partner.hears(GREETING)
        partner.says(sid)
        return partner

    def quits(self, partner):
        """Nobody has more; the node says FQ and ends."""
        partner.says(b"FF\r")
        partner.hears(b"FQ\r")
        partner.hears_end()
        code, err = partner.ends()
        self.says_why((code, err), DONE, "ended by FQ")
        return err


class Exchange(Sessions):
    def test_whole(self):
        "01's whole session, byte for byte"
        node = self.node()
        self.quits(self.called(node))
        self.assertEqual((node.outbox(), node.inbox(), node.known()), ([], [], set()))

    def test_plain(self):
        "plain messages both ways; marks and message in the base; a body that begins with LF"
        ours = [Message(b"1_US", b"\nours\r", form="plain"), Message(b"2_US", form="plain"), Message(b"3_US", form="plain"), Message(b"4_US")]
        theirs = Message(b"1_THEM", b"\n\x80\xfftheirs\r", form="plain", kind=b"B", title="Réunion".encode("latin-1"))
        node = self.node().add(*ours)
        partner = self.called(node)
        partner.says(theirs.proposal() + Message(b"2_US", form="plain").proposal() + b"F>\r")
        partner.hears(b"FS +-\r")
        partner.says(theirs.transfer())
        partner.hears(b"".join(m.proposal() for m in ours[:3]) + b"F>\r")
        partner.says(b"FS +-=\r")
        partner.hears(ours[0].transfer())
        self.quits(partner)
        self.assertEqual(node.states(), {b"1_US": FORWARDED, b"2_US": DECLINED, b"3_US": WAITING, b"4_US": WAITING})
        self.assertEqual(node.inbox(), [theirs.row()])
        self.assertEqual(node.known(), {b"1_US", b"2_US", b"3_US", b"4_US", b"1_THEM"})

    def test_framed(self):
        "framed messages and files both ways, every byte value"
        every = bytes(range(256)) * 3
        ours = [Message(b"1_US", every), Message(b"2_US", b"", form="file", name=b"EMPTY.BIN", title=b"")]
        theirs = [Message(b"1_THEM", every[::-1], form="file", name=b"\xe9.bin", title=b""), Message(b"2_THEM", b"")]
        node = self.node().add(*ours, Message(b"3_US", form="plain"))
        partner = self.called(node, FRAMED_SID)
        partner.says(b"".join(m.proposal() for m in theirs) + b"F>\r")
        partner.hears(b"FS ++\r")
        partner.says(b"".join(m.transfer() for m in theirs))
        partner.hears(b"".join(m.proposal() for m in ours) + b"F>\r")
        partner.says(b"FS ++\r")
        partner.hears(b"".join(m.transfer() for m in ours))
        self.quits(partner)
        self.assertEqual(node.states(), {b"1_US": FORWARDED, b"2_US": FORWARDED, b"3_US": WAITING})
        self.assertEqual(node.inbox(), [m.row() for m in theirs])

    def test_caller(self):
        "as the caller: SID, text and prompt first; the partner's FQ ends it"
        ours = Message(b"1_US", b"ours\r", form="plain")
        node = self.node().add(ours)
        partner = node.stdio("--caller")
        partner.says(b"[FBB-7.0.11-AFHMRX$]\rF0FBB Mailbox.\r(1) F0FBB BBS>\r")
        partner.hears(OUR_SID + ours.proposal() + b"F>\r")
        partner.says(b"FS +\r")
        partner.hears(ours.transfer())
        partner.says(b"FF\r")
        partner.hears(b"FQ\r")
        self.assertEqual(partner.ends()[0], DONE)
        partner = node.stdio("--caller")
        partner.says(PLAIN_SID + b">\r")
        partner.hears(OUR_SID + b"FF\r")
        partner.says(b"FQ\r")
        partner.hears_end()
        self.assertEqual(partner.ends()[0], DONE)
        self.assertEqual(node.states(), {b"1_US": FORWARDED})

    def test_byte_by_byte(self):
        "a partner whose bytes come one at a time"
        theirs = Message(b"1_THEM", b"theirs\r", form="plain")
        node = self.node()
        partner = self.called(node)
        for byte in theirs.proposal() + b"F>\r":
            partner.says(bytes([byte]))
        partner.hears(b"FS +\r")
        for byte in theirs.transfer():
            partner.says(bytes([byte]))
        partner.hears(b"FF\r")
        partner.says(b"FQ\r")
        self.assertEqual(partner.ends()[0], DONE)
        self.assertEqual(node.inbox(), [theirs.row()])

    def test_longest(self):
        "the longest message there is, both ways"
        ours, theirs = Message(b"1_US", b"\x00\xff" * 32767 + b"x"), Message(b"1_THEM", b"\xff\x00" * 32767 + b"y")
        node = self.node().add(ours)
        partner = self.called(node, FRAMED_SID)
        partner.says(theirs.proposal() + b"F>\r")
        partner.hears(b"FS +\r")
        partner.says(theirs.transfer())
        partner.hears(ours.proposal() + b"F>\r")
        partner.says(b"FS +\r")
        partner.hears(ours.transfer())
        self.quits(partner)
        self.assertEqual((node.states(), node.inbox()), ({b"1_US": FORWARDED}, [theirs.row()]))


class Limits(Sessions):
    def proposed(self, node, sid=PLAIN_SID):
        """All BIDs that one session proposes, each of them deferred."""
        partner, bids = self.called(node, sid), []
        partner.says(b"FF\r")
        while True:
            while not partner.early.endswith((b"F>\r", b"FQ\r", b"FF\r")):
                partner.early += partner.read()
            block = [line.split()[5] for line in partner.early.split(b"\r") if line[:2] in (b"FA", b"FB")]
            partner.early, last = b"", partner.early
            if not block:
                self.assertEqual(last, b"FQ\r")
                self.assertEqual(partner.ends()[0], DONE)
                return bids
            bids += block
            partner.says(b"FS " + b"=" * len(block) + b"\rFF\r")

    def test_64(self):
        "a session takes 64, the oldest first; with more, half of them plain and half packed"
        node = self.node().add(*[Message(b"%03d" % i, form="plain") for i in range(66)])
        self.assertEqual(self.proposed(node), [b"%03d" % i for i in range(64)])
        node.ask("UPDATE passage SET deferred = 0")
        node.add(*[Message(b"P%03d" % i) for i in range(40)])
        self.assertEqual(self.proposed(node), [b"%03d" % i for i in range(32)])
        self.assertEqual(self.proposed(node, FRAMED_SID), [b"P%03d" % i for i in range(32)])
        node.ask("UPDATE passage SET deferred = 0")
        node.mark(FORWARDED, "form = 1 AND number > 70")
        self.assertEqual(self.proposed(node), [b"%03d" % i for i in range(60)])

    def test_deferred(self):
        "what was deferred last time goes behind the others: nothing is starved, however often the partner defers all"
        node = self.node().add(*[Message(b"%03d" % i, form="plain") for i in range(150)])
        self.assertEqual(self.proposed(node), [b"%03d" % i for i in range(64)])
        self.assertEqual(self.proposed(node), [b"%03d" % i for i in range(64, 128)])
        self.assertEqual(self.proposed(node), [b"%03d" % i for i in [*range(128, 150), *range(42)]])
        self.assertEqual(self.proposed(node), [b"%03d" % i for i in [*range(42, 64), *range(64, 106)]])

    def signs(self, node, *bids):
        partner = self.called(node)
        partner.says(b"".join(Message(bid, form="plain").proposal() for bid in bids) + b"F>\r")
        while not partner.early.endswith(b"\r"):
            partner.early += partner.read()
        signs = partner.early[3:-1].decode()
        partner.process.kill()
        partner.rest()
        return signs

    def test_known(self):
        "what was kept is known at the next session; so is all that ever was in the outbox"
        node = self.node().add(Message(b"OUT", form="plain"), Message(b"DONE", form="plain"))
        node.mark(FORWARDED, "bid = CAST('DONE' AS BLOB)")
        partner = self.called(node)
        partner.says(Message(b"IN", form="plain").proposal() + b"F>\r")
        partner.hears(b"FS +\r")
        partner.says(Message(b"IN", form="plain").transfer())
        partner.hears(Message(b"OUT", form="plain").proposal() + b"F>\r")
        partner.hang_up()
        self.assertEqual(partner.ends()[0], LINK_DROPPED)
        self.assertEqual(self.signs(node, b"IN", b"OUT", b"DONE", b"in", b"NEW"), "----+")

    def test_1024(self):
        "of more than 1,024 known BIDs the newest count, beside those that wait"
        node = self.node().add(Message(b"OUT", form="plain"))
        node.ask("WITH n(i) AS (SELECT 0 UNION ALL SELECT i + 1 FROM n WHERE i < 1025) INSERT INTO known (bid) SELECT CAST(printf('%04d', i) AS BLOB) FROM n")
        self.assertEqual(self.signs(node, b"0001", b"0002", b"1025", b"OUT"), "+---")
        # A copy that came again is as new as can be.
        partner = self.called(node)
        partner.says(Message(b"0000", form="plain").proposal() + b"F>\r")
        partner.hears(b"FS +\r")
        partner.says(Message(b"0000", form="plain").transfer())
        partner.hears(Message(b"OUT", form="plain").proposal() + b"F>\r")
        partner.hang_up()
        self.assertEqual(partner.ends()[0], LINK_DROPPED)
        self.assertEqual(self.signs(node, b"0000", b"0002", b"0003"), "-+-")

    def test_inbox(self):
        "a session keeps 64 messages and defers the next; the next session takes it"
        node = self.node()
        partner = self.called(node)
        theirs = [Message(b"%d_T" % i, form="plain") for i in range(65)]
        for i in range(0, 65, 5):
            block = theirs[i:i + 5]
            partner.says(b"".join(m.proposal() for m in block) + b"F>\r")
            partner.hears(b"FS " + (b"+++++" if i < 60 else b"++++=") + b"\r")
            partner.says(b"".join(m.transfer() for m in block if m is not theirs[64]))
            partner.hears(b"FF\r")
        partner.says(b"FQ\r")
        self.assertEqual(partner.ends()[0], DONE)
        self.assertEqual(node.inbox(), [m.row() for m in theirs[:64]])
        self.assertEqual(self.signs(node, b"63_T", b"64_T"), "-+")

    def test_room(self):
        "--room bounds what is accepted"
        partner = self.called(self.node(), PLAIN_SID, "--room", "100")
        partner.says(b"FB P A B C 1_T 100\rFB P A B C 2_T 1\rF>\r")
        partner.hears(b"FS +=\r")
        partner.hang_up()
        self.assertEqual(partner.ends()[0], LINK_DROPPED)


class Refusals(Sessions):
    def refused(self, number, said, heard=b"", sid=PLAIN_SID, options=(), messages=()):
        """Says it all; the node answers with no more than `heard`, its reason, the number and a hang-up."""
        node = self.node("node%d" % number).add(*messages)
        partner = node.stdio(*options)
        partner.hears(GREETING)
        partner.says(sid)
        for ours, theirs in zip(said, heard or [b""] * len(said)):
            partner.says(ours)
            partner.hears(theirs)
        partner.hears(reason(number))
        partner.hears_end()
        self.says_why(partner.ends(), REFUSED, "refusal %d: " % number)
        return node

    def test_each(self):
        "each number from 2 to 11, and 13, is said, nothing but the reason is sent, and the node hangs up"
        ours = Message(b"1_US", form="plain")
        self.refused(2, [b"x" * 257])
        self.refused(3, [], sid=b"Hello\r")
        self.refused(4, [], sid=b"[ZFJ-2.3-H$]\r")
        self.refused(5, [b"FB P A B C 1_T\r"])
        self.refused(6, [b"F>\r"])
        self.refused(7, [b"FF\r", b"FS ++\r"], [ours.proposal() + b"F>\r", b""], messages=[ours])
        self.refused(8, [b"FA P A B C 1_T 1\rF>\r", b"\x02"], [b"FS +\r", b""], sid=FRAMED_SID)
        self.refused(9, [b"FA P A B C 1_T 1\rF>\r", b"\x01\x04A\x000\x00\x02\x01A\x04\x00"], [b"FS +\r", b""], sid=FRAMED_SID)
        self.refused(10, [b"FB P A B C 1_T 1\rF>\r", b"A\rAB"], [b"FS +\r", b""], options=("--room", "1"))
        self.refused(11, [b"FF\rX"])
        self.refused(13, [b"FF\r", b"FS +\r", b"FB P A B C 1_T 1\rF> 00\r"], [ours.proposal() + b"F>\r", ours.transfer(), b""], messages=[ours])

    def test_stands(self):
        "what was kept and marked before the refused byte stands, in the base too"
        ours = [Message(b"%d_US" % i, form="plain") for i in range(2)]
        good, bad = Message(b"1_T", b"good", form="plain"), Message(b"2_T", b"bad", form="plain")
        said = [b"FF\r", b"FS +-\r", good.proposal() + bad.proposal() + b"F>\r", good.transfer() + b"\r"]
        heard = [b"".join(m.proposal() for m in ours) + b"F>\r", ours[0].transfer(), b"FS ++\r", b""]
        node = self.refused(8, said, heard, messages=ours)
        self.assertEqual(node.states(), {b"0_US": FORWARDED, b"1_US": DECLINED})
        self.assertEqual((node.inbox(), b"2_T" in node.known()), ([good.row()], False))

    def test_checksum(self):
        "a block with its checksum marks what was sent; with one letter of a BID changed it marks nothing, and nothing of it is answered"
        ours, theirs = Message(b"1_US", form="plain"), Message(b"1_T", b"theirs", form="plain")
        end = b"F> %02x\r" % (-sum(theirs.proposal()) % 256)
        changed = Message(b"1_U", b"theirs", form="plain").proposal()
        node = self.refused(13, [b"FF\r", b"FS +\r", changed + end], [ours.proposal() + b"F>\r", ours.transfer(), b""], messages=[ours])
        self.assertEqual((node.states(), node.inbox(), node.known()), ({b"1_US": WAITING}, [], {b"1_US"}))
        self.assertIn("F> ", node.right("sessions").decode())
        partner = self.called(node)
        partner.says(theirs.proposal() + end)
        partner.hears(b"FS +\r")
        partner.says(theirs.transfer())
        partner.hears(ours.proposal() + b"F>\r")
        partner.says(b"FS -\r")
        self.quits(partner)
        self.assertEqual((node.states(), node.inbox()), ({b"1_US": DECLINED}, [theirs.row()]))

    def test_turn_too_early(self):
        "bytes that come while a long transfer of ours goes out are refused before the rest goes"
        long = [Message(b"%d_US" % i, b"x" * 65535, size=1) for i in range(5)]  # far more than a pipe holds
        node = self.node().add(*long)
        partner = self.called(node, FRAMED_SID)
        partner.says(b"FF\r")
        partner.hears(b"".join(m.proposal() for m in long) + b"F>\r")
        partner.says(b"FS +++++\r")
        partner.hears(long[0].transfer()[:1])
        partner.says(b"*** Protocol error\r")
        heard = len(partner.early)
        while more := partner.read():
            heard += len(more)
        self.assertLess(heard, 200000)
        self.says_why(partner.ends(), REFUSED, "refusal 11: ")
        self.assertEqual(set(node.states().values()), {WAITING})


class Drops(Sessions):
    def test_every_byte(self):
        "the link drops after each byte that the partner says: what came whole is kept, what was taken whole is marked"
        ours, theirs = Message(b"1_US", b"ours", form="plain"), Message(b"1_T", b"theirs", form="plain")
        steps = [(GREETING, PLAIN_SID + theirs.proposal() + b"F>\r"), (b"FS +\r", theirs.transfer()), (ours.proposal() + b"F>\r", b"FS +\r"),
                 (ours.transfer(), b"FF\r")]
        kept, marked = len(steps[0][1] + steps[1][1]), sum(len(said) for _, said in steps)
        fresh = self.node("fresh").add(ours)
        for cut in range(marked + 1):
            shutil.copy(fresh.path, self.folder / ("cut%d.base" % cut))
            self.cut(node := self.node("cut%d" % cut, program=PLAIN), steps, cut)
            self.assertEqual(len(node.inbox()), cut >= kept, cut)
            self.assertEqual(node.states(), {b"1_US": FORWARDED if cut >= marked else WAITING}, cut)

    def cut(self, node, steps, left):
        partner = node.stdio()
        for heard, said in steps:
            partner.hears(heard)
            partner.says(said[:left])
            if len(said) > left:
                break
            left -= len(said)
        partner.hang_up()
        err = partner.rest()[1]
        self.assertIn(partner.process.returncode, (LINK_DROPPED, DONE), err)

    def test_silence(self):
        "a silent partner is hung up on after the time that is set"
        began = time.monotonic()
        partner = self.called(self.node(), b"", "--timeout", "1")
        self.says_why(partner.ends_itself(), LINK_DROPPED, "silent")
        self.assertTrue(0.9 < time.monotonic() - began < LATE)

    def test_drop_after(self):
        "--drop-after counts the bytes of both directions"
        node = self.node()
        partner = node.stdio("--drop-after", "20")
        partner.hears(GREETING)
        partner.says(PLAIN_SID)
        partner.hears_end()
        code, err = partner.ends()
        self.says_why((code, err), LINK_DROPPED, "--drop-after", "16 bytes sent, 4 received")


class Shown(Sessions):
    def exchange(self, *options):
        ours = [Message(b"1_\xd6VSV", b"\\r \\n \\x41 \\\\ \x00\x01\xff" + bytes(range(256)), title="Grüße".encode()), Message(b"2_US", "ż".encode() * 200)]
        partner = self.called(self.node().add(*ours), FRAMED_SID, *options)
        partner.says(b"; caf\xc3\xa9 de F0FBB\rFF\r\n")
        partner.hears(b"".join(m.proposal() for m in ours) + b"F>\r")
        partner.says(b"; \xff\r\nFS ++\r\n")
        partner.hears(b"".join(m.transfer() for m in ours))
        return partner, self.quits(partner)

    def test_transcript(self):
        "both directions can be told exactly from the transcript, on standard error or in a file"
        partner, err = self.exchange("--transcript")
        self.assertEqual(read_transcript(err), (partner.heard, partner.said))
        self.assertIn("partner:  ; café de F0FBB\\r\n", err)
        self.assertIn("us:       FA P F0ABC N0DE.TST F0XYZ 1_\\xD6VSV 273\\r\n", err)
        shutil.rmtree(self.folder)
        self.folder.mkdir()
        partner, err = self.exchange("--transcript=" + str(self.folder / "air"))
        self.assertEqual(read_transcript((self.folder / "air").read_text()), (partner.heard, partner.said))
        self.assertNotIn("us: ", err)

    def test_no_transcript(self):
        "a transcript file that can't be written"
        self.says_why(self.node().run("stdio", "--transcript=/nowhere/air"), FAILED, "/nowhere/air: No such file")

    def test_progress(self):
        "a long transfer shows progress, a short one doesn't"
        theirs = Message(b"1_T", b"x" * 3500)
        partner, began = self.called(self.node(), FRAMED_SID, "--progress"), time.monotonic()
        partner.says(theirs.proposal() + b"F>\r")
        partner.hears(b"FS +\r")
        for i in range(0, len(theirs.transfer()), 100):
            partner.says(theirs.transfer()[i:i + 100])
            time.sleep(0.1)
        partner.hears(b"FF\r")
        partner.says(b"FQ\r")
        code, err = partner.ends()
        self.says_why((code, err), DONE)
        self.assertRegex(err, r"receiving: \d+ bytes, \d{2,4} bytes/s\n")
        self.assertNotIn("sending:", err)
        self.assertLessEqual(err.count("receiving:"), time.monotonic() - began + 1)

    def test_list(self):
        "list shows both boxes, with every byte of a title told"
        node = self.node().add(Message(b"1_A", b"abc", title=b"caf\xe9"), Message(b"2_A", title="café".encode(), kind=b"B"))
        out = node.right("list").decode()
        self.assertRegex(out, r"(?m)^    1  waiting    message P  F0ABC   F0XYZ   N0DE.TST            1_A                3  caf\\xE9$")
        self.assertRegex(out, r"(?m)^    2  waiting    message B  F0ABC .* 2_A                0  café$")
        self.assertIn("inbox: empty\n2 BIDs known\n", out)
