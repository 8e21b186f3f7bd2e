"""Packed texts at both levels: each message goes out in the form of its partner's level, and what comes is kept with its own."""
from test_sessions import FRAMED_SID, PLAIN_SID, Sessions
from node import *

LEVEL_1 = b"[TST-1-AB1FHM$]\r"
LEVEL_9 = b"[TST-1-b9F$]\r"
LEVELS = {0: (FRAMED_SID, b"[TST-1-B0F1$]\r"), 1: (LEVEL_1, LEVEL_9)}
EVERY = bytes(range(256))


def mail():
    """Messages as both levels have them: a message and a file of each, and one whose announced size somebody has set."""
    return [Message(b"1_US", EVERY * 2), Message(b"2_US", b"", form="file", name=b"EMPTY.BIN", title=b""), Message(b"3_US", b"three", size=3000),
            Message(b"4_US", b"\r\n").checked(), Message(b"5_US", b"five", form="file", name=b"5.BIN", title=b"").checked()]


def shaped(message, level):
    """As a partner at this level is due it."""
    if message.level == level:
        return message
    if level:
        return message.checked()
    changed = copy.copy(message)
    changed.body, changed.level = message.body[2:], 0
    return changed


class Levels(Sessions):
    def takes_all(self, partner, due):
        """The partner hears these proposals next, takes all, and nobody has more."""
        partner.hears(b"".join(m.proposal() for m in due) + b"F>\r")
        partner.says(b"FS " + b"+" * len(due) + b"\r")
        partner.hears(b"".join(m.transfer() for m in due))
        self.quits(partner)

    def levels(self, node):
        return node.ask("SELECT level FROM session ORDER BY number")


class GoOut(Levels):
    def test_called(self):
        "a called station says each packed text in the form of its caller's level, and announces the length that it sends, or the size that was set"
        for level, sids in LEVELS.items():
            for sid in sids:
                with self.subTest(sid):
                    node = self.node(sid.hex()).add(*mail())
                    partner = self.called(node, sid)
                    partner.says(b"FF\r")
                    self.takes_all(partner, [shaped(m, level) for m in mail()])
                    self.assertEqual(set(node.states().values()), {FORWARDED})
                    self.assertEqual(node.outbox(), [m.row() for m in mail()], "the base has them as they were")
                    self.assertEqual(self.levels(node), [(level,)])

    def test_caller(self):
        "a caller too, whatever the SID comes with: text, ; lines, LF, and byte by byte"
        for level, sids in LEVELS.items():
            for portion in (1, 7, 999):
                with self.subTest((level, portion)):
                    node = self.node("caller%d%d" % (level, portion)).add(*mail())
                    partner = node.stdio("--caller")
                    said = b"; hello\r\n" + sids[0] + b"\nF0FBB Mailbox.\r\n(1) F0FBB BBS>\r\n"
                    for at in range(0, len(said), portion):
                        partner.says(said[at:at + portion])
                        time.sleep(0.01 if portion > 1 else 0.002)
                    partner.hears(OUR_SID)
                    self.takes_all(partner, [shaped(m, level) for m in mail()])

    def test_turns(self):
        "a partner of now one level and now the other never hears a packed text in the wrong form, though the base remembers what the last one was"
        node = self.node().add(*mail())
        for number, level in enumerate((1, 0, 0, 1, 1, 0), 1):
            partner = self.called(node, LEVELS[level][0] + b"FF\r")
            partner.hears(b"".join(shaped(m, level).proposal() for m in mail()) + b"F>\r")
            partner.says(b"FS +====\r" if level == 0 else b"FS YLeA9!000001\r")
            partner.hears(shaped(mail()[0], level).transfer())
            partner.hang_up()
            self.assertEqual(partner.ends()[0], LINK_DROPPED)
            self.assertEqual(self.levels(node)[-1], (level,))
        self.assertEqual(set(node.states().values()), {WAITING})

    def test_plain(self):
        "plain texts have no level: they are the same to every partner, and a partner without B has level 0"
        ours = Message(b"1_US", b"text\r", form="plain")
        for sid in (PLAIN_SID, b"[TST-1-F9H1$]\r"):
            node = self.node(sid.hex()).add(ours, Message(b"2_US", b"packed"))
            partner = self.called(node, sid)
            partner.says(b"FF\r")
            self.takes_all(partner, [ours])
            self.assertEqual((self.levels(node), node.states()), ([(0,)], {b"1_US": FORWARDED, b"2_US": WAITING}))

    def test_too_long(self):
        "a packed text without room for its check waits for a partner at level 0, which is said; the others go"
        long = [Message(b"1_US", b"x" * 65534), Message(b"2_US", b"y" * 65535), Message(b"3_US", b"z" * 65533)]
        node = self.node().add(*long)
        partner = self.called(node, LEVEL_1 + b"FF\r")
        partner.hears(long[2].checked().proposal() + b"F>\r")
        partner.says(b"FS H\r")
        partner.hears(long[2].checked().transfer())
        self.assertIn("waiting for a partner at level 0: 2", self.quits(partner))
        self.assertEqual(node.states(), {b"1_US": WAITING, b"2_US": WAITING, b"3_US": FORWARDED})
        partner = self.called(node, FRAMED_SID + b"FF\r")
        partner.hears(long[0].proposal() + b"F>\r")
        partner.says(b"FS +\r")
        partner.hears(long[0].transfer())
        partner.says(b"FF\r")
        partner.hears(long[1].proposal() + b"F>\r")

    def test_held(self):
        "what somebody has written into the base is held and named: a check that is wrong, a level that there isn't"
        node = self.node().add(*mail())
        node.ask("UPDATE outbox SET body = CAST(x'0000' || body AS BLOB) WHERE bid = CAST('4_US' AS BLOB)")
        node.ask("UPDATE outbox SET level = 2 WHERE bid = CAST('5_US' AS BLOB)")
        partner = self.called(node, FRAMED_SID + b"FF\r")
        partner.hears(b"".join(m.proposal() for m in mail()[:3]) + b"F>\r")
        partner.hang_up()
        self.says_why(partner.ends(), LINK_DROPPED, "BID 4_US, is held: a packed text of level 1 begins with two check bytes", "BID 5_US, is held: a level is 0 or 1")
        self.assertEqual((node.states()[b"4_US"], node.states()[b"5_US"]), (HELD, HELD))

    def test_refused(self):
        "a SID that is none, or a line behind it that is wrong, is refused as ever"
        node = self.node().add(*mail())
        for said, number in ((b"[TST-1-BFF$]\r", 3), (FRAMED_SID + b"FX\r", 5), (LEVEL_1 + b"FX\r", 5), (FRAMED_SID + b"FF\rF", 11)):
            partner = self.called(node, said)
            partner.hears(reason(number))
            self.says_why(partner.ends(), REFUSED, "refusal %d" % number)
        self.assertEqual(self.levels(node)[0], (None,))


class ComeIn(Levels):
    def test_kept(self):
        "a packed message that comes is kept as it came, with the level in force; a plain one with level 0"
        for level, sid in ((0, FRAMED_SID), (1, LEVEL_1), (1, LEVEL_9)):
            node, theirs = self.node(sid.hex()), Message(b"1_THEM", EVERY)
            theirs = theirs.checked() if level else theirs
            partner = self.called(node, sid)
            partner.says(theirs.proposal() + b"F>\r")
            partner.hears(b"FS +\r")
            partner.says(theirs.transfer())
            partner.hears(b"FF\r")
            partner.says(b"FQ\r")
            self.assertEqual(partner.ends()[0], DONE)
            self.assertEqual((node.inbox(), node.ask("SELECT level FROM inbox")), ([theirs.row()], [(level,)]))
            self.assertEqual(b"(level 1)" in node.right("list"), level == 1)
        node, theirs = self.node("plain"), Message(b"1_THEM", b"text\r", form="plain")
        partner = self.called(node)
        partner.says(theirs.proposal() + b"F>\r")
        partner.hears(b"FS +\r")
        partner.says(theirs.transfer())
        partner.hears(b"FF\r")
        partner.says(b"FQ\r")
        self.assertEqual((partner.ends()[0], node.ask("SELECT level FROM inbox")), (DONE, [(0,)]))

    def test_wrong_check(self):
        "one whose check is wrong is kept too, since no rule of the protocol speaks of it, and shown"
        node, theirs = self.node(), Message(b"1_THEM", b"no check")
        partner = self.called(node, LEVEL_1)
        partner.says(theirs.proposal() + b"F>\r")
        partner.hears(b"FS +\r")
        partner.says(theirs.transfer())
        partner.hears(b"FF\r")
        partner.says(b"FQ\r")
        self.assertEqual((partner.ends()[0], node.inbox()), (DONE, [theirs.row()]))
        self.assertIn(b"(level 1, with a wrong check)", node.right("list"))


class Files(Levels):
    def test_import(self):
        "import takes the level that X-Level says, else that of --level, else 0"
        node = self.node()
        said, unsaid = Message(b"1_US", b"one").checked(), Message(b"2_US", b"two").checked()
        unsaid.level = 0
        node.right("import", "-", input=said.file() + Message(b"3_US", b"three").file() + Message(b"4_US", b"4", form="plain").file())
        node.right("import", "--level", "1", "-", input=unsaid.file() + Message(b"5_US", b"5\r", form="plain").file())
        self.assertEqual(node.ask("SELECT bid, level FROM outbox ORDER BY number"), [(b"1_US", 1), (b"3_US", 0), (b"4_US", 0), (b"2_US", 1), (b"5_US", 0)])

    def test_bad(self):
        "a level that there isn't, and a text without its check, are refused, and nothing is imported"
        node, right = self.node(), Message(b"1_US", b"one").checked()
        for level in (b"2", b"-1", b"x"):
            self.says_why(node.run("import", "-", input=right.file().replace(b"X-Level: 1", b"X-Level: " + level)), BAD_FILE, "X-Level is not 0 or 1")
        self.says_why(node.run("import", "--level", "2", "-", input=right.file()), BAD_USAGE, "--level")
        for body in (b"", b"x", right.body[:-1], right.body + b"x", b"\0" + right.body[1:], right.body[1::-1] + right.body[2:]):
            self.says_why(node.run("import", "-", input=Message(b"1_US", body, level=1).file()), BAD_FILE, "two check bytes")
        self.assertEqual(node.outbox(), [])

    def test_export(self):
        "export writes X-Level where it is 1, and what it wrote is imported as it was"
        node, other = self.node().add(*mail()), self.node("other")
        node.right("export", "--outbox", self.folder / "out")
        files = sorted((self.folder / "out").iterdir())
        self.assertEqual([b"X-Level: 1\r\n" in f.read_bytes() for f in files], [False, False, False, True, True])
        other.right("import", *files)
        self.assertEqual((other.outbox(), other.ask("SELECT level FROM outbox")), (node.outbox(), node.ask("SELECT level FROM outbox")))
        self.says_why(other.run("import", *files), DONE, "5 in the base already")

    def test_copies(self):
        "copies for cc have the message's level"
        node = self.node("cc", options=("--call", "N0DE"))
        text = Message(b"1_US", b"one").checked().file().replace(b"Subject:", b"cc: F0AAA@F0BBB\r\nSubject:")
        node.right("import", "-", input=text)
        self.assertEqual(node.ask("SELECT level FROM outbox"), [(1,), (1,)])


class Rest(Levels):
    """The partner has a part of a message, and asks for the rest of it."""

    def asked(self, node, due, line, *options):
        partner = self.called(node, LEVEL_1 + b"FF\r", *options)
        partner.hears(b"".join(m.proposal() for m in due) + b"F>\r")
        partner.says(line)
        return partner

    def test_before(self):
        "where an accepted message stands behind the one whose rest is asked for, not a byte goes: the partner would take it for that rest; the row says so"
        for line in (b"FS A1536Y=\r", b"fs !1536h=\r\n", b"FS a000001=+  \r", b"; wait\r\nFS NA9!0\r", b"FS Y!99A000\r", b"FS A12A12A0\r"):
            with self.subTest(line):
                ours = [Message(b"%d_US" % n, b"body %d" % n).checked() for n in range(3)]
                node = self.node(line.hex()[:30]).add(*ours)
                partner = self.asked(node, ours, line)
                partner.hears_end()
                self.says_why(partner.ends(), LINK_DROPPED, "asks for the rest of a message", "0 forwarded")
                self.assertEqual([state for state in node.states().values() if state == FORWARDED], [])
                self.assertEqual(node.ask("SELECT ending FROM session"), [("asked for the rest of a message",)])

    def test_next_call(self):
        "at the next call it stands behind the others, which go"
        ours = [Message(b"%d_US" % n, b"body %d" % n).checked() for n in range(3)]
        node = self.node().add(*ours)
        self.asked(node, ours, b"FS A1536YY\r").ends()
        partner = self.asked(node, ours[1:] + ours[:1], b"FS YYA1536\r", "--progress-limit", "1")
        partner.hears(ours[1].transfer() + ours[2].transfer())
        partner.hears_end()
        self.says_why(partner.ends_itself(), LINK_DROPPED, "no progress", "3 still waiting")
        partner = self.asked(node, ours[1:] + ours[:1], b"FS NNA1536\r", "--progress-limit", "1")
        partner.hears_end()
        self.says_why(partner.ends_itself(), LINK_DROPPED, "no progress", "1 still waiting")
        self.assertEqual(node.states(), {b"0_US": WAITING, b"1_US": DECLINED, b"2_US": DECLINED})

    def test_others(self):
        "nothing is ended by a number of 0, by a number behind which nothing is accepted, by other signs, or by such a text elsewhere"
        for level, line, sent in ((1, b"FS A0Y!000\r", (0, 1, 2)), (1, b"FS LYE\r", (1,)), (1, b"FS YHA1\r", (0, 1)), (1, b"FS YA1N\r", (0,)), (0, b"FS =+=\r", (1,))):
            with self.subTest(line):
                ours = [Message(b"%d_US" % n, b"FS A1Y\r" * n).checked() for n in range(3)]
                node = self.node(line.hex()[:30]).add(*ours)
                due = [shaped(m, level) for m in ours]
                partner = self.called(node, LEVELS[level][0] + b"FF\r")
                partner.hears(b"".join(m.proposal() for m in due) + b"F>\r")
                partner.says(line)
                partner.hears(b"".join(due[n].transfer() for n in sent))
                partner.says(Message(b"1_T", b"FS A1Y\r").proposal() + b"F>\r")
                partner.hears(b"FS +\r")
                partner.says(Message(b"1_T", b"FS A1Y\r").transfer())
                partner.hears(b"FF\r")
                partner.says(b"FQ\r")
                self.assertEqual(partner.ends()[0], DONE)
