"""Mail is never damaged or marked by the host: what import, the base and export do with it."""
from node import *
from test_files import HEAD, letter

PLAIN_SID = b"[TST-1-F$]\r"


class Kept(Folder):
    """Sessions in which a partner sends."""

    def sends(self, node, *theirs, signs=None):
        """One session: these are proposed, answered by `signs`, and what is accepted is sent."""
        partner = node.stdio()
        partner.hears(GREETING)
        partner.says(PLAIN_SID + b"".join(m.proposal() for m in theirs) + b"F>\r")
        signs = signs or b"+" * len(theirs)
        partner.hears(b"FS " + signs + b"\r")
        for message, sign in zip(theirs, signs.decode()):
            if sign == "+":
                partner.says(message.transfer())
        partner.hears(b"F")
        partner.hang_up()
        partner.rest()

    def know_others(self, node, count=1100, kind="B", name="other", seen=0):
        """So many other BIDs were seen since."""
        node.ask("WITH n(i) AS (SELECT 1 UNION ALL SELECT i + 1 FROM n WHERE i < ?) INSERT INTO known (bid, type, seen)"
                 " SELECT CAST(printf('%s%d', ?, i) AS BLOB), ?, ? FROM n", count, name, kind, seen)

    def import_others(self, node, name=b"other"):
        """The same by an operator: more bulletins than a session is lent BIDs."""
        node.add(*[Message(b"%s%d" % (name, i), kind=b"B") for i in range(1100)])

    def signs(self, node, *bids):
        partner = node.stdio()
        partner.hears(GREETING)
        partner.says(PLAIN_SID + b"".join(Message(bid, form="plain").proposal() for bid in bids) + b"F>\r")
        while b"\r" not in partner.early:
            partner.early += partner.read()
        signs = partner.early.split(b"\r")[0][3:].decode()
        partner.process.kill()
        partner.rest()
        return signs


class Copies(Kept):
    def plain(self, bid, text):
        return Message(bid, text + b"\r", form="plain")

    def test_copy(self):
        "a BID that comes again after it has left the list is kept as a copy: listed as such, exported under its own name, the first as it was"
        node = self.node().add(self.plain(b"1_US", b"ours"))
        texts = [self.plain(b"1_T", b"first"), self.plain(b"1_T", b"second"), self.plain(b"1_T", b"third"), self.plain(b"1_US", b"ours came back")]
        self.sends(node, texts[0])
        node.mark(FORWARDED)
        for number, text in enumerate(texts[1:]):
            self.sends(node, self.plain(b"X%d" % number, b"another"))
            self.import_others(node, b"%d-" % number)
            self.sends(node, text)
        listed = node.right("list").decode()
        for state, count in (("kept", 1), ("copy 1", 1), ("copy 2", 1)):
            self.assertEqual(len(re.findall(r"(?m)^ +\d+  %s +plain .* 1_T " % state, listed)), count, state)
        rows = node.ask("SELECT bid, copy, body FROM inbox WHERE bid IN (?, ?) ORDER BY number", b"1_T", b"1_US")
        self.assertEqual(rows, [(b"1_T", 0, b"first\r"), (b"1_T", 1, b"second\r"), (b"1_T", 2, b"third\r"), (b"1_US", 1, b"ours came back\r")])
        self.assertEqual(node.ask("SELECT count(*) FROM known WHERE bid IN (?, ?)", b"1_T", b"1_US"), [(2,)])
        self.assertEqual(node.ask("SELECT body FROM outbox WHERE bid = ?", b"1_US"), [(b"ours\r",)])
        node.right("export", self.folder / "out")
        for name, text in (("1_T", b"first"), ("1_T.copy-1", b"second"), ("1_T.copy-2", b"third"), ("1_US.copy-1", b"ours came back")):
            self.assertIn(b"\r\n\r\n" + text + b"\r\r\n/EX\r\n", (self.folder / "out" / (name + ".msg")).read_bytes())
        self.assertFalse((self.folder / "out" / "1_US.msg").exists())

    def test_imported_beside(self):
        "a BID that was imported while a session runs, and then comes in it, is a copy"
        node, theirs = self.node(), self.plain(b"1_T", b"theirs")
        partner = node.stdio()
        partner.hears(GREETING)
        partner.says(PLAIN_SID + theirs.proposal() + b"F>\r")
        partner.hears(b"FS +\r")
        node.add(self.plain(b"1_T", b"imported"))
        partner.says(theirs.transfer())
        partner.hears(b"FF\r")
        partner.says(b"FQ\r")
        self.assertEqual(partner.ends()[0], DONE)
        self.assertEqual(node.ask("SELECT bid, copy FROM inbox"), [(b"1_T", 1)])
        self.assertEqual(node.states(), {b"1_T": WAITING})

    def test_names(self):
        "no BID's file has the name of another's copy"
        node = self.node()
        for number, bid in enumerate([b"A", b"A", b"A.copy-1", b"A%2Ecopy-1"]):
            node.ask("INSERT INTO inbox (form, type, \"from\", at, \"to\", bid, title, name, body, copy) VALUES (0, 'P', ?, ?, ?, ?, ?, ?, ?, ?)",
                     b"F0ABC", b"N0DE", b"F0XYZ", bid, b"T", b"", b"%d" % number, number == 1)
        node.right("export", self.folder / "out")
        self.assertEqual(sorted(path.name for path in (self.folder / "out").iterdir()),
                         ["A%252Ecopy-1.msg", "A%2Ecopy-1.msg", "A.copy-1.msg", "A.msg"])


class Likeliest(Kept):
    def test_sent_again(self):
        "what a partner sent just before the link dropped is known when it sends it again, though 1,100 others were imported since"
        node = self.node()
        self.sends(node, Message(b"1_T", form="plain"))
        self.import_others(node)
        self.assertEqual(self.signs(node, b"1_T", b"NEW"), "-+")

    def test_just_came(self):
        "what came in the last session is known whatever else is; so is what came in the last session of another partner"
        node = self.node()
        self.sends(node, Message(b"OLD", form="plain"))
        self.sends(node, Message(b"1_T", form="plain"), Message(b"2_T", form="plain"))
        node.ask("UPDATE inbox SET partner = ? WHERE bid = ?", b"F0OLD", b"OLD")
        self.know_others(node)
        self.assertEqual(self.signs(node, b"1_T", b"2_T", b"OLD", b"NEW"), "---+")
        node.ask("UPDATE inbox SET partner = ?", b"")
        self.assertEqual(self.signs(node, b"1_T", b"OLD"), "-+")

    def test_bulletins(self):
        "a personal message is known as if 512 more had been seen since: a bulletin is known before 1,534 of them, and not before 1,024 bulletins"
        for kind, count, signs in (("P", 1534, "-"), ("P", 1535, "+"), ("B", 1023, "-"), ("B", 1024, "+")):
            node = self.node(kind + str(count))
            self.know_others(node, 1, "B", "FIRST")
            self.know_others(node, count, kind)
            self.assertEqual(self.signs(node, b"FIRST1"), signs, (kind, count))

    def test_clock(self):
        "what a node with a wrong clock saw last is known"
        node = self.node()
        self.know_others(node, 1100, name="before", seen=4000000000)
        self.know_others(node, 5, name="now", seen=10)
        self.assertEqual(self.signs(node, b"now1", b"before1100", b"before1"), "--+")

    def test_seen_again(self):
        "a copy that came again is as new as can be"
        node = self.node()
        self.know_others(node, 1, name="BACK")
        self.know_others(node, 1030)
        self.sends(node, Message(b"BACK1", form="plain", kind=b"B"))
        self.sends(node, Message(b"NEXT", form="plain", kind=b"B"))
        self.assertEqual(self.signs(node, b"BACK1", b"other1030", b"other1"), "--+")


class Imported(Folder):
    def test_text_packed(self):
        "--text changes line ends of plain bodies alone; a packed message in the same call goes in byte for byte"
        samples = sorted((ROOT / "host" / "samples" / "north").glob("*.msg"))
        plain, as_text = self.node("plain"), self.node("text")
        plain.right("import", *samples)
        as_text.right("import", "--text", *samples, "-", input=letter(body=b"a\nb"))
        self.assertEqual(as_text.outbox()[:-1], plain.outbox())
        self.assertEqual(as_text.ask("SELECT body, size FROM outbox ORDER BY number DESC LIMIT 1"), [(b"a\rb", 3)])
        every = Message(b"1_E", bytes(range(256)) + b"\r\n\n\r")
        packed = [every, Message(b"2_E", every.body, form="file", name=b"E")]
        node = self.node("every")
        node.right("import", "--text", "-", input=b"".join(m.file() for m in packed))
        self.assertEqual(node.outbox(), [m.row() for m in packed])

    def test_line_feeds(self):
        "a plain body with LF and no CR is refused with a sentence that names --text; --as-is takes it"
        for body in (b"a\nb", b"\n", b"one line\n"):
            node = self.node("lf%d" % len(body))
            self.says_why(node.run("import", "-", input=letter(body=body)), BAD_FILE, "-: message 1: ", "--text", "--as-is")
            self.assertEqual(node.outbox(), [])
            node.right("import", "-", "--as-is", input=letter(body=body))
            self.assertEqual(node.outbox()[0][-1], body)
        node = self.node("others")
        others = [b"a\r\nb", b"\nours\r", b"no line end", b""]
        node.right("import", "-", input=b"".join(letter(HEAD + b"X-BID: %d_A\r\n" % i, body) for i, body in enumerate(others)))
        node.right("import", "-", input=letter(HEAD + b"X-BID: 9_A\r\nX-Form: message\r\n", b"packed\n"))
        self.assertEqual([row[-1] for row in node.outbox()], others + [b"packed\n"])

    def test_copies_wait(self):
        "copies for cc wait, though the partner has the message itself; those of a held one are held"
        node = self.node(options=("--call", "N0DE", "--partner", "F0SOU"))
        node.right("import", "-", input=letter(HEAD + b"X-BID: 1_A\r\nX-Forwarded-To: F0SOU\r\ncc: A@B\r\n")
                   + letter(HEAD + b"X-BID: 2_A\r\nX-Forwarded-To: F0SOU\r\nX-BBS-Hold: y\r\ncc: C@D\r\n"))
        self.assertEqual(node.states(), {b"1_A": FORWARDED, b"2_N0DE": WAITING, b"2_A": FORWARDED, b"4_N0DE": HELD})

    def test_taken_bid(self):
        "where a generated BID is taken already the next free number is used"
        node = self.node(options=("--call", "N0DE"))
        node.right("import", "-", input=b"".join(letter(HEAD + b"X-BID: %d_N0DE\r\n" % i) for i in (4, 5, 7)))
        for _ in range(3):
            node.right("import", "-", input=letter(HEAD))
        self.assertEqual([row[5] for row in node.outbox()][3:], [b"6_N0DE", b"8_N0DE", b"9_N0DE"])

    def test_long_number(self):
        "when a BID has no room for another digit the numbers begin again"
        node = self.node(options=("--call", "F0ABCD"))
        node.right("import", "-", input=letter(HEAD))
        node.ask("UPDATE sqlite_sequence SET seq = 99998")
        for _ in range(4):
            node.right("import", "-", input=letter(HEAD))
        self.assertEqual([row[5] for row in node.outbox()], [b"1_F0ABCD", b"99999_F0ABCD", b"0_F0ABCD", b"2_F0ABCD", b"3_F0ABCD"])

    def test_calls(self):
        "init takes callsigns only, and writes them as capitals"
        for number, (call, stored) in enumerate([("n0de", b"N0DE"), ("F0ABC-7", b"F0ABC"), ("G4XYZ", b"G4XYZ"), ("", b""), ("N0", None), ("NODE", None),
                                                 ("1234", None), ("N0DE/P", None), ("F0ABCDE", None), ("F0ABC-16", None), ("F0ABC-", None), ("Ä0DE", None)]):
            for option in ("--call", "--partner"):
                with self.subTest((option, call)):
                    node = Node.__new__(Node)
                    node.path, node.program = self.folder / ("%d%s" % (number, option)), SANITIZED
                    if stored is None:
                        self.says_why(node.run("init", option, call), BAD_USAGE, option, "no callsign")
                        self.assertFalse(node.path.exists())
                        continue
                    node.right("init", option, call)
                    self.assertEqual(node.ask("SELECT call, partner FROM station"), [(stored, b"") if option == "--call" else (b"", stored)])
                    self.assertEqual(node.ask("SELECT call FROM partner"), [(stored,)] if option == "--partner" and stored else [])

    def test_goes_on(self):
        "an import goes on past messages whose BID is known, and says at the end whether they are in the base as they are here"
        node, files = self.node(), [self.folder / ("%d.msg" % i) for i in range(4)]
        for i, file in enumerate(files):
            file.write_bytes(letter(HEAD + b"X-BID: %d_A\r\n" % i))
        node.right("import", files[0], files[2])
        self.says_why(node.run("import", *files), DONE, "2 imported", "2 in the base already")
        self.assertEqual([row[5] for row in node.outbox()], [b"0_A", b"2_A", b"1_A", b"3_A"])
        files[0].write_bytes(letter(HEAD + b"X-BID: 0_A\r\n", b"another text"))
        files[1].write_bytes(letter(HEAD + b"X-BID: 9_A\r\n"))
        self.says_why(node.run("import", *files), BAD_FILE, "0.msg: message 1: its BID is in the base already, with another message", "1 imported",
                      "1 passed over: another message has their BID")
        self.assertEqual([(row[5], row[-1]) for row in node.outbox()], [(b"%d_A" % i, b"text") for i in (0, 2, 1, 3, 9)])

    def test_again(self):
        "a letter with cc that is imported again makes no copies again"
        node = self.node(options=("--call", "N0DE"))
        for _ in range(2):
            node.right("import", "-", input=letter(HEAD + b"X-BID: 1_A\r\ncc: A@B\r\n"))
        self.assertEqual([row[5] for row in node.outbox()], [b"1_A", b"2_N0DE"])


class Counted(Folder):
    def test_other_form(self):
        "what waits because this partner takes the other form only is said, so that nobody wonders"
        for sid, words in ((PLAIN_SID, "waiting for a partner with B in its SID: 2 (packed)"), (b"[TST-1-BF$]\r", "waiting for a partner without B in its SID: 1 (plain)")):
            node = self.node(sid.decode()[7:9]).add(Message(b"1_A", form="plain"), Message(b"2_A"), Message(b"3_A"))
            partner = node.stdio()
            partner.hears(GREETING)
            partner.says(sid + b"FF\r")
            while not partner.early.endswith(b"F>\r"):
                partner.early += partner.read()
            count, partner.early = partner.early.count(b"\r") - 1, b""
            partner.says(b"FS " + b"=" * count + b"\rFF\r")
            partner.hears(b"FQ\r")
            self.says_why(partner.ends(), DONE, "3 still waiting", words)

    def test_all_waiting(self):
        "all that waits is counted, not only what a session was lent"
        node = self.node().add(*[Message(b"%03d" % i, form="plain") for i in range(70)])
        partner = node.stdio()
        partner.hears(GREETING)
        partner.hang_up()
        self.says_why(partner.ends(), LINK_DROPPED, " 70 still waiting;")
