"""BIDs that differ only in the case of A to Z are one, in the base as on the air; no stored or sent byte changes."""
from node import *
from test_files import HEAD, letter
from test_mail import Kept

VERSION_2 = (ROOT / "tests" / "host" / "version2.sql").read_text()
# Pairs that are two: what stands beside the letters, and letters beyond ASCII.
APART = [(b"1_[", b"1_{"), (b"1_@", b"1_`"), (b"1_^", b"1_~"), (b"1_\\", b"1_|"), (b"1_]", b"1_}"), (b"1_\xc9", b"1_\xe9"), (b"1_\xd7", b"1_\xf7"), (b"1_A", b"1_AA")]


def plain(bid, text=b"text", **more):
    return Message(bid, text + b"\r", form="plain", **more)


def same_bid(a, b):
    """The host's own rule."""
    made = subprocess.run(["cc", "-E", "-P", "-include", HOST / "host" / "bid.h", "-"], input=b'SAME_BID("%s", "%s")' % (a.encode(), b.encode()), stdout=subprocess.PIPE, check=True)
    return "".join(re.findall(r'"([^"]*)"', made.stdout.decode()))


class Imported(Folder):
    def test_twin(self):
        "a message whose BID is in the base in another spelling is passed over, and both spellings are told"
        node = self.node().add(plain(b"12_ab", b"first"))
        self.says_why(node.run("import", "-", input=plain(b"12_AB", b"another").file()), BAD_FILE, "-: message 1: its BID is in the base already, as 12_ab, with another message; passed over")
        self.says_why(node.run("import", "-", input=plain(b"12_Ab", b"first").file()), DONE, "its BID is in the base already, as 12_ab; passed over", "1 in the base already")
        self.says_why(node.run("import", "-", input=plain(b"12_ab", b"first").file()), DONE, "0 imported\nfringemole: 1 in the base already")
        self.assertEqual(node.outbox(), [plain(b"12_ab", b"first").row()])

    def test_in_one_file(self):
        "of two in one file the first is taken, as it is spelled"
        node = self.node()
        self.says_why(node.run("import", "-", input=plain(b"1_Z", b"first").file() + plain(b"1_z", b"second").file()), BAD_FILE, "message 2", "as 1_Z", "1 imported")
        self.assertEqual(node.outbox(), [plain(b"1_Z", b"first").row()])

    def test_apart(self):
        "all else tells BIDs apart: the neighbours of the letters, accents, lengths"
        for number, pair in enumerate(APART):
            node = self.node("node%d" % number).add(*[plain(bid) for bid in pair])
            self.assertEqual([row[5] for row in node.outbox()], list(pair))
            self.assertIn(b"2 BIDs known", node.right("list"))

    def test_every_byte(self):
        "every pair of bytes is one exactly if the letters A to Z make it one"
        base, sql = sqlite3.connect(":memory:"), "SELECT " + same_bid("?1", "?2")
        for a in range(256):
            ones = [b for b in range(256) if base.execute(sql, (b"x" + bytes([a]), b"X" + bytes([b]))).fetchone()[0]]
            self.assertEqual(ones, sorted({a, *bytes([a]).upper(), *bytes([a]).lower()}))

    def test_own(self):
        "a BID that is made is none that is taken in another spelling"
        node = self.node(options=("--call", "N0DE"))
        node.right("import", "-", input=letter(HEAD + b"X-BID: 2_n0de\r\n"))
        node.right("import", "-", input=letter(HEAD))
        self.assertEqual([row[5] for row in node.outbox()], [b"2_n0de", b"3_N0DE"])


class Came(Kept):
    def test_declined(self):
        "what comes in another spelling than the base has is declined, whether it waits, went, was kept or is known alone"
        node = self.node().add(plain(b"wait_us"), plain(b"Gone_us"))
        node.mark(FORWARDED, "bid = CAST('Gone_us' AS BLOB)")
        self.sends(node, plain(b"kept_t"))
        node.ask("INSERT INTO known (bid) VALUES (?)", b"known_[")
        self.assertEqual(self.signs(node, b"WAIT_US", b"gONE_US", b"KEPT_T", b"KNOWN_[", b"KNOWN_{"), "----+")
        self.assertEqual([row[5] for row in node.outbox() + node.inbox()], [b"wait_us", b"Gone_us", b"kept_t"])

    def test_copy(self):
        "one that comes after its BID has left the list is a copy, which list shows with the spelling that is stored; the first stays as it is"
        node = self.node()
        self.sends(node, plain(b"1_ab", b"first"))
        self.sends(node, plain(b"X", b"another"))
        self.import_others(node)
        self.sends(node, plain(b"1_AB", b"second"))
        self.assertEqual(node.ask("SELECT bid, copy, body FROM inbox WHERE body <> ? ORDER BY number", b"another\r"), [(b"1_ab", 0, b"first\r"), (b"1_AB", 1, b"second\r")])
        self.assertRegex(node.right("list").decode(), r"(?m)^ +3  copy 1 +plain .* 1_AB .*  \(the same BID as 1_ab\)$")
        node.right("export", self.folder / "out")
        for name, text in (("1_ab", b"first"), ("1_AB.copy-1", b"second")):
            self.assertIn(b"\r\n\r\n" + text + b"\r\r\n/EX\r\n", (self.folder / "out" / (name + ".msg")).read_bytes())
        self.assertEqual(self.signs(node, b"1_aB"), "-")  # seen just now
        self.assertEqual(node.ask("SELECT bid FROM known WHERE bid IN (?, ?)", b"1_ab", b"1_AB"), [(b"1_ab",)])

    def test_room(self):
        "a spelling takes no place of the 1,024 from another BID"
        node = self.node()
        self.know_others(node, 1, name="FIRST")
        self.know_others(node, 600, name="twin")
        self.know_others(node, 600, name="TWIN")
        self.assertEqual(self.signs(node, b"first1", b"Twin1", b"other"), "--+")


class Twins(Kept):
    """A base to which they were two."""

    def old(self):
        base = sqlite3.connect(self.folder / "old.base")
        base.executescript(VERSION_2)
        base.close()
        return self.node("old")

    def test_listed(self):
        "a base with twins from before is opened, and they are listed: none is lost or respelled, of the outbox only the first goes"
        base = sqlite3.connect(":memory:")
        base.executescript(VERSION_2)
        rows = {box: base.execute("SELECT number, " + COLUMNS + " FROM " + box + " ORDER BY number").fetchall() for box in ("outbox", "inbox")}
        node = self.old()
        code, out, err = node.run("list")
        self.says_why((code, err), DONE, "held, since another has their BID but for the case of letters: 2")
        self.assertEqual({box: node.ask("SELECT number, " + COLUMNS + " FROM " + box + " ORDER BY number") for box in rows}, rows)
        for bid, state, of in (("12_AB", "held", "12_ab"), ("12_Ab", "held", "12_ab"), ("8_US", "copy 1", "8_us"), ("7_T", "copy 1", "7_t")):
            self.assertRegex(out.decode(), r"(?m)^ +\d+  %s +(- +)?plain .* %s .*  \(the same BID as %s\)$" % (state, bid, of))
        self.assertEqual(out.count(b"the same BID"), 4)
        self.assertIn(b"8 BIDs known", out)
        self.assertNotIn("held, since", node.run("list")[2])  # once
        node.right("export", self.folder / "out")
        self.assertEqual(sorted(path.name for path in (self.folder / "out").iterdir()), ["7_T.copy-1.msg", "7_t.msg", "8_US.copy-1.msg", "9_X.msg"])

    def test_session(self):
        "a session on such a base proposes the first, knows each BID in every spelling, and a copy that comes again is no trouble"
        node = self.old()
        node.right("dismiss", "F0ABC")  # so that it is clear whom a session is with
        partner = node.stdio()
        partner.hears(GREETING)
        partner.says(b"[TST-1-F$]\r" + b"".join(plain(bid).proposal() for bid in (b"12_aB", b"7_T", b"8_Us", b"9_x", b"14_\xc8")) + b"F>\r")
        partner.hears(b"FS ----+\r")
        partner.says(plain(b"14_\xc8").transfer())
        while not partner.early.endswith(b"F>\r"):
            partner.early += partner.read()
        proposed = [line.split()[5] for line in partner.early.split(b"\r") if line[:2] == b"FB"]
        partner.process.kill()
        partner.rest()
        self.assertEqual(set(proposed), {b"12_ab", b"13_[x", b"13_{x", b"14_\xe9", b"14_\xc9"} & set(proposed))
        self.assertEqual(node.states(), {b"12_ab": WAITING, b"12_AB": HELD, b"12_Ab": HELD, **{bid: WAITING for bid in (b"13_[x", b"13_{x", b"14_\xe9", b"14_\xc9", b"8_us")}})
        node.ask("DELETE FROM known WHERE bid NOT IN (?, ?)", b"7_t", b"7_T")
        node.ask("UPDATE inbox SET session = NULL")
        self.import_others(node)
        self.sends(node, plain(b"7_T", b"again"))
        self.assertEqual(node.ask("SELECT copy FROM inbox WHERE body = ?", b"again\r"), [(2,)])

    def test_released(self):
        "a twin that an operator releases is held again while the first waits, with a sentence, and nothing else is stopped"
        node = self.old()
        node.right("dismiss", "F0ABC")
        node.right("release", "12_AB", "12_Ab")  # the last was deferred before the first
        partner = node.stdio()
        partner.hears(GREETING)
        partner.hang_up()
        self.says_why(partner.ends(), LINK_DROPPED, "BID 12_AB, is held: another message of the outbox has this BID", "BID 12_Ab, is held")
        self.assertEqual([node.states()[bid] for bid in (b"12_ab", b"12_AB", b"12_Ab")], [WAITING, HELD, HELD])
        node.mark(FORWARDED, "bid = CAST('12_ab' AS BLOB)")
        node.right("release", "12_AB")
        partner = node.stdio()
        partner.hears(GREETING)
        partner.hang_up()
        self.assertNotIn("is held", partner.ends()[1])

    def test_index(self):
        "each box and the known BIDs have an index that serves the rule"
        node = self.old()
        node.right("list")
        for table in ("outbox", "inbox", "known"):
            plan = node.ask("EXPLAIN QUERY PLAN SELECT 1 FROM " + table + " WHERE " + same_bid("bid", "?"), b"1_A")
            self.assertIn("USING INDEX %s_bid" % table, plan[0][3])
