"""Eight partners, one base: a state a partner, which messages are for whom, and what comes in goes on."""
from node import *

CALLS = [b"F0AAA", b"F0BBB", b"F0CCC", b"F0DDD", b"F0EEE", b"F0FFF", b"F0GGG", b"F0HHH"]
THREE = CALLS[:3]
SID = b"[TST-1-F$]\r"


def bulletin(bid, **more):
    return Message(bid, form="plain", kind=b"B", **more)


def private(bid, **more):
    return Message(bid, form="plain", kind=b"P", **more)


class Club(Folder):
    def club(self, calls=THREE, name="node"):
        node = self.node(name, options=("--call", "N0DE"))
        for call in calls:
            node.right("admit", call.decode())
        return node

    def proposed(self, node, call, signs=None):
        """What a session offers a partner of what waits for it; the answer, if there is one to give, comes in whole."""
        partner = node.stdio("--partner", call.decode())
        partner.hears(GREETING)
        partner.says(SID + b"FF\r")
        while not partner.early.endswith((b"F>\r", b"FQ\r")):
            partner.early += partner.read()
        bids = [line.split()[5] for line in partner.early.split(b"\r") if line[:2] in (b"FA", b"FB")]
        if signs:
            partner.early = b""
            partner.says(b"FS " + signs + b"\r")
            if b"+" in signs:
                partner.read()
            partner.says(b"FF\r")
            partner.read()
        partner.process.kill()
        partner.rest()
        return bids

    def brings(self, node, call, *messages):
        """A partner's session that brings messages, which are all taken."""
        partner = node.stdio("--partner", call.decode())
        partner.hears(GREETING)
        partner.says(SID + b"".join(message.proposal() for message in messages) + b"F>\r")
        partner.hears(b"FS " + b"+" * len(messages) + b"\r")
        partner.says(b"".join(message.transfer() for message in messages))
        partner.read()
        partner.process.kill()
        partner.rest()

    def waits_for(self, node, bid):
        return {call for call, in node.ask("SELECT passage.call FROM passage JOIN outbox USING (number) WHERE bid = ? AND passage.state = 0", bid)}


class Places(Club):
    def test_one(self):
        "a base with one partner, or with nobody, is as it was: all is for whoever it is, and list has one state"
        node = self.node().add(private(b"1_A"), bulletin(b"2_A"))
        self.assertEqual(node.ask("SELECT place, call FROM forward"), [(0, b"")])
        self.assertEqual(node.states(), {b"1_A": WAITING, b"2_A": WAITING})
        self.assertRegex(node.right("list").decode(), r"(?m)^   no  state      form")
        node.right("admit", "F0AAA")  # who comes first has what waited for nobody
        self.assertEqual(node.ask("SELECT place, call FROM forward"), [(0, b"F0AAA")])
        self.assertEqual(node.states_of(b"F0AAA"), {b"1_A": WAITING, b"2_A": WAITING})
        partner = node.stdio()
        partner.hears(GREETING)
        partner.hang_up()
        partner.ends()
        self.assertEqual(node.ask("SELECT partner FROM session"), [(b"F0AAA",)])

    def test_places(self):
        "each partner has a place, 0 to 7; a ninth is refused with a sentence, and a place that is free is given again"
        node = self.club(CALLS)
        self.assertEqual(node.ask("SELECT place, call FROM forward ORDER BY place"), list(enumerate(CALLS)))
        self.says_why(node.run("admit", "F0III"), BAD_BASE, "8 partners already", "no place for F0III", "dismiss")
        self.assertEqual(node.ask("SELECT count(*) FROM partner"), [(8,)])
        self.says_why(node.run("stdio", "--partner", "F0III"), BAD_BASE, "no place for F0III")
        node.right("dismiss", "F0CCC")
        node.right("admit", "F0III")
        self.assertEqual(node.ask("SELECT place FROM forward WHERE call = ?", b"F0III"), [(2,)])
        self.assertRegex(node.right("partners").decode(), r"(?m)^F0III   no        never             2, 0 waiting, 0 bytes$")

    def test_who(self):
        "with several partners a session must know whom it is with; a callsign that is none is no partner"
        node = self.club()
        for words in (("stdio",), ("call", "127.0.0.1:%d" % free_port()), ("listen", "0"), ("serial", "/dev/null", "9600")):
            self.says_why(node.run(*words), BAD_USAGE, "3 partners", "--partner")
        self.says_why(node.run("stdio", "--partner", "NOCALL"), BAD_USAGE, "no callsign")
        self.assertEqual(node.ask("SELECT count(*) FROM session"), [(0,)])

    def test_dismissed(self):
        "of a partner that is dismissed what waited goes by the rule, and what it has is remembered if it comes again"
        node = self.club().add(bulletin(b"1_A"), bulletin(b"2_A"))
        node.right("route", "FRA.EU", "F0BBB")
        node.add(private(b"3_A", at=b"F6X.FRA.EU"))
        self.assertEqual(self.proposed(node, b"F0BBB", b"-=="), [b"1_A", b"2_A", b"3_A"])
        node.right("dismiss", "F0BBB")
        self.assertEqual(self.waits_for(node, b"3_A"), {b"F0AAA"})
        self.assertNotIn("F0BBB", node.right("routes").decode())
        node.right("admit", "F0BBB")
        self.assertEqual(node.states_of(b"F0BBB"), {b"1_A": DECLINED})
        for call in ("F0AAA", "F0CCC", "F0BBB"):
            node.right("dismiss", call)
        self.assertEqual(node.ask("SELECT call FROM forward"), [(b"",)])
        self.assertEqual(self.waits_for(node, b"3_A"), {b""})
        self.says_why(node.run("dismiss", "F0BBB"), BAD_USAGE, "no such partner")

    def test_lifted(self):
        "a base of one partner is lifted: what was marked is marked for each, bulletins wait for all, private mail for the base's own"
        base = sqlite3.connect(self.folder / "old.base")
        base.executescript((ROOT / "tests" / "host" / "version3.sql").read_text())
        base.execute("INSERT OR IGNORE INTO partner (call) VALUES (?)", (b"F0AAA",))
        base.commit()
        before = base.execute("SELECT bid, type, state FROM outbox").fetchall()
        own, = base.execute("SELECT partner FROM station").fetchone()
        base.close()
        node = Node(self.folder, "old")
        node.right("list")
        self.assertEqual(node.ask("SELECT call FROM forward WHERE place = 0"), [(own,)])
        for bid, kind, state in before:
            passages = dict(node.ask("SELECT call, passage.state FROM passage JOIN outbox USING (number) WHERE bid = ?", bid))
            self.assertEqual(passages.pop(own), state % 3)
            self.assertEqual(passages, {b"F0AAA": state % 3} if kind == "B" or state in (1, 2) else {})


class Rule(Club):
    def test_rule(self):
        "bulletins are for all; private mail for whose route fits its at-field best, or for the first"
        node = self.club()
        for route, call in (("EU", "F0BBB"), ("fra.eu", "F0CCC"), ("F6KKK", "F0AAA")):
            node.right("route", route, call)
        cases = {b"1_A": (b"X.Y.EU", b"F0BBB"), b"2_A": (b"X.FRA.EU", b"F0CCC"), b"3_A": (b"f6kkk.fra.eu", b"F0CCC"), b"4_A": (b"W1AW.USA", b"F0AAA"),
                 b"5_A": (b"XFRA.EU", b"F0BBB"), b"6_A": (b"EUX", b"F0AAA"), b"7_A": (b"EU", b"F0BBB"), b"8_A": (b"F6KKK", b"F0AAA")}
        node.add(*(private(bid, at=at) for bid, (at, _) in cases.items()), bulletin(b"9_A"))
        for bid, (at, call) in cases.items():
            self.assertEqual((at, self.waits_for(node, bid)), (at, {call}))
        self.assertEqual(self.waits_for(node, b"9_A"), set(THREE))
        node.right("route", "*", "F0BBB")
        node.add(private(b"10_A", at=b"W1AW.USA"))
        self.assertEqual(self.waits_for(node, b"10_A"), {b"F0BBB"})
        shown = node.right("routes").decode().splitlines()
        self.assertEqual([line.split() for line in shown[1:5]], [["FRA.EU", "F0CCC"], ["F6KKK", "F0AAA"], ["EU", "F0BBB"], ["*", "F0BBB"]])
        node.right("route", "EU")
        self.says_why(node.run("route", "EU"), BAD_USAGE, "no such route")
        self.says_why(node.run("route", "EU", "F0XYZ"), BAD_USAGE, "no partner")
        self.says_why(node.run("route", "TOOLONG.EU", "F0AAA"), BAD_USAGE, "no route")
        self.says_why(node.run("route", "EU", "NOCALL"), BAD_USAGE, "no callsign")

    def test_for(self):
        "import --for and forward set the rule aside; whom they name is a partner, or nothing is changed"
        node = self.club()
        node.right("import", "-", "--for", "f0bbb-3, F0CCC", input=bulletin(b"1_A").file() + private(b"2_A").file())
        self.assertEqual((self.waits_for(node, b"1_A"), self.waits_for(node, b"2_A")), ({b"F0BBB", b"F0CCC"},) * 2)
        self.says_why(node.run("import", "-", "--for", "F0XYZ", input=bulletin(b"3_A").file()), BAD_USAGE, "F0XYZ is no partner")
        self.assertEqual(list(node.states_of(b"F0BBB")), [b"1_A", b"2_A"])
        node.right("forward", "2_a", "--for", "F0AAA")
        self.assertEqual(self.waits_for(node, b"2_A"), {b"F0AAA"})
        self.says_why(node.run("forward", "1_A", "9_A", "--for", "F0AAA"), BAD_USAGE, "9_A: no message")
        self.says_why(node.run("forward", "1_A"), BAD_USAGE, "--for")
        self.assertEqual(self.waits_for(node, b"1_A"), {b"F0BBB", b"F0CCC"})

    def test_has_it(self):
        "who has a message by X-Forwarded-To isn't offered it, the others are; export tells who has it"
        node = self.club()
        node.right("import", "-", input=b"X-Forwarded-To: F0BBB, W1AW\r\n" + bulletin(b"1_A").file() + b"X-Forwarded-To: f0ccc\r\n" + private(b"2_A").file())
        self.assertEqual((self.waits_for(node, b"1_A"), self.waits_for(node, b"2_A")), ({b"F0AAA", b"F0CCC"}, set()))
        node.right("export", "--outbox", self.folder / "out")
        self.assertIn(b"\r\nX-Forwarded-To: F0BBB\r\n", (self.folder / "out" / "1_A.msg").read_bytes())
        self.assertIn(b"\r\nX-Forwarded-To: F0CCC\r\n", (self.folder / "out" / "2_A.msg").read_bytes())


class Columns(Club):
    def test_marks(self):
        "a bulletin for three is forwarded to one, declined by another and waits for the third; list shows a state a partner"
        node = self.club().add(bulletin(b"1_A"), bulletin(b"2_A"))
        self.assertEqual(self.proposed(node, b"F0AAA", b"+="), [b"1_A", b"2_A"])
        self.assertEqual(self.proposed(node, b"F0BBB", b"-="), [b"1_A", b"2_A"])
        self.assertEqual([node.states_of(call) for call in THREE],
                         [{b"1_A": state, b"2_A": WAITING} for state in (FORWARDED, DECLINED, WAITING)])
        self.assertEqual([self.proposed(node, call) for call in THREE], [[b"2_A"], [b"2_A"], [b"1_A", b"2_A"]])
        listed = node.right("list").decode()
        self.assertRegex(listed, r"(?m)^   no  F0AAA      F0BBB      F0CCC      form")
        self.assertRegex(listed, r"(?m)^    1  forwarded  declined   waiting    plain   B .* 1_A ")

    def test_others(self):
        "what is for another partner isn't offered, and its BID is declined as the request says; so is one beyond a table"
        node = self.club()
        node.right("import", "-", "--for", "F0CCC", input=b"".join(bulletin(b"%d_A" % n).file() for n in range(70)))
        node.ask("WITH n(i) AS (SELECT 1 UNION ALL SELECT i + 1 FROM n WHERE i < 1100) INSERT INTO known (bid, seen) SELECT CAST(i AS BLOB), 1 FROM n")
        partner = node.stdio("--partner", "F0AAA")
        partner.hears(GREETING)
        partner.says(SID + b"".join(bulletin(bid).proposal() for bid in (b"0_a", b"69_A", b"70_A")) + b"F>\r")
        partner.hears(b"FS --+\r")
        partner.process.kill()
        partner.rest()
        self.assertEqual(self.proposed(node, b"F0AAA"), [])
        self.assertEqual(len(node.ask("SELECT 1 FROM passage WHERE state = 0")), 70)

    def test_held(self):
        "a held message waits for nobody until it is released; a deferred one stands behind the others for who deferred it alone"
        node = self.club(THREE[:2]).add(bulletin(b"1_A"), bulletin(b"2_A"))
        node.right("import", "-", input=b"X-BBS-Hold: yes\r\n" + bulletin(b"3_A").file())
        self.assertRegex(node.right("list").decode(), r"(?m)^    3  held       held       plain")
        self.assertEqual(self.said(node, b"F0AAA", b"=-"), [b"1_A", b"2_A"])
        node.add(bulletin(b"4_A"))
        self.assertEqual((self.proposed(node, b"F0AAA"), self.proposed(node, b"F0BBB")), ([b"4_A", b"1_A"], [b"1_A", b"2_A", b"4_A"]))
        node.right("release", "3_A")
        self.assertEqual(self.proposed(node, b"F0BBB"), [b"1_A", b"2_A", b"3_A", b"4_A"])

    def said(self, node, call, signs):
        """A session to its end: the deferred are noted then."""
        partner = node.stdio("--partner", call.decode())
        partner.hears(GREETING)
        partner.says(SID + b"FF\r")
        while not partner.early.endswith(b"F>\r"):
            partner.early += partner.read()
        bids = [line.split()[5] for line in partner.early.split(b"\r") if line[:2] == b"FB"]
        partner.early = b""
        partner.says(b"FS " + signs + b"\rFF\r")
        partner.hears(b"FQ\r")
        self.assertEqual(partner.ends()[0], DONE)
        return bids

    def test_killed(self):
        "killed amid one partner's session, the marks of that partner alone are there"
        node = self.club(THREE[:2]).add(bulletin(b"1_A"), bulletin(b"2_A"))
        self.proposed(node, b"F0BBB", b"-=")
        self.assertEqual((node.states_of(b"F0AAA"), node.states_of(b"F0BBB")), ({b"1_A": WAITING, b"2_A": WAITING}, {b"1_A": DECLINED, b"2_A": WAITING}))


class On(Club):
    def test_on(self):
        "a bulletin that comes in goes on to all but whom it came from, once; private mail only where a route leads it, and not our own"
        node = self.club()
        node.right("route", "USA", "F0CCC")
        ours, far, near = private(b"1_T", at=b"N0DE.USA"), private(b"2_T", at=b"W1AW.USA"), private(b"3_T", at=b"X.FRA.EU")
        news = bulletin(b"4_T", body=b"news\r")
        self.brings(node, b"F0BBB", ours, far, near, news)
        self.assertEqual([self.waits_for(node, message.bid) for message in (ours, far, near, news)], [set(), {b"F0CCC"}, set(), {b"F0AAA", b"F0CCC"}])
        self.assertEqual(node.inbox(), [message.row() for message in (ours, far, near, news)])
        self.assertEqual(node.outbox(), [message.row() for message in (far, news)])
        self.assertEqual(self.proposed(node, b"F0CCC", b"+-"), [b"2_T", b"4_T"])
        self.assertEqual(self.proposed(node, b"F0BBB"), [])

    def test_back(self):
        "what came by a route from where it leads doesn't go back; with one partner nothing goes on"
        node = self.club()
        node.right("route", "USA", "F0CCC")
        self.brings(node, b"F0CCC", private(b"1_T", at=b"W1AW.USA"))
        self.assertEqual(node.outbox(), [])
        one = self.club(THREE[:1], "one")
        self.brings(one, b"F0AAA", bulletin(b"1_T"))
        self.assertEqual(one.outbox(), [])
