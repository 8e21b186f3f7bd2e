"""Bases of older versions: each becomes one of today at once and whole, whatever command opens it first."""
from node import *

VERSION_1 = (ROOT / "tests" / "host" / "version1.sql").read_text()
VERSION_2 = (ROOT / "tests" / "host" / "version2.sql").read_text()
VERSION_3 = (ROOT / "tests" / "host" / "version3.sql").read_text()
VERSION_6 = (ROOT / "tests" / "host" / "version6.sql").read_text()
TODAY = 7


def shape(node):
    """Every table and index, without regard for how its SQL is spelled."""
    tables = [name for name, in node.ask("SELECT name FROM sqlite_master WHERE type = 'table' ORDER BY name")]
    return {name: (node.ask("SELECT name, type, \"notnull\", dflt_value, pk FROM pragma_table_info(?)", name),
                   sorted(node.ask("SELECT name, \"unique\", partial FROM pragma_index_list(?)", name))) for name in tables}


class Lifted(Folder):
    def old(self, name="old", dump=VERSION_1):
        path = self.folder / (name + ".base")
        base = sqlite3.connect(path)
        base.executescript(dump)
        base.close()
        return self.node(name)

    def old_rows(self):
        base = sqlite3.connect(":memory:")
        base.executescript(VERSION_1)
        return {box: base.execute("SELECT number, " + COLUMNS + " FROM " + box + " ORDER BY number").fetchall() for box in ("outbox", "inbox")}

    def holds(self, node):
        """Nothing is lost or changed, and the new columns say what can be told."""
        for box, rows in self.old_rows().items():
            self.assertEqual(node.ask("SELECT number, " + COLUMNS + " FROM " + box + " ORDER BY number"), rows)
        self.assertEqual(node.states(), {b"1_US": FORWARDED, b"2_US": DECLINED, b"3_US": WAITING, b"4_US": WAITING, b"5_US": HELD})
        self.assertEqual(node.ask("SELECT bid, copy FROM inbox ORDER BY number"), [(b"1_T", 0), (b"2_T", 0), (b"1_T", 1), (b"1_US", 1)])
        self.assertEqual(node.ask("SELECT DISTINCT came, partner, session FROM inbox"), [(None, b"F0SOU", 0)])
        self.assertEqual(node.ask("SELECT DISTINCT came FROM outbox"), [(None,)])
        self.assertEqual(node.ask("SELECT DISTINCT call, went, session, deferred FROM passage"), [(b"F0SOU", None, None, 0)])
        self.assertEqual(node.ask("SELECT place, call FROM forward"), [(0, b"F0SOU")])
        self.assertEqual(node.ask("SELECT bid, type FROM known ORDER BY number"),
                         [(b"2_US", "P"), (b"3_US", "B"), (b"4_US", "P"), (b"5_US", "P"), (b"2_T", "B"), (b"1_T", "P"), (b"1_US", "P")])
        self.assertEqual(node.ask("SELECT call, partner FROM station"), [(b"N0DE", b"F0SOU")])
        self.assertEqual(node.ask("SELECT call, password, seen FROM partner"), [(b"F0SOU", None, None)])
        self.assertEqual(node.ask("PRAGMA user_version"), [(TODAY,)])
        self.assertEqual(node.ask("PRAGMA integrity_check"), [("ok",)])

    def test_each_command(self):
        "a base of version 1 is lifted by the command that opens it first, with nothing lost"
        for number, words in enumerate([("list",), ("export", self.folder / "out"), ("import", "/dev/null"), ("release", "5_US"), ("stdio",)]):
            with self.subTest(words):
                node = self.old("old%d" % number)
                node.run(*words)
                if words[0] == "release":
                    node.ask("UPDATE outbox SET state = 3 WHERE bid = ?", b"5_US")
                self.holds(node)

    def test_shape(self):
        "a lifted base has the tables of a new one"
        for number, dump in enumerate((VERSION_1, VERSION_2, VERSION_3, VERSION_6)):
            node = self.old("old%d" % number, dump)
            node.right("list")
            self.assertEqual(shape(node), shape(self.node("new")))

    def test_levels(self):
        "what stood in a base of version 3 is of level 0, and goes to a partner at level 1 with its check"
        node = self.old(dump=VERSION_3)
        node.right("list")
        self.assertEqual(node.ask("SELECT bid, level FROM outbox UNION ALL SELECT bid, level FROM inbox"),
                         [(b"1_US", 0), (b"2_US", 0), (b"3_US", 0), (b"4_US", 0), (b"1_T", 0)])
        self.assertEqual(node.ask("SELECT level FROM session"), [(None,)])
        ours = [Message(b"2_US", b"file", form="file", name=b"A.BIN", title=b"").checked(), Message(b"4_US", b"four", size=4000).checked()]
        partner = node.stdio()
        partner.hears(GREETING)
        partner.says(b"[TST-1-B1F$]\rFF\r")
        partner.hears(b"".join(m.proposal() for m in ours) + b"F>\r")
        partner.says(b"FS YY\r")
        partner.hears(b"".join(m.transfer() for m in ours))
        partner.process.kill()
        partner.rest()

    def test_panel(self):
        "a session of version 6 keeps its numbers; what nobody noted then is NULL, and blank in sessions"
        node = self.old(dump=VERSION_6)
        head, killed, first = node.right("sessions").decode().splitlines()
        self.assertEqual(node.ask("SELECT proposed, forwarded, declined, deferred, unsettled, waiting, waiting_bytes FROM session ORDER BY number"),
                         [(None, 2, 1, 1, None, None, None), (None,) * 7])
        self.assertEqual(panel_columns(head, first), ["", "2", "1", "1", "", "", ""])
        self.assertEqual(panel_columns(head, killed), [""] * 7)
        self.assertRegex(node.right("list").decode(), r"(?m)^2 waiting for F0SOU, 306 bytes\n2 waiting for F0NOR, 10 bytes$")

    def test_whole(self):
        "a step that fails leaves the base as it was"
        node = self.old()
        node.ask("CREATE TABLE session (mine)")
        before = list(sqlite3.connect(node.path).iterdump())
        self.says_why(node.run("list"), BAD_BASE, "session already exists")
        self.assertEqual(node.ask("PRAGMA user_version"), [(1,)])
        self.assertEqual(list(sqlite3.connect(node.path).iterdump()), before)

    def test_just_came(self):
        "what came last before is known in the next session, whatever else is"
        node = self.old()
        node.right("list")
        node.ask("WITH n(i) AS (SELECT 1 UNION ALL SELECT i + 1 FROM n WHERE i < 1100) INSERT INTO known (bid, seen) SELECT CAST(i AS BLOB), 1 FROM n")
        self.known(node, (b"1_T", b"2_T", b"1_US", b"2_US"), b"FS ---+\r")

    def test_goes_on(self):
        "a session on a lifted base: what was known is known"
        self.known(self.old(), (b"1_T", b"2_T", b"1_US", b"5_US", b"3_T"), b"FS ----+\r")

    def known(self, node, bids, signs):
        partner = node.stdio()
        partner.hears(GREETING)
        partner.says(b"[TST-1-F$]\r" + b"".join(Message(bid, form="plain").proposal() for bid in bids) + b"F>\r")
        partner.hears(signs)
        partner.process.kill()
        partner.rest()
