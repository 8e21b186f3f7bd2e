"""The front panel: what waits for a session's partner, and what became of what was proposed; while a session runs, at its end, in its row, in list."""
import contextlib
import pty

from node import *

SID, FRAMED_SID, LEVEL_1 = b"[TST-1-F$]\r", b"[TST-1-BF$]\r", b"[TST-1-B1F$]\r"
SEVEN = "waiting, waiting_bytes, proposed, forwarded, declined, deferred, unsettled"


def plain(bid, size=None, **more):
    return Message(bid, b"text\r", form="plain", size=size, **more)


def panels(said):
    """All that was shown: waiting, bytes, proposed, forwarded, declined, deferred, not settled."""
    words = r"panel: (\d+) waiting, (\d+) bytes; (\d+) proposed: (\d+) forwarded, (\d+) declined, (\d+) deferred, (\d+) not settled\r?\n"
    return [tuple(map(int, numbers)) for numbers in re.findall(words, said)]


class Panels(Folder):
    def three(self, name="node"):
        """10, 20 and 30 bytes, as announced, wait for F0SOU."""
        self.ours = [plain(b"%d_US" % n, 10 * n) for n in (1, 2, 3)]
        return self.node(name, options=("--partner", "F0SOU")).add(*self.ours)

    def proposed(self, partner, *ours, sid=SID):
        """Ours are proposed to a caller."""
        partner.hears(GREETING)
        partner.says(sid + b"FF\r")
        partner.hears(b"".join(m.proposal() for m in ours or self.ours) + b"F>\r")
        return partner

    def quits(self, partner):
        partner.says(b"FF\r")
        partner.hears(b"FQ\r")
        answer = partner.ends()
        self.says_why(answer, DONE)
        return answer[1]

    def row(self, node):
        """Of the last session."""
        return node.ask("SELECT " + SEVEN + " FROM session ORDER BY number DESC LIMIT 1")[0]

    def listed(self, node):
        """Waiting messages and their bytes, by list; where there are several partners by callsign."""
        found = re.findall(r"(?m)^(\d+) waiting(?: for (\w+))?, (\d+) bytes$", node.right("list").decode())
        numbers = {call: (int(count), int(size)) for count, call, size in found}
        return numbers.get("", numbers)


class Shown(Panels):
    def exchange(self, *options):
        """One is declined, one accepted, one deferred."""
        partner = self.proposed(self.three().stdio(*options))
        partner.says(b"FS -+=\r")
        partner.hears(self.ours[1].transfer())
        return self.quits(partner)

    CHANGES = [(3, 60, 0, 0, 0, 0, 0), (3, 60, 3, 0, 0, 0, 3), (2, 50, 3, 0, 1, 1, 1), (1, 30, 3, 1, 1, 1, 0)]

    def test_changes(self):
        "with --panel each change is a line, and what stands at the end is said again"
        self.assertEqual(panels(self.exchange("--panel")), self.CHANGES + self.CHANGES[-1:])

    def test_end(self):
        "where nobody watches the panel is shown at the end alone"
        self.assertEqual(panels(self.exchange()), self.CHANGES[-1:])

    def test_bytes(self):
        "bytes that change none of the numbers show nothing, one at a time or at once"
        node = self.three()
        partner = node.stdio("--panel")
        partner.hears(GREETING)
        for byte in SID + b"; hello\rFF\r":
            partner.says(bytes([byte]))
        partner.hears(b"".join(m.proposal() for m in self.ours) + b"F>\r")
        partner.says(b"FS +++\r")
        partner.hears(b"".join(m.transfer() for m in self.ours))
        theirs = plain(b"1_T")
        for byte in theirs.proposal() + b"F>\r":
            partner.says(bytes([byte]))
        partner.hears(b"FS +\r")
        partner.says(theirs.transfer())
        partner.hears(b"FF\r")
        partner.says(b"FQ\r")
        code, err = partner.ends()
        self.says_why((code, err), DONE)
        self.assertEqual(panels(err), [(3, 60, 0, 0, 0, 0, 0), (3, 60, 3, 0, 0, 0, 3), (0, 0, 3, 3, 0, 0, 0), (0, 0, 3, 3, 0, 0, 0)])

    def terminal(self, *options):
        """All that a terminal shows as standard error."""
        node = self.three("node%d" % len(options))
        master, slave = pty.openpty()
        process = subprocess.Popen([node.program, node.path, "stdio", *options], stdin=subprocess.PIPE, stdout=subprocess.PIPE, stderr=slave)
        Node.started.append(process)
        os.close(slave)
        partner = self.proposed(Partner.of_process(process))
        partner.says(b"FS -+=\r")
        partner.hears(self.ours[1].transfer())
        partner.says(b"FF\r")
        partner.hears(b"FQ\r")
        process.stdin.close()
        self.assertEqual(process.wait(PATIENCE), DONE)
        process.stdout.close()
        said = b""
        with contextlib.suppress(OSError):  # the other side is closed
            while True:
                said += os.read(master, 4096)
        os.close(master)
        return said.decode()

    def test_terminal(self):
        "a terminal shows it without being asked, unless it shows the transcript"
        self.assertEqual(panels(self.terminal()), self.CHANGES + self.CHANGES[-1:])
        self.assertEqual(panels(self.terminal("--transcript")), self.CHANGES[-1:])

    def test_transcript(self):
        "asked for beside a transcript, it stands on lines of its own"
        err = self.exchange("--panel", "--transcript")
        self.assertEqual(panels(err), self.CHANGES + self.CHANGES[-1:])
        for line in err.splitlines():
            self.assertTrue("panel:" not in line or line.startswith("fringemole: panel: "), line)

    def test_log(self):
        "with --log it stands there"
        log = self.folder / "log"
        self.assertEqual(self.exchange("--panel", "--log", str(log)), "")
        self.assertEqual(panels(log.read_text()), self.CHANGES + self.CHANGES[-1:])


class Rows(Panels):
    def test_row(self):
        "the session's row has the seven numbers, sessions shows them, and list the two of what waits"
        node = self.three()
        partner = self.proposed(node.stdio())
        partner.says(b"FS -+=\r")
        partner.hears(self.ours[1].transfer())
        shown, = panels(self.quits(partner))
        self.assertEqual((shown, self.row(node), self.listed(node)), ((1, 30, 3, 1, 1, 1, 0),) * 2 + ((1, 30),))
        head, row = node.right("sessions").decode().splitlines()
        self.assertEqual(panel_columns(head, row), ["3", "1", "1", "1", "0", "1", "30"])

    def ended(self, node, partner, code, numbers):
        """However it ended, panel, row and list tell the same."""
        answer = partner.ends()
        self.says_why(answer, code)
        self.assertEqual((panels(answer[1]), self.row(node), self.listed(node)), ([numbers], numbers, numbers[:2]))

    def test_dropped(self):
        "the link drops: before the FS line, inside a transfer, after it"
        whole = b"".join(m.transfer() for m in (plain(b"1_US"), plain(b"2_US")))
        for name, fs, taken, numbers in (("asked", b"", b"", (3, 60, 3, 0, 0, 0, 3)), ("sending", b"FS ++-\r", whole[:9], (2, 30, 3, 0, 1, 0, 2)), ("sent", b"FS ++=\r", whole, (3, 60, 3, 0, 0, 1, 2))):
            with self.subTest(name):
                node = self.three(name)
                left = len(GREETING + SID + b"FF\r" + b"".join(m.proposal() for m in self.ours) + b"F>\r" + fs) + len(taken)
                partner = self.proposed(node.stdio("--drop-after", str(left)))
                if fs:
                    partner.says(fs)
                    partner.hears(taken)
                partner.hears_end()
                self.ended(node, partner, LINK_DROPPED, numbers)

    def test_refused(self):
        "after a refusal the numbers are those before the refused byte; what 11 drops stays proposed and not settled"
        block = plain(b"1_T").proposal()
        for name, before, said, numbers in (("eleven", b"", b"", (3, 60, 3, 0, 0, 0, 3)), ("seven", b"", b"FS ++\r", (3, 60, 3, 0, 0, 0, 3)),
                                            ("five", b"FS +-=\r", block + b"FF\r", (2, 40, 3, 0, 1, 1, 1)), ("thirteen", b"FS +-=\r", block + b"F> 00\r", (2, 40, 3, 0, 1, 1, 1))):
            with self.subTest(name):
                node = self.three(name)
                partner = node.stdio()
                if name == "eleven":
                    partner.hears(GREETING)
                    partner.says(SID + b"FF\rX")
                else:
                    self.proposed(partner)
                    partner.says(before)
                    partner.hears(self.ours[0].transfer() if before else b"")
                    partner.says(said)
                    partner.hears(PROTOCOL_ERROR)
                self.ended(node, partner, REFUSED, numbers)

    def test_killed(self):
        "a session that was killed has none of them"
        node = self.three()
        partner = self.proposed(node.stdio())
        partner.process.kill()
        partner.rest()
        self.assertEqual(self.row(node), (None,) * 7)
        self.assertEqual(panel_columns(*node.right("sessions").decode().splitlines()), [""] * 7)
        self.assertEqual(self.listed(node), (3, 60))


class Agreed(Panels):
    def first_panel(self, node, sid, *options):
        """What an accepted open left, once the partner's SID is heard, and what list said before."""
        before = self.listed(node)
        partner = node.stdio("--panel", *options)
        partner.hears(GREETING)
        partner.says(sid)
        partner.hang_up()
        code, err = partner.ends()
        self.says_why((code, err), LINK_DROPPED)
        return before, panels(err)[-1][:2]

    def test_levels(self):
        "of packed texts list tells the sizes that the partner's level announces, but for those that were set"
        packed = [Message(b"1_US", b"x" * 100), Message(b"2_US", b"y" * 200).checked(), Message(b"3_US", b"z" * 300, size=5000), plain(b"4_US")]
        node = self.node(options=("--partner", "F0SOU")).add(*packed)
        self.assertEqual(self.first_panel(node, LEVEL_1), ((4, 102 + 202 + 5000 + 5),) * 2)
        self.assertEqual(self.first_panel(node, FRAMED_SID), ((4, 102 + 202 + 5000 + 5), (4, 100 + 200 + 5000 + 5)))
        self.assertEqual(self.first_panel(node, FRAMED_SID), ((4, 100 + 200 + 5000 + 5),) * 2)
        self.assertEqual(self.listed(node), (4, 100 + 200 + 5000 + 5))

    def test_anew(self):
        "a session that is begun anew for the partner's level shows what is lent then"
        packed = Message(b"1_US", b"x" * 100)
        node = self.node().add(packed)
        partner = self.proposed(node.stdio("--panel"), packed, sid=FRAMED_SID)
        partner.says(b"FS +\r")
        partner.hears(packed.transfer())
        self.assertEqual(panels(self.quits(partner)), [(1, 102, 0, 0, 0, 0, 0), (1, 100, 1, 0, 0, 0, 1), (0, 0, 1, 1, 0, 0, 0), (0, 0, 1, 1, 0, 0, 0)])

    def test_held(self):
        "what is held waits for nobody: neither counts it"
        node = self.three()
        node.right("import", "-", input=b"X-BBS-Hold: yes\r\n" + plain(b"4_US", 400).file())
        self.assertEqual(self.first_panel(node, SID), ((3, 60),) * 2)
        node.right("release", "4_US")
        self.assertEqual(self.first_panel(node, SID), ((4, 460),) * 2)

    def test_more(self):
        "of more than 64 a session counts those that it was lent, list all of them"
        node = self.node().add(*(plain(b"%d_US" % n, n) for n in range(70)))
        self.assertEqual(self.first_panel(node, SID), ((70, sum(range(70))), (64, sum(range(64)))))
        self.assertEqual(self.row(node)[:3], (64, sum(range(64)), 0))

    def test_partners(self):
        "each of several partners has its own numbers"
        node = self.node(options=("--partner", "F0AAA"))
        node.right("admit", "F0BBB")
        self.ours = [plain(b"1_US", 10, kind=b"B"), plain(b"2_US", 20, kind=b"B")]
        node.add(*self.ours, plain(b"3_US", 30))
        self.assertEqual(self.listed(node), {"F0AAA": (3, 60), "F0BBB": (2, 30)})
        partner = self.proposed(node.stdio("--partner", "F0BBB"))
        partner.says(b"FS -+\r")
        partner.hears(self.ours[1].transfer())
        self.assertEqual(panels(self.quits(partner)), [(0, 0, 2, 1, 1, 0, 0)])
        self.assertEqual(self.listed(node), {"F0AAA": (3, 60), "F0BBB": (0, 0)})
        self.ours.append(plain(b"3_US", 30))
        partner = self.proposed(node.stdio("--partner", "F0AAA"))
        partner.says(b"FS =+-\r")
        partner.hears(self.ours[1].transfer())
        self.assertEqual(panels(self.quits(partner)), [(1, 10, 3, 1, 1, 1, 0)])
        self.assertEqual(self.listed(node), {"F0AAA": (1, 10), "F0BBB": (0, 0)})
        self.assertEqual(node.ask("SELECT partner, " + SEVEN + " FROM session ORDER BY number"), [(b"F0BBB", 0, 0, 2, 1, 1, 0, 0), (b"F0AAA", 1, 10, 3, 1, 1, 1, 0)])
        self.assertRegex(node.right("partners").decode(), r"(?m)^F0AAA .* 0, 1 waiting, 10 bytes$")
