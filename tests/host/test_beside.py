"""Working while the radio works: other commands beside a session, bases that can only be read, and what the base tells of a session."""
import contextlib
import signal
import threading

from node import *

PLAIN_SID = b"[TST-1-F$]\r"
NOBODY = 65534


class Beside(Folder):
    def begun(self, node, theirs):
        """A session in which the node awaits this message."""
        partner = node.stdio()
        partner.hears(GREETING)
        partner.says(PLAIN_SID + theirs.proposal() + b"F>\r")
        partner.hears(b"FS +\r")
        return partner

    def ended(self, partner):
        partner.says(b"FQ\r")
        self.says_why(partner.ends(), DONE, "ended by FQ")

    def test_commands(self):
        "list, sessions, export, import and release run beside a session, and what it saves then stands beside what they did"
        ours, theirs = Message(b"1_US", form="plain"), Message(b"1_T", b"theirs\r", form="plain")
        node = self.node().add(ours)
        node.right("import", "-", input=Message(b"2_US", form="plain").file().replace(b"X-BID", b"X-BBS-Hold: y\r\nX-BID"))
        partner = self.begun(node, theirs)
        self.assertIn(b"1_US", node.right("list"))
        self.assertIn(b"not ended", node.right("sessions"))
        node.right("export", self.folder / "out", "--outbox")
        node.right("release", "2_US")
        node.add(Message(b"3_US", form="plain"))
        partner.says(theirs.transfer())
        partner.hears(ours.proposal() + b"F>\r")  # what came since waits for the next session
        partner.says(b"FS -\rFF\r")
        partner.hears(b"FQ\r")
        self.says_why(partner.ends(), DONE, "2 still waiting; 1 kept")
        self.assertEqual((node.states(), node.inbox()), ({b"1_US": DECLINED, b"2_US": WAITING, b"3_US": WAITING}, [theirs.row()]))

    def test_slow_import(self):
        "an import whose file takes its time holds up no session"
        node, theirs = self.node(), Message(b"1_T", b"theirs\r", form="plain")
        slow = node.start("import", "-", stdin=subprocess.PIPE)
        slow.stdin.write(Message(b"1_US").file())
        slow.stdin.flush()
        time.sleep(0.3)
        partner = self.begun(node, theirs)
        partner.says(theirs.transfer())
        partner.hears(b"FF\r")
        self.ended(partner)
        slow.communicate(timeout=PATIENCE)
        self.assertEqual((slow.returncode, node.states(), node.inbox()), (DONE, {b"1_US": WAITING}, [theirs.row()]))

    def test_slow_readers(self):
        "a list that nobody reads on, and somebody who looks at the base for long, hold up no session"
        node, theirs = self.node().add(*[Message(b"%04d" % i, title=b"T" * 80, form="file", name=b"N" * 80) for i in range(1500)]), Message(b"1_T", b"x\r", form="plain")
        stuck = node.start("list")
        begun = os.read(stuck.stdout.fileno(), 1)
        looking = sqlite3.connect(node.path)
        looking.execute("BEGIN")
        looking.execute("SELECT count(*) FROM outbox").fetchall()
        partner = self.begun(node, theirs)
        partner.says(theirs.transfer())
        partner.hears(b"FF\r")
        self.ended(partner)
        self.assertIsNone(stuck.poll())
        looking.close()
        out = begun + stuck.communicate(timeout=PATIENCE)[0]
        self.assertEqual((stuck.returncode, out.count(b"waiting "), b"inbox: empty" in out), (DONE, 1500, True))  # as the base was when it began

    def test_change_under_way(self):
        "a session waits for another's short change, and saves then"
        node, theirs = self.node(), Message(b"1_T", b"x\r", form="plain")
        partner = self.begun(node, theirs)
        changing = sqlite3.connect(node.path, isolation_level=None)
        changing.execute("BEGIN IMMEDIATE")
        partner.says(theirs.transfer())
        self.assertEqual(select.select([partner.process.stdout], [], [], 1)[0], [])  # not saved, so nothing is given
        changing.execute("COMMIT")
        changing.close()
        partner.hears(b"FF\r")
        self.ended(partner)
        self.assertEqual(node.inbox(), [theirs.row()])


class ReadOnly(Folder):
    """As a user who may only read. Root may write everywhere, so then it is another user."""

    def setUp(self):
        super().setUp()
        self.folder.chmod(0o755)
        self.place = self.folder / "place"
        self.place.mkdir()
        self.addCleanup(self.place.chmod, 0o755)
        self.program = self.folder / "fringemole"
        shutil.copy(SANITIZED, self.program)
        (self.folder / "out").mkdir()
        (self.folder / "out").chmod(0o777)

    def protect(self, node, file, folder):
        for path in self.place.iterdir():
            path.chmod(file)
        self.place.chmod(folder)
        node.program = self.program

    def reader(self):
        return {"user": NOBODY, "group": NOBODY, "extra_groups": []} if os.getuid() == 0 else {}

    def run_as_reader(self, node, *words):
        process = node.start(*words, **self.reader())
        out, err = process.communicate(timeout=PATIENCE)
        return process.returncode, out, err.decode()

    def can_be_read(self, node, inbox):
        code, out, err = self.run_as_reader(node, "list")
        self.says_why((code, err), DONE)
        for message in inbox:
            self.assertIn(message.bid, out)
            self.assertIn(b", BID " + message.bid, self.run_as_reader(node, "trace", message.bid)[1])
        out = self.folder / "out" / node.path.name
        self.says_why(self.run_as_reader(node, "export", out), DONE, "%d exported" % len(inbox))
        for message in inbox:
            self.assertIn(message.body, (out / (message.bid.decode() + ".msg")).read_bytes())
        self.says_why(self.run_as_reader(node, "import", "/dev/null"), BAD_BASE, "can only be read")
        self.says_why(self.run_as_reader(node, "stdio"), BAD_BASE, "can only be read")

    def with_mail(self, name):
        node, theirs = Node(self.place, name), Message(b"1_T", b"theirs\r", form="plain")
        partner = node.stdio()
        partner.hears(GREETING)
        partner.says(PLAIN_SID + theirs.proposal() + b"F>\r")
        partner.hears(b"FS +\r")
        partner.says(theirs.transfer())
        partner.hears(b"FF\r")
        return node, theirs, partner

    def test_folder_and_file(self):
        "a base can be listed and exported where its file, its folder or both are write-protected"
        for number, (file, folder) in enumerate([(0o444, 0o555), (0o644, 0o555), (0o444, 0o755)]):
            with self.subTest((oct(file), oct(folder))):
                self.place.chmod(0o755)
                node, theirs, partner = self.with_mail("n?o#d%%e%d" % number)
                partner.says(b"FQ\r")
                self.assertEqual(partner.ends()[0], DONE)
                self.protect(node, file, folder)
                self.can_be_read(node, [theirs])

    def test_after_kill(self):
        "what a killed session saved is seen there too, though it is still in the log beside the base"
        node, theirs, partner = self.with_mail("node")
        partner.process.kill()
        partner.rest()
        self.assertTrue((self.place / "node.base-wal").stat().st_size > 0)
        self.protect(node, 0o444, 0o555)
        self.can_be_read(node, [theirs])

    def test_beside_changes(self):
        "who may only read sees the base whole while others change it, open it and close it"
        if os.getuid():
            self.skipTest("only root can be two users")
        node, made, over = Node(self.place, "node", program=PLAIN), [0], threading.Event()
        node.path.chmod(0o644)

        def change():
            while not over.is_set():
                node.add(Message(b"%d_A" % made[0], b"%d" % made[0] * 3000))
                made[0] += 1
        changing = threading.Thread(target=change)
        changing.start()
        reader = Node(self.place, "node", program=self.program)
        try:
            for _ in range(20):
                self.is_whole(reader, made[0])
        finally:
            over.set()
            changing.join()

    def is_whole(self, reader, least):
        code, out, err = self.run_as_reader(reader, "list")
        self.says_why((code, err), DONE)
        rows = [line.split() for line in out.decode().splitlines() if "waiting " in line]
        self.assertGreaterEqual(len(rows), least)
        for i, row in enumerate(rows):
            self.assertEqual((row[0], row[7], row[8]), (str(i + 1), "%d_A" % i, str(3000 * len(str(i)))))

    def test_changed_meanwhile(self):
        "what a reader saw of a file that changed meanwhile means nothing, a fault neither: it reads again"
        node, theirs, partner = self.with_mail("node")
        partner.says(b"FQ\r")
        self.assertEqual(partner.ends()[0], DONE)
        whole = node.path.read_bytes()
        node.path.write_bytes(whole[:28] + (2 * len(whole) // 4096).to_bytes(4, "big") + whole[32:])  # more pages than there are
        shutil.copy(PLAIN, self.program)
        self.protect(node, 0o444, 0o555)
        reader = node.start("list", env=dict(os.environ, LD_PRELOAD=self.shim("paused")), **self.reader())
        self.assertTrue(os.WIFSTOPPED(os.waitpid(reader.pid, os.WUNTRACED)[1]))
        self.place.chmod(0o755)
        node.path.chmod(0o644)
        node.path.write_bytes(whole)
        self.protect(node, 0o444, 0o555)
        reader.send_signal(signal.SIGCONT)
        out, err = reader.communicate(timeout=PATIENCE)
        self.says_why((reader.returncode, err.decode()), DONE)
        self.assertIn(theirs.bid, out)

    def test_half_done(self):
        "a base in the middle of a change in the old journal's way is no base to read: nothing is shown rather than half of it"
        path = self.place / "half.base"
        base = sqlite3.connect(path, isolation_level=None)
        base.executescript((ROOT / "tests" / "host" / "version1.sql").read_text())
        base.execute("PRAGMA cache_size = 1")
        base.execute("BEGIN IMMEDIATE")
        base.execute("UPDATE inbox SET body = zeroblob(20000)")
        node = Node(self.place, "half")
        for name in ("half.base", "half.base-journal"):
            shutil.copy(self.place / name, self.folder / name)
        base.close()
        for name in ("half.base", "half.base-journal"):
            shutil.copy(self.folder / name, self.place / name)
        self.protect(node, 0o444, 0o555)
        code, out, err = self.run_as_reader(node, "list")
        self.assertEqual((code, out), (BAD_BASE, b""), err)

    def test_old(self):
        "so can a base of version 1, which stays as it is"
        path = self.place / "old.base"
        base = sqlite3.connect(path)
        base.executescript((ROOT / "tests" / "host" / "version1.sql").read_text())
        base.close()
        before = path.read_bytes()
        node = Node(self.place, "old")
        self.protect(node, 0o444, 0o555)
        code, out, err = self.run_as_reader(node, "list")
        self.says_why((code, err), DONE)
        self.assertIn(b"copy 1", out)
        self.says_why(self.run_as_reader(node, "export", self.folder / "out" / "old"), DONE, "4 exported")
        self.assertEqual(path.read_bytes(), before)


class Told(Folder):
    """What the base tells of a session."""

    ROW = "SELECT partner, role, ending, refusal, line, forwarded, declined, deferred, kept, sent, received FROM session ORDER BY number DESC LIMIT 1"

    def row(self, node):
        return node.ask(self.ROW)[0]

    def test_exchange(self):
        "a session's row has start, end, partner, role, how it ended and counts; each message says when it came or went, in which session, with whom"
        ours, theirs = [Message(b"%d_US" % i, form="plain") for i in range(3)], Message(b"1_T", b"theirs\r", form="plain")
        before = int(time.time())
        node = self.node(options=("--partner", "F0SOU")).add(*ours)
        partner = node.stdio()
        partner.hears(GREETING)
        partner.says(PLAIN_SID + theirs.proposal() + b"F>\r")
        partner.hears(b"FS +\r")
        partner.says(theirs.transfer())
        partner.hears(b"".join(m.proposal() for m in ours) + b"F>\r")
        partner.says(b"FS +-=\r")
        partner.hears(ours[0].transfer())
        partner.says(b"FF\r")
        partner.hears(b"FQ\r")
        self.assertEqual(partner.ends()[0], DONE)
        self.assertEqual(self.row(node), (b"F0SOU", 0, "FQ", 0, b"", 1, 1, 1, 1, len(partner.heard), len(partner.said)))
        after = int(time.time())
        (began, ended), = node.ask("SELECT began, ended FROM session")
        self.assertTrue(before <= began <= ended <= after)
        went = node.ask("SELECT bid, came, passage.went, call, passage.session, passage.deferred FROM outbox JOIN passage USING (number) ORDER BY number")
        self.assertEqual([(bid, partner, session, deferred) for bid, _, _, partner, session, deferred in went],
                         [(b"0_US", b"F0SOU", 1, 0), (b"1_US", b"F0SOU", 1, 0), (b"2_US", b"F0SOU", None, 1)])
        for _, came, when, _, session, _ in went:
            self.assertTrue(before <= came <= after and (when is None if session is None else before <= when <= after))
        (when, *rest), = node.ask("SELECT came, partner, session, copy FROM inbox")
        self.assertTrue(before <= when <= after)
        self.assertEqual(rest, [b"F0SOU", 1, 0])
        self.assertRegex(node.right("sessions").decode(), r"(?m)^    1  \d{4}-\d\d-\d\d \d\d:\d\d:\d\d +\d+  called  F0SOU +3 +1 +1 +1 +0 +1 +0 +1 +\d+ +\d+  FQ$")

    def test_refused(self):
        "a refusal's number and the line that was refused"
        for number, (said, refusal, line) in enumerate([(b"Hello\r", 3, b"Hello\r"), (PLAIN_SID + b"FF\rX", 11, b"X"), (PLAIN_SID + b"; all right\rFB P A B C 1_T\rF>\r", 5, b"FB P A B C 1_T\r"),
                                                        (PLAIN_SID + b"x" * 300, 2, b"x" * 256)]):
            # Our FQ leaves at once, so what is too early for it must come with its FF.
            for size in (1, len(said)) if refusal != 11 else (len(said),):
                self.refused(self.node("node%d-%d" % (number, size)), [said[i:i + size] for i in range(0, len(said), size)], (refusal, line))

    def refused(self, node, portions, why):
        partner = node.stdio()
        partner.hears(GREETING)
        with contextlib.suppress(BrokenPipeError):
            for portion in portions:
                partner.says(portion)
        partner.process.wait(PATIENCE)
        with contextlib.suppress(BrokenPipeError):
            partner.rest()
        self.assertEqual(self.row(node)[2:5], ("refused", *why))
        self.assertIn(b"refused, %d: " % why[0], node.right("sessions"))

    def test_dropped(self):
        "a link that dropped, a silent partner, a process that was killed"
        node = self.node()
        partner = node.stdio()
        partner.hears(GREETING)
        partner.hang_up()
        partner.ends()
        self.assertEqual(self.row(node)[2], "the partner is gone")
        partner = node.stdio("--timeout", "1")
        partner.hears(GREETING)
        partner.ends_itself()
        self.assertEqual(self.row(node)[2], "the partner is silent")
        partner = node.stdio()
        partner.hears(GREETING)
        partner.process.kill()
        partner.rest()
        self.assertEqual(node.ask("SELECT ended, ending FROM session ORDER BY number DESC LIMIT 1"), [(None, None)])
        self.assertIn("not ended", node.right("sessions").decode().splitlines()[1])
        self.assertEqual(node.ask("SELECT count(*) FROM session"), [(3,)])
