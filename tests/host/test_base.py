"""The base, wrong ways to use it, and usage."""
import fcntl
import signal
import struct
import termios

from node import *


class Bases(Folder):
    def made(self, name, content):
        path = self.folder / (name + ".base")
        path.write_bytes(content)
        return Node(self.folder, name)

    def test_bad(self):
        "each bad base is named, by every command, with exit code 3"
        other = self.folder / "other.base"
        sqlite3.connect(other).executescript("CREATE TABLE a (b); PRAGMA application_id = 7")
        newer = self.node("newer")
        newer.ask("PRAGMA user_version = 99")
        missing = self.node("missing")
        missing.path.unlink()
        (self.folder / "folder.base").mkdir()
        half = self.node("half").path.read_bytes()
        bad = {"no message base": [self.made("text", b"not a base\n" * 100), Node(self.folder, "other"), self.made("empty", b"")],
               "version 99": [newer], "make a base with init": [missing], "unable to open": [Node(self.folder, "folder")],
               "half.base: ": [self.made("half", half[:len(half) // 2])]}
        for why, nodes in bad.items():
            for node in nodes:
                for words in (("list",), ("stdio",), ("export", self.folder / "out"), ("import", "-"), ("listen", "0", "--once"), ("call", "1"), ("release", "X"), ("trace", "X")):
                    with self.subTest((why, node.path.name, words)):
                        self.says_why(node.run(*words), BAD_BASE, why)

    def test_init(self):
        "init leaves what is there alone, and says where it can't make a base"
        node = self.node().add(Message(b"1_A"))
        self.says_why(node.run("init"), BAD_BASE, "there is a base already")
        self.assertEqual(len(node.outbox()), 1)
        node.path = self.folder / "no" / "where"
        self.says_why(node.run("init"), BAD_BASE, "No such file")

    def test_damaged(self):
        "a base with damaged pages ends with 3 or goes on, never otherwise"
        node = self.node().add(*[Message(b"%d_A" % i, bytes([i]) * 3000) for i in range(20)])
        whole = node.path.read_bytes()
        for page in range(1, len(whole) // 4096, 3):
            node.path.write_bytes(whole[:page * 4096] + b"\xa5" * 4096 + whole[page * 4096 + 4096:])
            for words in (("list",), ("stdio",)):
                code, _, err = node.run(*words)
                self.assertIn(code, (DONE, BAD_BASE, LINK_DROPPED), err)
                self.assertNotIn("Sanitizer", err)

    ROWS = [("bid = ?", b"with space", "with space", "a BID has"), ("type = ?", "T", "2_A", "a type is"), ("body = ?", b"x" * 65536, "2_A", "a body has"),
            ("body = ?", b"\x1a", "2_A", "a body has"), ("size = ?", 1000000, "2_A", "an announced size is"), ("size = ?", 1 << 32, "2_A", "an announced size is"),
            ("title = ?", b"", "2_A", "a title has"), ("form = ?", 256, "2_A", "a form is"), ("\"from\" = ?", b"A.B", "2_A", "from has")]

    def test_bad_row(self):
        "a row that breaks 01's rules is named by its BID and the rule, and held; the other messages go"
        for number, (what, value, bid, rule) in enumerate(self.ROWS):
            with self.subTest(what):
                node = self.node("node%d" % number).add(*[Message(b"%d_A" % i, form="plain") for i in range(1, 4)])
                node.ask("UPDATE outbox SET " + what + " WHERE number = 2", value)
                partner = node.stdio()
                partner.hears(GREETING)
                partner.says(b"[TST-1-F$]\rFF\r")
                partner.hears(Message(b"1_A", form="plain").proposal() + Message(b"3_A", form="plain").proposal() + b"F>\r")
                partner.says(b"FS --\rFF\r")
                partner.hears(b"FQ\r")
                self.says_why(partner.ends(), DONE, "BID " + bid + ", is held: " + rule)
                self.assertEqual(list(node.states().values()), [DECLINED, HELD, DECLINED])

    def test_twins(self):
        "of two messages with one BID (one of them stored as text, so that SQLite takes them for two) the first goes, the second is held"
        node = self.node().add(Message(b"1_A", b"first", form="plain"), Message(b"2_A", b"second", form="plain"))
        node.ask("UPDATE outbox SET bid = '1_A' WHERE number = 2")
        partner = node.stdio()
        partner.hears(GREETING)
        partner.says(b"[TST-1-F$]\rFF\r")
        partner.hears(Message(b"1_A", b"first", form="plain").proposal() + b"F>\r")
        partner.says(b"FS -\rFF\r")
        partner.hears(b"FQ\r")
        self.says_why(partner.ends(), DONE, "message 2 of the base, BID 1_A, is held: another message of the outbox has this BID")
        self.assertEqual(node.ask("SELECT passage.state, outbox.state FROM outbox JOIN passage USING (number) ORDER BY number"), [(DECLINED, 0), (WAITING, HELD)])

    def test_many_bad_rows(self):
        "bad rows take nobody's place: behind 100 of them the others still go"
        node = self.node(program=PLAIN).add(*[Message(b"%03d" % i, form="plain") for i in range(102)])
        node.ask("UPDATE outbox SET type = 'T' WHERE number <= 100")
        partner = node.stdio()
        partner.hears(GREETING)
        partner.says(b"[TST-1-F$]\rFF\r")
        partner.hears(Message(b"100", form="plain").proposal() + Message(b"101", form="plain").proposal() + b"F>\r")
        partner.hang_up()
        self.says_why(partner.ends(), LINK_DROPPED, "BID 099, is held", "2 still waiting")

    def test_bad_known(self):
        "a known BID that is none is named and left out"
        node = self.node()
        node.ask("INSERT INTO known (bid) VALUES (?), (?)", b"with space", b"1_T")
        partner = node.stdio()
        partner.hears(GREETING)
        partner.says(b"[TST-1-F$]\r" + Message(b"1_T", form="plain").proposal() + b"F>\r")
        partner.hears(b"FS -\r")
        partner.hang_up()
        self.says_why(partner.ends(), LINK_DROPPED, "left out: with space")

    def test_lock(self):
        "one session at a time; when its process is killed the base is free"
        node = self.node()
        partner = node.stdio()
        partner.hears(GREETING)
        for words in (("stdio",), ("call", "1"), ("listen", "0")):
            self.says_why(node.run(*words), BAD_BASE, "in use by another session")
        partner.process.kill()
        partner.rest()
        partner = node.stdio()
        partner.hears(GREETING)
        partner.hang_up()
        self.assertEqual(partner.ends()[0], LINK_DROPPED)

    def test_lock_by_another_name(self):
        "the lock is the base's, whatever link it is opened by"
        node = self.node()
        (self.folder / "elsewhere").mkdir()
        (self.folder / "elsewhere" / "link.base").symlink_to(node.path)
        partner = Node(self.folder / "elsewhere", "link").stdio()
        partner.hears(GREETING)
        self.says_why(node.run("stdio"), BAD_BASE, "in use by another session")
        self.assertEqual([path.name for path in (self.folder / "elsewhere").iterdir()], ["link.base"])
        partner.hang_up()
        self.assertEqual(partner.ends()[0], LINK_DROPPED)

    def test_no_commit(self):
        "where the base takes no change, the partner is told nothing and the session ends with 3"
        node = self.node().add(Message(b"1_US", form="plain"))
        node.ask("CREATE TRIGGER full BEFORE INSERT ON inbox BEGIN SELECT RAISE(ABORT, 'disk full'); END")
        theirs = Message(b"1_T", form="plain")
        partner = node.stdio()
        partner.hears(GREETING)
        partner.says(b"[TST-1-F$]\r" + theirs.proposal() + b"F>\r")
        partner.hears(b"FS +\r")
        partner.says(theirs.transfer())
        partner.hears_end()
        self.says_why(partner.ends(), BAD_BASE, "disk full", "0 kept")
        self.assertEqual((node.inbox(), node.known(), node.states()), ([], {b"1_US"}, {b"1_US": WAITING}))

    def test_one_transaction(self):
        "all that one portion changes is one transaction: marks, messages and their BIDs stand together or not at all"
        ours, theirs = Message(b"1_US", form="plain"), [Message(b"%d_T" % i, form="plain") for i in range(3)]
        node = self.node().add(ours)
        node.ask("CREATE TRIGGER full BEFORE INSERT ON inbox WHEN NEW.bid = CAST('2_T' AS BLOB) BEGIN SELECT RAISE(ABORT, 'disk full'); END")
        partner = node.stdio()
        partner.hears(GREETING)
        partner.says(b"[TST-1-F$]\r" + b"".join(m.proposal() for m in theirs) + b"F>\r")
        partner.hears(b"FS +++\r")
        partner.says(b"".join(m.transfer() for m in theirs))
        partner.hears_end()
        self.says_why(partner.ends(), BAD_BASE, "disk full")
        self.assertEqual((node.inbox(), node.known()), ([], {b"1_US"}))


class Usage(Folder):
    def test_wrong(self):
        "wrong usage is told, with exit code 2"
        node = self.node()
        for words, why in [(("fly",), "fly: no such command"), (("call",), "wrong number"), (("serial", "/dev/tty"), "wrong number"), (("list", "all"), "wrong number"),
                           (("stdio", "--fast"), "--fast: no such option"), (("stdio", "--timeout"), "wrong use"), (("stdio", "--timeout", "x"), "not a number"),
                           (("stdio", "--once=yes"), "wrong use"), (("stdio", "--caller", "--called"), "at most one role"), ((), "give a base"),
                           (("import",), "wrong number"), (("stdio", "--room", "-1"), "not a number"), (("stdio", "--timeout", "1234567890"), "not a number")]:
            with self.subTest(words):
                self.says_why(node.run(*words), BAD_USAGE, why)

    def test_help(self):
        "--help names each command, option and exit code, wherever it stands"
        code, out, err = self.node().run("call", "--help")
        self.assertEqual((code, err), (DONE, ""))
        text = out.decode()
        for word in ("init", "import", "export", "list", "trace", "sessions", "release", "call", "listen", "stdio", "serial", "--caller", "--called", "--login", "--question",
                     "--telnet", "--blank-offset", "--transcript", "--progress", "--panel", "--timeout", "--room", "--once", "--drop-after", "--rtscts", "--log", "--sid-limit", "--progress-limit",
                     "--least-rate", "--session-limit", "--login-limit", "--linger", "--delay", "--callers", "--from", "--header", "--anyone", "--password", "agw", "--listen", "--radio", "admit", "dismiss", "partners", "--call", "--partner", "--text", "--as-is", "--outbox"):
            self.assertIn("\n  " + word, text.replace(", --called", "\n  --called"))
        for number in range(9):
            self.assertIn("\n  %d  " % number, text.split("Exit codes")[1])
        self.assertTrue(all(len(line) < 96 for line in text.splitlines()))


class Stopped(Folder):
    def test_listening(self):
        "a listening node that is stopped ends the session that it has, which its row tells, and leaves no process behind"
        node = self.node()
        listener, port = node.listen()
        with socket.create_connection(("127.0.0.1", port)) as link:
            partner = Partner.of_socket(listener, link)
            partner.hears(GREETING)
            partner.says(b"[TST-1-F$]\r" + Message(b"1_T", form="plain").proposal() + b"F>\r")
            partner.hears(b"FS +\r")
            listener.send_signal(signal.SIGTERM)
            partner.hears_end()
        said = listener.communicate(timeout=PATIENCE)[1].decode()
        self.says_why((listener.returncode, said), -signal.SIGTERM, "ended by SIGTERM")
        self.assertEqual(node.ask("SELECT ending FROM session"), [("SIGTERM",)])
        self.assertEqual(self.node().run("stdio")[0], LINK_DROPPED)  # nobody holds the base

    def test_export(self):
        "an export that is stopped leaves whole files, and no other"
        node, loaded = self.node(program=PLAIN).add(*[Message(b"%04d" % i, b"x" * 3000) for i in range(40)]), self.shim("killed")
        for moment in (1, 30, 31, 32, 33, 34):
            out = self.folder / ("out%d" % moment)
            process = node.start("export", out, "--outbox", env=dict(os.environ, LD_PRELOAD=loaded, KILL_AT=str(moment), KILL_BY=str(int(signal.SIGTERM))))
            said = process.communicate(timeout=PATIENCE)[1].decode()
            self.says_why((process.returncode, said), -signal.SIGTERM, "ended by SIGTERM")
            names = [path.name for path in out.iterdir()] if out.exists() else []
            self.assertTrue(len(names) < 40 and all(name.endswith(".msg") for name in names), names)
            self.assertTrue(moment == 1 or "%d exported, 0 were there already" % len(names) in said and names, said)
            self.says_why(node.run("export", out, "--outbox"), DONE, "%d exported, %d were there already" % (40 - len(names), len(names)))

    def taken(self, pipe):
        """Somebody has read what was written into it."""
        end = time.monotonic() + PATIENCE
        while struct.unpack("i", fcntl.ioctl(pipe, termios.FIONREAD, bytes(4)))[0]:
            self.assertLess(time.monotonic(), end)
            time.sleep(0.01)

    def test_signals(self):
        "SIGINT and SIGTERM end every command that waits with a sentence, by the signal itself; a session's row tells of it"
        for number, (words, name) in enumerate([(("stdio",), "SIGTERM"), (("stdio",), "SIGINT"), (("listen", "0"), "SIGTERM"), (("import", "-"), "SIGINT"), (("trace", "-"), "SIGTERM")]):
            with self.subTest((words, name)):
                node = self.node("node%d" % number)
                process = node.start(*words, stdin=subprocess.PIPE)
                if words[0] == "stdio":
                    Partner.of_process(process).hears(GREETING)
                elif words[0] == "listen":
                    process.stderr.readline()
                else:
                    process.stdin.write(Message(b"1_A").file())
                    process.stdin.flush()
                    self.taken(process.stdin)
                process.send_signal(getattr(signal, name))
                process.wait(PATIENCE)
                said = process.communicate()[1].decode()
                self.says_why((process.returncode, said), -getattr(signal, name), "ended by " + name)
                self.assertEqual(node.ask("SELECT ending FROM session"), [(name,)] if words[0] == "stdio" else [])
                self.assertEqual(node.outbox(), [])
