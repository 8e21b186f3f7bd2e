"""Files and errors: exports, output that can't be written, commands that are killed, and sentences that help."""
import random
import resource
import signal

from node import *
from test_files import HEAD, letter
from test_lifted import TODAY, VERSION_1


class Exported(Folder):
    def setUp(self):
        super().setUp()
        self.out = self.folder / "out"

    def exports(self, node, code, *words, **more):
        process = node.start("export", self.out, "--outbox", **more)
        err = process.communicate(timeout=PATIENCE)[1].decode()
        self.says_why((process.returncode, err), code, *words)

    def test_there(self):
        "a file that is there already is told from an empty one and from another; none is written to, and the others are exported"
        node = self.node().add(*[Message(b"%d_A" % i, b"text %d\r" % i) for i in range(6)])
        self.exports(node, DONE, "6 exported, 0 were there already")
        whole = {path.name: path.read_bytes() for path in self.out.iterdir()}
        self.exports(node, DONE, "0 exported, 6 were there already")
        (self.out / "0_A.msg").write_bytes(b"")
        (self.out / "1_A.msg").write_bytes(b"mine")
        (self.out / "2_A.msg").write_bytes(whole["2_A.msg"] + b"more")
        (self.out / "3_A.msg").write_bytes(whole["3_A.msg"][:-1])
        (self.out / "4_A.msg").unlink()
        self.exports(node, BAD_FILE, "0_A.msg: an empty file has this name", "1_A.msg: another file", "2_A.msg: another file", "3_A.msg: another file",
                     "1 exported, 1 were there already", "4 not exported")
        self.assertEqual([(self.out / ("%d_A.msg" % i)).read_bytes() for i in range(6)],
                         [b"", b"mine", whole["2_A.msg"] + b"more", whole["3_A.msg"][:-1], whole["4_A.msg"], whole["5_A.msg"]])

    def test_links(self):
        "no link in the folder is followed, and no other thing of that name is touched"
        node = self.node().add(*[Message(b"%d_A" % i) for i in range(5)])
        self.out.mkdir()
        victim, new = self.folder / "victim", self.folder / "new"
        victim.write_bytes(b"precious")
        for name, to in (("0_A.msg", victim), ("1_A.msg", new), ("2_A.part", victim), ("4_A.part", new)):
            (self.out / name).symlink_to(to)
        (self.out / "3_A.msg").mkdir()
        self.exports(node, BAD_FILE, "0_A.msg: a link has this name", "1_A.msg: a link has this name", "3_A.msg: ", "2 exported, 0 were there already")
        self.assertEqual((victim.read_bytes(), new.exists()), (b"precious", False))
        self.assertTrue((self.out / "2_A.msg").is_file() and (self.out / "4_A.msg").is_file())

    def test_full(self):
        "where a file can't be written whole, the command fails and leaves nothing of it"
        node = self.node(program=PLAIN).add(Message(b"1_A", b"short"), Message(b"2_A", b"x" * 60000))

        def little_room():  # but for the 32,768 bytes that SQLite shares between processes
            resource.setrlimit(resource.RLIMIT_FSIZE, (40000, 40000))
            signal.signal(signal.SIGXFSZ, signal.SIG_IGN)
        self.exports(node, BAD_FILE, "2_A.msg: File too large", "1 exported", preexec_fn=little_room, restore_signals=False)
        self.assertEqual([path.name for path in self.out.iterdir()], ["1_A.msg"])
        shutil.rmtree(self.out)
        node.ask("DELETE FROM outbox WHERE number = 1")
        self.exports(node, BAD_FILE, "2_A.msg: File too large", "0 exported", preexec_fn=little_room, restore_signals=False)
        self.assertFalse(self.out.exists())

    def test_synced(self):
        "a file is synced before it gets its name, and the folder before the command ends"
        node = self.node(program=PLAIN).add(*[Message(b"%d_A" % i) for i in range(3)])
        events = self.traced(lambda **more: self.exports(node, DONE, "3 exported", **more))
        self.assertRegex(events(), r"^[PSD]*(E+FN){3}D[PSD]*$")

    def test_killed(self):
        "an export that is killed at any moment leaves no file half written under its name; the next makes it whole"
        node, loaded = self.node(program=PLAIN).add(*[Message(b"%d_A" % i, b"x" * 9000) for i in range(2)]), self.shim("killed")
        self.exports(node, DONE)
        whole = {path.name: path.read_bytes() for path in self.out.iterdir()}
        for moment in range(1, 100):
            shutil.rmtree(self.out)
            process = node.start("export", self.out, "--outbox", env=dict(os.environ, LD_PRELOAD=loaded, KILL_AT=str(moment)))
            process.communicate(timeout=PATIENCE)
            for path in self.out.glob("*.msg"):
                self.assertEqual(path.read_bytes(), whole[path.name], moment)
            self.exports(node, DONE)
            self.assertEqual({path.name: path.read_bytes() for path in self.out.glob("*.msg")}, whole)
            if process.returncode == DONE:
                break
        self.assertGreater(moment, 8)


class Output(Folder):
    def test_full(self):
        "standard output that takes nothing is an error"
        node = self.node().add(*[Message(b"%d_A" % i) for i in range(200)])
        for words in (("list",), ("sessions",), ("--help",), ("--version",)):
            with self.subTest(words), open("/dev/full", "wb") as full:
                process = node.start(*words, stdout=full)
                err = process.communicate(timeout=PATIENCE)[1].decode()
                self.says_why((process.returncode, err), FAILED, "standard output: No space left")

    def test_transcript(self):
        "a transcript that can't be written is said once, the session goes on, and its exit code is 1"
        node, theirs = self.node(), Message(b"1_T", b"x\r", form="plain")
        partner = node.stdio("--transcript=/dev/full")
        partner.hears(GREETING)
        partner.says(b"[TST-1-F$]\r" + theirs.proposal() + b"F>\r")
        partner.hears(b"FS +\r")
        partner.says(theirs.transfer())
        partner.hears(b"FF\r")
        partner.says(b"FQ\r")
        code, err = partner.ends()
        self.says_why((code, err), FAILED, "/dev/full: No space left", "1 kept", "ended by FQ")
        self.assertEqual(err.count("No space left"), 1)
        self.assertEqual(node.inbox(), [theirs.row()])


class KilledAtEachMoment(Folder):
    def killed(self, node, words, moment, loaded):
        process = node.start(*words, env=dict(os.environ, LD_PRELOAD=loaded, KILL_AT=str(moment)))
        process.communicate(timeout=PATIENCE)
        return process.returncode

    def test_init(self):
        "an init that is killed at any moment can be repeated"
        loaded = self.shim("killed")
        for moment in range(1, 200):
            node = Node.__new__(Node)
            node.path, node.program = self.folder / ("%d.base" % moment), PLAIN
            code = self.killed(node, ("init", "--call", "N0DE"), moment, loaded)
            again, _, err = node.run("init", "--call", "N0DE")
            self.assertTrue(again == DONE or "there is a base already" in err, (moment, err))
            node.add(Message(b"1_A"))
            self.assertEqual(node.ask("SELECT call FROM station"), [(b"N0DE",)])
            self.assertEqual(stat.S_IMODE(node.path.stat().st_mode), 0o600)
            if code == DONE:
                break
        self.assertGreater(moment, 10)

    def test_lift(self):
        "a base of version 1 whose lifting is killed at any moment has all of its mail, and is lifted the next time"
        loaded, dice = self.shim("killed"), random.Random(3)
        old = self.folder / "old.base"
        base = sqlite3.connect(old)
        base.executescript(VERSION_1)
        rows = {box: base.execute("SELECT number, " + COLUMNS + " FROM " + box).fetchall() for box in ("outbox", "inbox")}
        base.close()
        moment, code = 1, None
        while code != DONE:
            shutil.copy(old, self.folder / ("%d.base" % moment))
            node = self.node(str(moment), program=PLAIN)
            code = self.killed(node, ("list",), moment, loaded)
            if dice.random() < 0.5:  # by the host, or by somebody who looks before that
                self.assertIn(node.ask("PRAGMA user_version")[0][0], (1, TODAY))
            node.right("list")
            self.assertEqual(node.ask("PRAGMA user_version"), [(TODAY,)])
            self.assertEqual({box: node.ask("SELECT number, " + COLUMNS + " FROM " + box) for box in rows}, rows)
            self.assertEqual(node.ask("SELECT sum(copy) FROM inbox"), [(2,)])
            moment += 1
        self.assertGreater(moment, 10)


class Helpful(Folder):
    def test_mark(self):
        "a byte order mark gets a sentence that helps"
        node = self.node()
        for mark in (b"\xef\xbb\xbf", b"\xff\xfe", b"\xfe\xff"):
            self.says_why(node.run("import", "-", input=mark + letter()), BAD_FILE, "byte order mark (BOM)", "save it without")
        self.assertEqual(node.outbox(), [])

    def test_transcript(self):
        "a transcript's file without = gets a sentence that helps"
        self.says_why(self.node().run("call", "1", "--transcript", "air"), BAD_USAGE, "--transcript=FILE")

    def test_no_library(self):
        "make without the library gets a sentence that helps"
        done = subprocess.run(["make", "-s", "-C", HOST / "host", "LIB=/nowhere", "BUILD=" + str(self.folder / "build"), "CFLAGS=-O0"], capture_output=True)
        self.assertNotEqual(done.returncode, 0)
        self.assertIn(b"There is no /nowhere/libfringemole.a: prove and build the library first (.ci/archives fringemole)", done.stderr)

    def test_depends(self):
        "a header that changed makes the objects that include it again, however the folder is spelled"
        host, library = HOST / "host", os.environ.get("FRINGEMOLE_LIB_DIR", str(ROOT / "target" / "staticlib"))
        for build in (HOST / "target" / "host", host / ".." / "target" / "host"):
            told = subprocess.run(["make", "-n", "-C", host, "LIB=" + library, "BUILD=" + str(build), "-W", host / "heard.h"], capture_output=True, text=True)
            self.assertIn("session.c", told.stdout, told.stderr)

    def test_version(self):
        "--version needs no base"
        answer = subprocess.run([SANITIZED, "--version"], capture_output=True)
        self.assertEqual((answer.returncode, answer.stderr), (DONE, b""))
        self.assertRegex(answer.stdout, rb"^fringemole \d+\.\d+\n$")

    def test_all_or_nothing(self):
        "an import is all or nothing, but for messages whose BID is known"
        node = self.node()
        self.assertEqual(node.run("import", "-", input=letter() + letter(HEAD + b"X-BID: 2_A\r\nX-Form: zip\r\n"))[0], BAD_FILE)
        self.assertEqual((node.outbox(), node.known()), ([], set()))
