"""Who may call: partners by callsign and password, and nobody keeps them out."""
import threading

from node import *

PLAIN_SID, FRAMED_SID = b"[TST-1-F$]\r", b"[TST-1-BF$]\r"
SECRET = b"s3cret phrase"


class Callers(Folder):
    def guarded(self, name="node", **more):
        """A node with a message, and a partner with a password."""
        node = self.node(name, **more).add(Message(b"1_US", b"private", form="plain"))
        node.right("admit", "f0abc", "-", input=SECRET + b"\n")
        return node

    def outside(self, node, *options):
        """Listens where other machines could call."""
        process = node.start("listen", "0.0.0.0:0", *options)
        found = re.search(r"listening on 0\.0\.0\.0:(\d+)$", next_line(process).strip())
        self.assertTrue(found)
        return process, int(found.group(1))

    def connect(self, process, port):
        link = socket.create_connection(("127.0.0.1", port), timeout=PATIENCE)
        link.settimeout(None)
        self.addCleanup(link.close)
        partner = Partner.of_socket(process, link)
        partner.link = link
        return partner

    def takes(self, partner, sid=PLAIN_SID):
        """A session in which the partner takes the message."""
        partner.hears(GREETING)
        partner.says(sid + b"FF\r")
        partner.hears(Message(b"1_US", b"private", form="plain").proposal() + b"F>\r")
        partner.says(b"FS +\r")
        partner.hears(Message(b"1_US", b"private", form="plain").transfer())
        partner.says(b"FF\r")
        partner.hears(b"FQ\r")
        partner.hears_end()

    def stopped(self, process):
        process.terminate()
        said = process.communicate(timeout=PATIENCE)[1].decode()
        self.says_why((process.returncode, said), -15, "ended by SIGTERM")
        return said


class Login(Callers):
    def test_right(self):
        "a partner logs in with callsign and password, in one go or line by line, and is served"
        for number, portions in enumerate(((b".F0ABC\r", SECRET + b"\r"), (b".f0abc-7\r\n", SECRET + b"\r\n"), (b"F0ABC\r\n" + SECRET + b"\r\n",))):
            with self.subTest(portions):
                node = self.guarded("node%d" % number)
                process, port = self.outside(node)
                partner = self.connect(process, port)
                if len(portions) == 1:  # as LinFBB's V line has it: all at once, before it is asked
                    partner.says(portions[0])
                    partner.hears(b"Callsign : Password : \r\n")
                else:
                    partner.hears(b"Callsign : ")
                    partner.says(portions[0])
                    partner.hears(b"Password : ")
                    partner.says(portions[1])
                    partner.hears(b"\r\n")
                self.takes(partner)
                said = self.stopped(process)
                self.assertEqual(node.states(), {b"1_US": FORWARDED})
                self.assertEqual(node.ask("SELECT partner FROM session"), [(b"F0ABC",)])
                self.assertRegex(node.right("partners").decode(), r"(?m)^F0ABC   yes       \d{4}-\d\d-\d\d \d\d:\d\d  0, \d+ waiting, \d+ bytes$")
                self.assertNotIn("s3cret", said)

    def test_wrong(self):
        "whoever is no partner, or has a wrong password or none, gets the questions and after a delay the closing"
        node = self.guarded()
        node.right("admit", "F0NOP")
        process, port = self.outside(node, "--delay", "5")
        tries = [(b".F0ABC\r", b"wrong\r"), (b".F0XXX\r", SECRET + b"\r"), (b"F0NOP\r", b"\r"), (b"\r", b"\r"), (b".F0ABC\r", SECRET + b" \r"), (b"'; --\r", b"x\r"),
                 (b".F0ABC\r", SECRET[:-1] + b"\r"), (SECRET + b"\r", b"F0ABC\r"), (b"F0ABC\r", b"\xff\xff\r")]
        began, partners = time.monotonic(), []
        for call, password in tries:
            partners.append(self.connect(process, port))
            partners[-1].hears(b"Callsign : ")
            partners[-1].says(call)
            partners[-1].hears(b"Password : ")
            partners[-1].says(password + PLAIN_SID + b"FF\r")
        for partner in partners:
            with self.subTest(partner.said):
                self.closed(partner)
        self.assertTrue(4.9 < time.monotonic() - began < 5 * len(tries))  # none waits for another
        said = self.stopped(process)
        self.assertEqual(said.count("turned away"), len(tries))
        self.assertNotIn("s3cret", said)
        self.assertEqual((node.states(), node.ask("SELECT count(*) FROM session")), ({b"1_US": WAITING}, [(0,)]))

    def closed(self, partner):
        """Nothing comes but the end, or a reset where it left our bytes unread."""
        try:
            partner.hears_end()
        except ConnectionResetError:
            pass

    def test_too_long(self):
        "a line of login that doesn't end, and a login that takes too long"
        process, port = self.outside(self.guarded(), "--delay", "0", "--sid-limit", "8")
        endless, idle = self.connect(process, port), self.connect(process, port)
        began = time.monotonic()
        endless.hears(b"Callsign : ")
        endless.says(b"x" * 5000)
        self.closed(endless)
        self.assertLess(time.monotonic() - began, 8)
        idle.hears(b"Callsign : ")
        idle.says(b".F0ABC\r")
        idle.hears(b"Password : ")
        self.closed(idle)
        self.assertTrue(7.5 < time.monotonic() - began < LATE)

    def test_doubled(self):
        "the dot before the callsign makes the port transparent, without it FF bytes are doubled, as on LinFBB's port"
        for number, (call, wire) in enumerate(((b".F0ABC\r", lambda data: data), (b"F0ABC\r", lambda data: data.replace(b"\xff", b"\xff\xff")))):
            with self.subTest(call):
                node, theirs = self.guarded("node%d" % number), Message(b"1_T", b"\xff\xfb\xff")
                process, port = self.outside(node)
                partner = self.connect(process, port)
                partner.says(b"\xff\xfd\x03" + call + SECRET + b"\r")  # an option of telnet's first
                partner.hears(b"Callsign : Password : \r\n" + GREETING)
                partner.says(FRAMED_SID + theirs.proposal() + b"F>\r")
                partner.hears(b"FS +\r")
                partner.says(wire(theirs.transfer()))
                partner.hears(b"FF\r")
                partner.says(b"FQ\r")
                partner.hears_end()
                self.stopped(process)
                self.assertEqual(node.inbox(), [theirs.row()])

    def test_secret(self):
        "no password stands in a transcript or in what is said, of a right caller or a wrong one"
        node, air = self.guarded(), self.folder / "air"
        process, port = self.outside(node, "--once", "--transcript=" + str(air))
        partner = self.connect(process, port)
        partner.says(b".F0ABC\r" + SECRET + b"\r")
        partner.hears(b"Callsign : Password : \r\n")
        self.takes(partner)
        said = process.communicate(timeout=PATIENCE)[1].decode()
        self.assertIn("FB P F0ABC", air.read_text())
        for text in (said, air.read_text()):
            self.assertNotIn("s3cret", text)
            self.assertNotIn("Password", text)

    def test_two_nodes(self):
        "one node logs in to another with callsign and password, which stands in no transcript of either; a wrong one is turned away"
        ours = Message(b"1_N", b"\xff" * 300)
        north, south, password = self.node("north").add(ours), self.node("south"), self.folder / "password"
        south.right("admit", "N0NOR", "-", input=SECRET + b"\n")
        for right, login in ((SECRET, ".N0NOR"), (b"wrong", ".N0NOR"), (SECRET, "N0NOR")):
            with self.subTest((right, login)):
                password.write_bytes(right + b"\r\n")
                process, port = self.outside(south, "--once", "--transcript", "--delay", "0")
                code, _, said = north.run("call", str(port), "--login", login, "--password", password, "--transcript", *(() if login[0] == "." else ("--telnet",)))
                there = process.communicate(timeout=PATIENCE)[1].decode()
                self.assertEqual((code, process.returncode), (DONE, DONE) if right == SECRET else (LINK_DROPPED, NOT_ADMITTED), said + there)
                for text in (said, there):
                    self.assertNotIn(right.decode(), text.replace("wrong password", ""))
        self.assertEqual((north.states(), south.inbox()), ({b"1_N": FORWARDED}, [ours.checked().row()]))
        self.says_why(north.run("call", str(port), "--login", "X", "--password", self.folder / "none"), BAD_PORT, "refused")

    def test_refuses_to_start(self):
        "nobody listens outside where no partner has a password, but for --anyone, which says what it means"
        node = self.node().add(Message(b"1_US", b"private", form="plain"))
        node.right("admit", "F0NOP")
        for address in ("0.0.0.0:0", "[::]:0"):
            self.says_why(node.run("listen", address), BAD_USAGE, "no partner has a password", "--anyone")
        process = node.start("listen", "0.0.0.0:0", "--anyone")
        port = int(next_line(process).rsplit(":", 1)[1])
        self.assertIn("whoever calls here gets our mail", process.stderr.readline().decode())
        self.takes(self.connect(process, port))
        self.stopped(process)
        self.assertEqual(node.states(), {b"1_US": FORWARDED})

    def test_loopback(self):
        "on loopback nobody is asked"
        node = self.guarded()
        process, port = node.listen()
        self.takes(self.connect(process, port))
        self.stopped(process)
        self.assertEqual(node.states(), {b"1_US": FORWARDED})


class From(Callers):
    def test_partner(self):
        "stdio --from serves a partner, however ax25d writes its callsign, and the session's row names it"
        for number, call in enumerate(("F0ABC", "f0abc", "F0ABC-15")):
            node = self.guarded("node%d" % number)
            partner = node.stdio("--from", call)
            self.takes(partner)
            self.assertEqual(partner.ends()[0], DONE)
            self.assertEqual(node.ask("SELECT partner FROM session"), [(b"F0ABC",)])

    def test_stranger(self):
        "stdio --from with anybody else gives nothing but the end, after a delay"
        node = self.guarded()
        for calls in (("F0XXX",), ("F0ABCD", "", "F0ABC-16", "' OR 1 --", "F0 ABC")):
            began = time.monotonic()
            for partner in [node.stdio("--from", call, "--delay", "1") for call in calls]:
                partner.hears_end()
                self.assertGreater(time.monotonic() - began, 0.9)
                self.says_why(partner.ends(), NOT_ADMITTED, "turned away")
        self.assertEqual(node.states(), {b"1_US": WAITING})

    def test_inetd(self):
        "a socket from another machine on standard input is asked as listen asks; one from this machine isn't"
        node = self.guarded()
        own = [a for a in subprocess.run(["hostname", "-I"], stdout=subprocess.PIPE).stdout.decode().split() if ":" not in a]
        if not own:
            self.skipTest("this machine has no address but loopback")
        for address, heard in ((own[0], b"Callsign : "), ("127.0.0.1", GREETING)):
            with socket.create_server((address, 0)) as server:
                far = socket.create_connection(server.getsockname())
                near = server.accept()[0]
                process = node.start("stdio", stdin=near, stdout=near)
                near.close()
                partner = Partner.of_socket(process, far)
                partner.hears(heard)
                partner.hang_up()
                process.wait(PATIENCE)

    def test_radio(self):
        "an AX.25 socket without --from is not served"
        shim = self.shim("line")
        node = self.node(program=PLAIN)
        near, far = socket.socketpair(socket.AF_UNIX, socket.SOCK_SEQPACKET)
        process = node.start("stdio", stdin=near, stdout=near, env=dict(os.environ, LD_PRELOAD=shim, LINE_AX25="256"))
        near.close()
        Partner.of_socket(process, far).hears_end()
        self.assertEqual(process.wait(PATIENCE), BAD_USAGE)
        self.assertIn(b"--from", process.stderr.read())


class Base(Callers):
    def test_partners(self):
        "admit, dismiss and partners; passwords come from a file and are never shown"
        node = self.guarded()
        self.says_why(node.run("admit", "NOCALL"), BAD_USAGE, "no callsign")
        self.says_why(node.run("admit", "F0AAA", self.folder / "none"), BAD_FILE, "No such file")
        self.says_why(node.run("admit", "F0AAA", "-", input=b""), BAD_FILE, "no password")
        self.says_why(node.run("admit", "F0AAA", "-", input=b"\n"), BAD_FILE, "1 to 64 bytes")
        self.says_why(node.run("admit", "F0AAA", "-", input=b"x" * 65), BAD_FILE, "1 to 64 bytes")
        node.right("admit", "F0AAA", "-", input=b"x" * 64)
        self.says_why(node.run("admit", "F0BBB"), DONE, "not from outside")
        self.assertEqual(node.right("partners").decode().splitlines()[1:], ["F0ABC   yes       never             0, 1 waiting, 7 bytes", "F0AAA   yes       never             1, 0 waiting, 0 bytes", "F0BBB   no        never             2, 0 waiting, 0 bytes"])
        node.right("dismiss", "F0AAA")
        self.says_why(node.run("dismiss", "F0AAA"), BAD_USAGE, "no such partner")

    def test_mode(self):
        "a new base, and what stands beside it, can be read by its owner only, whatever the umask"
        os.umask(0)
        self.addCleanup(os.umask, 0o022)
        node = self.guarded()
        partner = node.stdio()
        partner.hears(GREETING)
        for path in self.folder.iterdir():
            self.assertEqual(path.stat().st_mode & 0o077, 0, path)
        partner.process.kill()
        partner.rest()


class Kept(Callers):
    """A good caller gets in, whoever else is there."""

    def good(self, process, port, within):
        began = time.monotonic()
        partner = self.connect(process, port)
        partner.hears(GREETING)
        partner.says(PLAIN_SID + b"FF\r")
        partner.hears(b"F")
        self.assertLess(time.monotonic() - began, within)
        partner.hang_up()

    def talks(self, partner, data, every):
        def run():
            try:
                while True:
                    partner.write(data)
                    time.sleep(every)
            except OSError:
                pass
        thread = threading.Thread(target=run, daemon=True)
        thread.start()

    def test_idle(self):
        "200 callers who say nothing keep nobody out"
        process, port = self.node(program=PLAIN).listen()
        idle = [self.connect(process, port) for _ in range(200)]
        self.good(process, port, LATE)  # --sid-limit would take longer
        self.assertIn("make room", self.stopped(process))
        self.assertEqual(len(idle), 200)

    def test_comments(self):
        "one who sends `;` lines for ever, before a SID or after it, and one who sends single bytes"
        process, port = self.node().listen("--progress-limit", "2", "--sid-limit", "60")
        before, after, slow = [self.connect(process, port) for _ in range(3)]
        self.talks(before, b"; still here\r", 0.05)
        self.good(process, port, LATE)
        for partner, data in ((after, b"; still here\r"), (slow, b"F")):
            partner.hears(GREETING)
            partner.says(PLAIN_SID)
            self.talks(partner, data, 0.2)
        self.good(process, port, PATIENCE)
        self.assertIn("no progress", self.stopped(process))

    def test_talker(self):
        "one who talks on after a refusal, or at the end, has made room already"
        process, port = self.node().listen("--linger", "60")
        for last in (b"nonsense\r", b"FF\r"):
            partner = self.connect(process, port)
            partner.hears(GREETING)
            partner.says(PLAIN_SID + last)
            if last == b"FF\r":
                partner.hears(b"FQ\r")
            self.talks(partner, b"and another thing\r", 0.05)
        self.good(process, port, LATE)
        self.stopped(process)

    def test_in_turn(self):
        "one session at a time: who is ready waits, loses nothing and is served next"
        ours = Message(b"1_US", form="plain")
        node = self.node().add(ours)
        process, port = node.listen()
        first, second = [self.connect(process, port) for _ in range(2)]
        for partner in (first, second):
            partner.hears(GREETING)
        first.says(PLAIN_SID + b"FF\r")
        first.hears(ours.proposal() + b"F>\r")
        second.says(PLAIN_SID + b"FF\r")
        time.sleep(0.3)
        self.assertFalse(select.select([second.link], [], [], 0)[0])
        first.says(b"FS +\r")
        first.hears(ours.transfer())
        first.says(b"FF\r")
        first.hears(b"FQ\r")
        second.hears(b"FQ\r")  # the message is gone
        second.hears_end()
        self.stopped(process)
        self.assertEqual(node.states(), {b"1_US": FORWARDED})
