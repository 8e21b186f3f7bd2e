"""Time: a slow link is no silent partner, and no partner keeps the node longer than the limits say."""
import threading

from node import *

PLAIN_SID, FRAMED_SID = b"[TST-1-F$]\r", b"[TST-1-BF$]\r"


class Timed(Folder):
    def called(self, node, sid, *options):
        partner = node.stdio(*options)
        partner.hears(GREETING)
        partner.says(sid)
        return partner

    def talks(self, partner, data, every):
        """The partner says this again and again, until the node hangs up."""
        def run():
            try:
                while True:
                    partner.write(data)
                    time.sleep(every)
            except (OSError, ValueError):
                pass
        thread = threading.Thread(target=run, daemon=True)
        thread.start()
        self.addCleanup(thread.join, PATIENCE)

    def all_end(self, partners, why):
        """After about two seconds, whatever they say."""
        time.sleep(1)
        for partner in partners:
            self.ends_within(partner, 0, why)

    def ends_within(self, partner, least, *why):
        began = time.monotonic()
        partner.process.wait(PATIENCE)
        took = time.monotonic() - began
        self.assertTrue(least <= took <= LATE, "took %.1f s" % took)
        self.says_why((partner.process.returncode, partner.process.stderr.read().decode()), LINK_DROPPED, *why)


class Leaving(Timed):
    """Silence counts from when our last byte has left."""

    def sent(self, node, partner, ours, drain):
        """The node sends its message, it leaves in more time than the silence limit, and it still hears the partner afterwards."""
        partner.hears(GREETING)
        partner.says(FRAMED_SID + b"FF\r")
        partner.hears(ours.proposal() + b"F>\r")
        partner.says(b"FS +\r")
        drain()
        self.assertIsNone(partner.process.poll(), "the node has hung up")
        partner.says(b"FF\r")
        partner.hears(b"FQ\r")

    def test_tcp(self):
        "a message that leaves slowly over TCP, in more than --timeout, and a partner who answers then"
        ours = Message(b"1_US", bytes(range(256)) * 150)
        node = self.node().add(ours)
        listener, port = node.listen("--once", "--timeout", "3")
        link = socket.socket()
        link.setsockopt(socket.SOL_SOCKET, socket.SO_RCVBUF, 2048)
        link.connect(("127.0.0.1", port))
        partner = Partner.of_socket(listener, link)

        def drain():
            whole, began = ours.transfer(), time.monotonic()
            heard = partner.early
            partner.early = b""
            while len(heard) < len(whole):
                more = link.recv(1000)
                self.assertTrue(more, "the node hung up after %d of %d bytes" % (len(heard), len(whole)))
                heard += more
                time.sleep(0.2)
            self.assertEqual(heard, whole)
            self.assertGreater(time.monotonic() - began, 6)
        self.sent(node, partner, ours, drain)
        self.assertEqual(listener.wait(PATIENCE), DONE)
        listener.communicate()
        self.assertEqual(node.states(), {b"1_US": FORWARDED})

    def line(self, **settings):
        return dict(os.environ, LD_PRELOAD=self.shim("line"), **settings)

    def test_serial(self):
        "the same on a serial line whose driver still holds the bytes"
        ours = Message(b"1_US", bytes(3000))
        node = self.node(program=PLAIN).add(ours)
        master, slave = os.openpty()
        self.addCleanup(os.close, slave)
        process = node.start("serial", os.ttyname(slave), "1200", "--timeout", "3", env=self.line(LINE_RATE="500"))
        partner = Partner.of_terminal(process, master)

        def drain():
            partner.hears(ours.transfer())
            time.sleep(6)
        self.sent(node, partner, ours, drain)
        self.assertEqual(partner.ends()[0], DONE)
        partner.hang_up()

    def radio(self, node, packet, *options):
        """A session on an AX.25 socket whose packets have so many bytes at most."""
        near, far = socket.socketpair(socket.AF_UNIX, socket.SOCK_SEQPACKET)
        process = node.start("stdio", *options, "--anyone", stdin=near, stdout=near, env=self.line(LINE_RATE="500", LINE_AX25=str(packet)))
        near.close()
        return Partner.of_socket(process, far)

    def test_ax25(self):
        "the same on an AX.25 socket, which tells its room"
        ours = Message(b"1_US", bytes(3000))
        node = self.node(program=PLAIN).add(ours)
        partner = self.radio(node, 65536, "--timeout", "3")

        def drain():
            partner.hears(ours.transfer())
            time.sleep(6)
        self.sent(node, partner, ours, drain)
        partner.hears_end()
        partner.hang_up()
        partner.process.wait(PATIENCE)
        self.says_why((partner.process.returncode, partner.process.stderr.read().decode()), DONE, "ended by FQ")

    def test_packets(self):
        "an AX.25 socket takes 256 bytes at a time and loses what isn't read of a packet: each is read whole, and none is longer"
        ours = Message(b"1_US", bytes(3000))
        node = self.node(program=PLAIN).add(ours)
        partner = self.radio(node, 256, "--login=N0DE", "--question=?")
        partner.says(b"who?" + FRAMED_SID)  # one packet
        partner.hears(b"N0DE\r" + GREETING)
        partner.says(b"FF\r")
        partner.hears(ours.proposal() + b"F>\r")
        partner.says(b"FS +\r")
        partner.hears(ours.transfer())
        partner.says(b"FF\r")
        partner.hears(b"FQ\r")
        partner.hears_end()

    def test_takes_nothing(self):
        "a partner who takes nothing of what we send is silent"
        node = self.node().add(*[Message(b"%d_US" % i, bytes(65535), size=1) for i in range(5)])
        partner = self.called(node, FRAMED_SID + b"FF\r", "--timeout", "1")
        partner.hears(b"".join(Message(b"%d_US" % i, size=1).proposal() for i in range(5)) + b"F>\r")
        partner.says(b"FS +++++\r")
        self.ends_within(partner, 0.5, "the port takes no more bytes")


class Narrow(Timed):
    """A machine whose `long` has 32 bits."""

    def built(self):
        """The host as such a machine would have it: each `long` of its own sources is an int."""
        def narrow(line):
            return re.sub(r"\blong long\b|\blong\b", lambda word: "int" if word[0] == "long" else word[0], line)
        made = []
        for source in (HOST / "host").glob("*.c"):
            if source.stem == "embed":
                continue
            text = subprocess.run(["cc", "-E", "-std=c99", "-D_POSIX_C_SOURCE=200809L", "-I", ROOT / "include", source], check=True, stdout=subprocess.PIPE).stdout.decode()
            ours, lines = False, []
            for line in text.splitlines():
                place = re.match(r'# \d+ "(.*)"', line)
                ours = place[1].startswith(str(HOST)) if place else ours
                lines.append(narrow(line) if ours and not place else line)
            made.append(self.folder / (source.stem + ".i"))
            made[-1].write_text("\n".join(lines) + "\n")
        library = pathlib.Path(os.environ.get("FRINGEMOLE_LIB_DIR", ROOT / "target" / "staticlib"))
        subprocess.run(["cc", "-std=gnu99", "-w", "-O0", "-fsanitize=signed-integer-overflow", "-fno-sanitize-recover=all", "-o", self.folder / "narrow", *made, library / "libfringemole.a", library / "libfringemole_route.a", library / "libfringemole_pages.a", "-lsqlite3"], check=True)
        return self.folder / "narrow"

    def test_uptime(self):
        "with a `long` of 32 bits, on a machine that is up for 25 days, nobody is silent who isn't, and who is silent is hung up on"
        node = self.node(program=self.built())
        shim = dict(os.environ, LD_PRELOAD=self.shim("line"), LINE_UPTIME=str((1 << 31) // 1000 - 1))
        for options, code, why in (((), DONE, "ended by FQ"), (("--timeout", "2"), LINK_DROPPED, "silent")):
            partner = Partner.of_process(node.start("stdio", *options, stdin=subprocess.PIPE, env=shim))
            partner.hears(GREETING)
            partner.says(PLAIN_SID)
            time.sleep(1.5)  # in which 2^31 milliseconds are over
            if code == DONE:
                partner.says(b"FF\r")
                partner.hears(b"FQ\r")
            partner.process.wait(PATIENCE)
            self.says_why(partner.ends(), code, why)


class Held(Timed):
    """A partner who wants to keep us."""

    def test_sid(self):
        "`;` lines before the SID, or single bytes of it, don't prolong --sid-limit"
        partners = []
        for number, data in enumerate((b"; still here\r", b";", b"[")):
            partners.append(self.called(self.node("node%d" % number), b"", "--sid-limit", "2"))
            self.talks(partners[-1], data, 0.1)
        self.all_end(partners, "no SID")

    def test_caller(self):
        "a called station that greets for ever, and one that never gets to its prompt"
        partner = self.node("sid").stdio("--caller", "--sid-limit", "1")
        self.talks(partner, b"; moment\r", 0.1)
        self.ends_within(partner, 0.5, "no SID")
        partner = self.node("prompt").stdio("--caller", "--progress-limit", "1")
        partner.says(PLAIN_SID)
        self.talks(partner, b"a fine mailbox\r", 0.1)
        self.ends_within(partner, 0.5, "no progress")

    def test_no_progress(self):
        "`;` lines and single bytes where a turn, an FS line or a transfer is due are no progress"
        ours, theirs = Message(b"1_US", form="plain"), Message(b"1_T", b"x" * 5000, form="plain")
        cases = {"turn": (b"", b"", b"; still here\r"), "half a turn": (b"", b"", b";"), "FS": (b"FF\r", ours.proposal() + b"F>\r", b";\r"),
                 "transfer": (theirs.proposal() + b"F>\r", b"FS +\r", b"x")}
        partners = []
        for name, (said, heard, again) in cases.items():
            partners.append(self.called(self.node(name).add(ours), PLAIN_SID + said, "--progress-limit", "2"))
            partners[-1].hears(heard)
            if name == "transfer":
                partners[-1].says(b"title\r")
            self.talks(partners[-1], again, 0.1)
        self.all_end(partners, "no progress")

    def test_least_rate(self):
        "a transfer at the least rate is progress, either way, though it takes longer than the limit"
        ours, theirs = Message(b"1_US", b"y" * 1500), Message(b"1_T", b"x" * 1500)
        node = self.node().add(ours)
        partner = self.called(node, FRAMED_SID + theirs.proposal() + b"F>\r", "--progress-limit", "3", "--least-rate", "20")
        partner.hears(b"FS +\r")
        for at in range(0, len(theirs.transfer()), 50):
            partner.says(theirs.transfer()[at:at + 50])
            time.sleep(0.2)
        partner.hears(ours.proposal() + b"F>\r")
        partner.says(b"FS +\r")
        partner.hears(ours.transfer())
        partner.says(b"FF\r")
        partner.hears(b"FQ\r")
        self.assertEqual(partner.ends()[0], DONE)
        self.assertEqual((node.states(), node.inbox()), ({b"1_US": FORWARDED}, [theirs.row()]))

    def test_takes_slowly(self):
        "a partner who takes our bytes below the least rate is hung up on"
        node = self.node().add(*[Message(b"%d_US" % i, bytes(65535), size=1) for i in range(5)])
        partner = self.called(node, FRAMED_SID + b"FF\r", "--progress-limit", "2", "--least-rate", "100000")
        partner.hears(b"".join(Message(b"%d_US" % i, size=1).proposal() for i in range(5)) + b"F>\r")
        partner.says(b"FS +++++\r")
        end = time.monotonic() + PATIENCE
        while partner.process.poll() is None and time.monotonic() < end:
            os.read(partner.process.stdout.fileno(), 4096)
            time.sleep(0.1)
        self.says_why((partner.process.wait(PATIENCE), partner.process.stderr.read().decode()), LINK_DROPPED, "no progress")
        self.assertLess(time.monotonic() - end + PATIENCE, LATE)

    def test_session(self):
        "a partner whose every turn is valid and who never stops is stopped by --session-limit"
        node = self.node().add(Message(b"1_US"))
        partner = self.called(node, PLAIN_SID, "--session-limit", "2")
        began, copies = time.monotonic(), 0
        try:
            while time.monotonic() - began < PATIENCE:
                partner.says(b"FB P A B C 1_US 1\rF>\r")
                partner.hears(b"FS -\rFF\r")
                copies += 1
                time.sleep(0.05)
        except (OSError, AssertionError):
            pass
        took = time.monotonic() - began
        self.assertTrue(1.5 < took < LATE and copies > 2, "%d turns in %.1f s" % (copies, took))
        self.says_why((partner.process.wait(PATIENCE), partner.process.stderr.read().decode()), LINK_DROPPED, "takes too long")

    def test_after_the_end(self):
        "a partner who talks on after a refusal, or after FQ, is left after --linger"
        for number, (last, answer, code) in enumerate(((b"nonsense\r", PROTOCOL_ERROR, REFUSED), (b"FF\r", b"FQ\r", DONE))):
            with self.subTest(last):
                listener, port = self.node("node%d" % number).listen("--once", "--linger", "1")
                with socket.create_connection(("127.0.0.1", port)) as link:
                    partner = Partner.of_socket(listener, link)
                    partner.hears(GREETING)
                    partner.says(PLAIN_SID + last)
                    partner.hears(answer)
                    self.talks(partner, b"and another thing\r", 0.05)
                    began = time.monotonic()
                    self.assertEqual(listener.wait(PATIENCE), code)
                    self.assertLess(time.monotonic() - began, LATE)
                listener.communicate()

    def test_login(self):
        "login keeps no more than --login-limit bytes and waits no longer than --sid-limit"
        with socket.create_server(("127.0.0.1", 0)) as server:
            server.settimeout(PATIENCE)
            port = str(server.getsockname()[1])
            process = self.node("bytes").start("call", port, "--login=N0DE", "--login-limit", "1000")
            partner = Partner.of_socket(process, server.accept()[0])
            partner.says(b"banner! " * 124 + b"Callsign : ")  # one byte of the question beyond the limit
            partner.says(b"Callsign : ")
            self.assertEqual(process.wait(PATIENCE), LINK_DROPPED)
            process = self.node("time").start("call", port, "--login=N0DE", "--sid-limit", "1")
            partner = Partner.of_socket(process, server.accept()[0])
            self.talks(partner, b"banner ", 0.1)
            self.ends_within(partner, 0.5, "never asked", "--sid-limit")
