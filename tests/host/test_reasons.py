"""Why a session is given up: what we say after a refusal before we hang up, and what a partner says."""
import contextlib

from node import *
from tnc import Tnc

PROTOCOL = PROTOCOL_ERROR
PLAIN_SID, FRAMED_SID = b"[TST-1-F$]\r", b"[TST-1-BF$]\r"
OURS = Message(b"1_US", form="plain")
PACKED = b"FA P A B C 1_T 1\rF>\r"

# What a called node hears after its greeting and says to it, up to the refused byte, and the refusal.
WRONG = [
    (2, [(PLAIN_SID + b"x" * 257, b"")]),
    (3, [(b"Hello\r", b"")]),
    (4, [(b"[ZFJ-2.3-H$]\r", b"")]),
    (5, [(PLAIN_SID + b"FB P A B C 1_T\r", b"")]),
    (6, [(PLAIN_SID + b"F>\r", b"")]),
    (7, [(PLAIN_SID + b"FF\r", OURS.proposal() + b"F>\r"), (b"FS ++\r", b"")]),
    (8, [(FRAMED_SID + PACKED, b"FS +\r"), (b"\x02", b"")]),
    (9, [(FRAMED_SID + PACKED, b"FS +\r"), (b"\x01\x04A\x000\x00\x02\x01A\x04\x00", b"")]),
    (10, [(PLAIN_SID + b"FB P A B C 1_T 1\rF>\r", b"FS +\r"), (b"A\rAB", b"")]),
    (13, [(PLAIN_SID + b"FB P A B C 1_T 1\rF> 00\r", b"")]),
]


class Reasons(Folder):
    def says_all(self, partner, said):
        partner.hears(GREETING)
        for theirs, ours in said:
            partner.says(theirs)
            partner.hears(ours)

    def row(self, node):
        return node.ask("SELECT ending, refusal, line FROM session ORDER BY number DESC LIMIT 1")[0]


class Ours(Reasons):
    def test_each(self):
        "after each refusal but 11 the partner hears why, and no more; the transcript and the count of bytes have it"
        for number, said in WRONG:
            with self.subTest(number):
                node, air = self.node("node%d" % number).add(OURS), self.folder / ("air%d" % number)
                partner = node.stdio("--room", "1", "--transcript=%s" % air)
                self.says_all(partner, said)
                partner.hears(reason(number))
                partner.hears_end()
                self.says_why(partner.ends(), REFUSED, "refusal %d: " % number, "%d bytes sent" % len(partner.heard))
                self.assertEqual(self.row(node)[:2], ("refused", number))
                self.assertTrue(air.read_text().endswith("us:       " + reason(number).decode().replace("\r", "\\r") + "\n"))

    def test_silent(self):
        "after 11 and after FQ, either way, nothing is said"
        for said, code in ((b"FF\rX", REFUSED), (b"FF\r", DONE)):
            node = self.node("node%d" % code)
            partner = node.stdio()
            partner.hears(GREETING)
            partner.says(PLAIN_SID + said)
            partner.hears(b"" if code == REFUSED else b"FQ\r")
            partner.hears_end()
            self.assertEqual(partner.ends()[0], code)

    def test_saved_first(self):
        "what the refused call changed is on the disk before a byte of the line is given"
        node, good, bad = self.node(program=PLAIN), Message(b"1_T", b"good", form="plain"), Message(b"2_T", b"bad", form="plain")
        started = []
        events = self.traced(lambda **more: started.append(node.start("stdio", stdin=subprocess.PIPE, **more)))
        partner = Partner.of_process(started[0])
        self.says_all(partner, [(PLAIN_SID + good.proposal() + bad.proposal() + b"F>\r", b"FS ++\r"), (good.transfer() + b"\r", PROTOCOL)])
        partner.hears_end()
        self.assertEqual(partner.ends()[0], REFUSED)
        self.assertEqual(node.inbox(), [good.row()])
        self.assertRegex(events(), r"W[^W]*P[^W]*S[^WP]*W[^W]*$")

    def test_tcp(self):
        "on TCP, called and calling, and a partner who talks on gets it too"
        for talks_on in (b"", b"and another thing\r" * 200):
            listener, port = self.node("called%d" % len(talks_on)).listen("--once")
            with socket.create_connection(("127.0.0.1", port)) as link:
                partner = Partner.of_socket(listener, link)
                partner.hears(GREETING)
                partner.says(PLAIN_SID + b"nonsense\r" + talks_on)
                partner.hears(PROTOCOL)
                partner.hears_end()
            self.says_why((listener.wait(PATIENCE), listener.stderr.read().decode()), REFUSED, "refusal 5: ")
            listener.stderr.close(), listener.stdout.close()
        with socket.create_server(("127.0.0.1", 0)) as server:
            server.settimeout(PATIENCE)
            process = self.node("caller").start("call", str(server.getsockname()[1]))
            with server.accept()[0] as link:
                partner = Partner.of_socket(process, link)
                partner.says(b"Hello\r")
                partner.hears(PROTOCOL)
                partner.hears_end()
                self.says_why(partner.ends(), REFUSED, "refusal 3: ")

    def test_in_time(self):
        "on TCP the link's end follows some seconds later: LinFBB drops a line that it finds together with the end"
        process, port = self.node().listen()
        for said in ([(b"Hello\r", PROTOCOL)], [(PLAIN_SID + b"FF\r", b"FQ\r")], [(PLAIN_SID, b""), (b"nonsense\r", PROTOCOL)]):
            times = []
            while len(times) < 5 and max(times, default=0) < 1:  # where this machine was busy just then, once more
                with socket.create_connection(("127.0.0.1", port)) as link:
                    partner = Partner.of_socket(process, link)
                    self.says_all(partner, said)
                    heard = time.monotonic()
                    partner.hears_end()
                    times.append(time.monotonic() - heard)
            self.assertEqual(max(times) > 1, said[-1][1] == PROTOCOL)

    def test_door(self):
        "a caller whose SID is wrong hears it at the door, before there is a session"
        node = self.node()
        process, port = node.listen()
        for sid in (b"Hello\r", b"[ZFJ-2.3-H$]\r", b"x" * 257):
            with socket.create_connection(("127.0.0.1", port)) as link:
                partner = Partner.of_socket(process, link)
                partner.hears(GREETING)
                partner.says(sid)
                partner.hears(PROTOCOL)
                partner.hears_end()
        process.terminate()
        _, said = process.communicate(timeout=PATIENCE)
        self.assertEqual(said.decode().count("refusal "), 3)
        self.assertEqual(node.ask("SELECT count(*) FROM session"), [(0,)])

    def test_serial(self):
        "on a serial line"
        master, slave = os.openpty()
        partner = Partner.of_terminal(self.node().start("serial", os.ttyname(slave), "9600"), master)
        self.says_all(partner, [(PLAIN_SID + b"nonsense\r", PROTOCOL)])
        self.says_why(partner.ends(), REFUSED, "refusal 5: ")
        os.close(slave), os.close(master)

    def test_packets(self):
        "on an AX.25 socket, as one packet"
        near, far = socket.socketpair(socket.AF_UNIX, socket.SOCK_SEQPACKET)
        env = dict(os.environ, LD_PRELOAD=self.shim("line"), LINE_AX25="256", LINE_RATE="500")
        process = self.node(program=PLAIN).start("stdio", "--anyone", stdin=near, stdout=near, env=env)
        near.close()
        with far:
            far.settimeout(PATIENCE)
            self.assertEqual(far.recv(4096), GREETING)
            far.send(PLAIN_SID + b"nonsense\r")
            self.assertEqual((far.recv(4096), far.recv(4096)), (PROTOCOL, b""))
        self.assertIn("refusal 5: ", process.communicate(timeout=PATIENCE)[1].decode())
        self.assertEqual(process.returncode, REFUSED)

    def test_radio(self):
        "by radio: it is acknowledged before we disconnect, and whoever hears it may disconnect first"
        for leaves in (True, False):
            tnc = Tnc(PATIENCE)
            self.addCleanup(tnc.close)
            node = self.node("radio%d" % leaves)
            process = node.start("agw", "127.0.0.1:%d" % tnc.port, "N0DE-1", "F0ABC-7", "--transcript=%s" % (self.folder / "air"))
            station = tnc.called("F0ABC-7")
            station.says(PLAIN_SID + b">\r")
            station.hears(OUR_SID + b"FF\r")
            station.says(b"FX\r")
            station.hears(PROTOCOL)
            station.disconnects() if leaves else None
            said = process.communicate(timeout=PATIENCE)[1].decode()
            self.says_why((process.returncode, said), REFUSED, "refusal 5: ")
            self.assertNotIn("not acknowledged", said)
            self.assertEqual(("d" in tnc.words(), self.row(node)), (not leaves, ("refused", 5, b"FX\r")))
        self.assertIn("us:       *** Protocol error\\r\n", (self.folder / "air").read_text())

    def test_limits(self):
        "a port that takes no more bytes is left after --linger, with the refusal's code; a link that is gone is no further fault"
        node = self.node()
        listener, port = node.listen("--once", "--drop-after", str(len(GREETING + PLAIN_SID + b"nonsense\r") + 4))
        with socket.create_connection(("127.0.0.1", port)) as link:
            partner = Partner.of_socket(listener, link)
            self.says_all(partner, [(PLAIN_SID + b"nonsense\r", PROTOCOL[:4])])
            partner.hears_end()
        self.says_why((listener.wait(PATIENCE), listener.stderr.read().decode()), REFUSED, "refusal 5: ")
        listener.stderr.close(), listener.stdout.close()
        self.assertEqual(self.row(node), ("refused", 5, b"nonsense\r"))
        partner = node.stdio("--linger", "1")
        partner.hears(GREETING)
        partner.process.stdout.close()
        partner.says(PLAIN_SID + b"nonsense\r")
        self.assertEqual(partner.process.wait(PATIENCE), REFUSED)
        self.assertIn("refusal 5: ", partner.process.stderr.read().decode())
        partner.process.stderr.close(), partner.process.stdin.close()

    def test_full(self):
        "a pipe that takes no more bytes is left after --linger"
        node = self.node()
        read, write = os.pipe()
        os.set_blocking(write, False)
        process = node.start("stdio", "--linger", "1", stdin=subprocess.PIPE, stdout=write)
        until = time.monotonic() + PATIENCE
        heard = b""
        while heard != GREETING and time.monotonic() < until:
            heard += os.read(read, len(GREETING) - len(heard))
        with contextlib.suppress(BlockingIOError):
            while os.write(write, b"." * 4096):
                pass
        with contextlib.suppress(BlockingIOError):
            while os.write(write, b"."):
                pass
        began = time.monotonic()
        process.stdin.write(PLAIN_SID + b"nonsense\r")
        process.stdin.flush()
        self.assertEqual(process.wait(PATIENCE), REFUSED)
        self.assertTrue(0.5 < time.monotonic() - began < LATE)
        self.assertIn("refusal 5: ", process.stderr.read().decode())
        process.stderr.close(), process.stdin.close(), os.close(read), os.close(write)


class Theirs(Reasons):
    """A partner's line that begins with ***, wherever it comes."""

    def told(self, said, refusal, line=PROTOCOL, messages=(), portion=None):
        """The last of `said` has the line: it is told as the partner's reason, on the terminal, in the row and in `sessions`."""
        node = self.node("node%d" % len(list(self.folder.iterdir()))).add(*messages)
        partner = node.stdio()
        self.says_all(partner, said[:-1])
        last = said[-1][0]
        with contextlib.suppress(BrokenPipeError):
            for at in range(0, len(last), portion or len(last)):
                partner.says(last[at:at + (portion or len(last))])
            partner.process.stdin.close()
        partner.hears(reason(refusal))
        partner.hears_end()
        text = line.rstrip(b"\r").decode()
        self.says_why(partner.ends(), REFUSED, "refusal %d: " % refusal, "the partner says why: %s\n" % text)
        self.assertEqual(self.row(node), ("refused", refusal, line))
        self.assertIn("refused, %d: the partner says why: %s" % (refusal, text), node.right("sessions").decode())

    def test_each(self):
        "where a SID, a turn, an FS line or a framed transfer is due, in whatever portions"
        waits = [(PLAIN_SID + b"FF\r", OURS.proposal() + b"F>\r")]
        owed = [(FRAMED_SID + PACKED, b"FS +\r")]
        both = Message(b"1_T", b"A"), FRAMED_SID + PACKED.replace(b"F>", b"FA P A B C 2_T 1\rF>")
        second = [(both[1], b"FS ++\r")]
        for line in (PROTOCOL, b"*** Checksum error (4)\r"):
            for portion in (None, 1):
                for said, refusal in (([(line, b"")], 3), ([(PLAIN_SID + line, b"")], 5), (waits + [(line, b"")], 5), (owed + [(line, b"")], 8),
                                      (second + [(both[0].transfer() + line, b"")], 8)):
                    with self.subTest(refusal=refusal, portion=portion):
                        self.told(said, refusal, line, messages=[OURS], portion=portion)

    def test_line_ends(self):
        "CR LF before and after it"
        self.told([(PLAIN_SID + b"\n" + PROTOCOL + b"\n", b"")], 5)

    def test_early(self):
        "while we speak: of 11 the row has the whole line, not its first byte"
        long = [Message(b"%d_US" % i, b"x" * 65535, size=1) for i in range(5)]  # far more than a pipe holds
        node = self.node().add(*long)
        partner = node.stdio()
        self.says_all(partner, [(FRAMED_SID + b"FF\r", b"".join(m.proposal() for m in long) + b"F>\r"), (b"FS +++++\r", long[0].transfer()[:1])])
        partner.says(PROTOCOL)
        while partner.read():
            pass
        partner.early = b""
        self.says_why(partner.ends(), REFUSED, "refusal 11: ", "the partner says why: *** Protocol error\n")
        self.assertEqual(self.row(node), ("refused", 11, PROTOCOL))

    def test_before_the_prompt(self):
        "before a prompt such a line is text, and the reason if the link drops then"
        node = self.node()
        partner = node.stdio("--caller")
        partner.says(PLAIN_SID + b"*** You are not known here\r\n")
        self.says_why(partner.ends(), LINK_DROPPED, "the link dropped: ", "the partner says why: *** You are not known here\n")
        self.assertEqual(self.row(node)[1:], (0, b"*** You are not known here\r"))
        self.assertIn("the partner says why: *** You", node.right("sessions").decode())

    def test_text(self):
        "a body's line that begins so is text, and is told as nothing else; nor is an older line, or another one"
        theirs = Message(b"1_T", b"*** hello\r*** there\r", form="plain", title=b"*** title")
        for said, refusal in (([(PLAIN_SID + theirs.proposal() + b"F>\r", b"FS +\r"), (theirs.transfer()[:-4], b"")], 0),
                              ([(PLAIN_SID + b"; *** no\r*x\r", PROTOCOL)], 5), ([(PLAIN_SID + b"**\r", PROTOCOL)], 5)):
            node = self.node("node%d" % len(list(self.folder.iterdir())))
            partner = node.stdio()
            self.says_all(partner, said)
            code, err = partner.ends()
            self.assertEqual(code, REFUSED if refusal else LINK_DROPPED)
            self.assertNotIn("says why", err + node.right("sessions").decode())

    def test_unfinished(self):
        "a line whose end never comes is waited for no longer than --linger"
        node = self.node()
        partner = node.stdio("--linger", "1")
        self.says_all(partner, [(FRAMED_SID + PACKED, b"FS +\r"), (b"*** Pro", PROTOCOL)])
        began = time.monotonic()
        self.says_why(partner.ends_itself(), REFUSED, "refusal 8: ", "the partner says why: *** Pro\n")
        self.assertLess(time.monotonic() - began, LATE)

    def test_two_nodes(self):
        "two of our nodes: each hears the other's line, and neither waits for more"
        for way in ("north", "south"):
            north, south = self.node("north-" + way), self.node("south-" + way)
            listener, port = south.listen("--once")
            with socket.create_server(("127.0.0.1", 0)) as server:
                server.settimeout(PATIENCE)
                caller = north.start("call", str(server.getsockname()[1]))
                near = server.accept()[0]
                far = socket.create_connection(("127.0.0.1", port))
                with near, far:
                    self.relays(near, far, way)
                said = [process.communicate(timeout=PATIENCE)[1].decode() for process in (caller, listener)]
            self.assertEqual((caller.returncode, listener.returncode), (REFUSED, REFUSED))
            self.assertEqual([text.count("the partner says why: *** Protocol error\n") for text in said], [1 - (way == "north"), 1 - (way == "south")])

    def relays(self, near, far, way):
        """Passes on all that is said, but for the first byte of the SID that the node of this name hears."""
        ends = {near: far, far: near}
        wrong = far if way == "north" else near  # whose SID is spoilt
        while ends:
            for link in select.select(list(ends), [], [], PATIENCE)[0]:
                data = link.recv(4096)
                if link is wrong and data:
                    data, wrong = data.replace(b"[NOD", b"(NOD", 1), None
                with contextlib.suppress(OSError):
                    ends[link].sendall(data) if data else ends[link].shutdown(socket.SHUT_WR)
                if not data:
                    del ends[link]
