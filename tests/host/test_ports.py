"""Ports: TCP, serial devices, and telnet's ways with a TCP port."""
import contextlib
import termios
import threading
import tty

from node import *

PLAIN_SID, FRAMED_SID = b"[TST-1-F$]\r", b"[TST-1-BF$]\r"
EVERY = bytes(range(256))


@contextlib.contextmanager
def mailbox():
    """A place where a node can call: its port, and what accepts the call."""
    with socket.create_server(("127.0.0.1", 0)) as server:
        server.settimeout(PATIENCE)
        yield server.getsockname()[1], lambda process: Partner.of_socket(process, server.accept()[0])


class Tcp(Folder):
    def test_two_nodes(self):
        "two nodes exchange mail over loopback"
        north = self.node("north").add(Message(b"1_N", EVERY * 40), Message(b"X", b"copy"), Message(b"2_N", b"plain", form="plain"))
        south = self.node("south").add(Message(b"1_S", EVERY[::-1]), Message(b"X", b"copy"))
        listener, port = south.listen("--once")
        self.says_why(north.run("call", "127.0.0.1:%d" % port), DONE, "1 forwarded, 1 declined, 1 still waiting; 1 kept")
        out, err = listener.communicate(timeout=PATIENCE)
        self.says_why((listener.returncode, err.decode()), DONE, "1 forwarded, 1 declined, 0 still waiting; 1 kept")
        self.assertEqual(north.states(), {b"1_N": FORWARDED, b"X": DECLINED, b"2_N": WAITING})
        self.assertEqual(south.states(), {b"1_S": FORWARDED, b"X": DECLINED})
        self.assertEqual(south.inbox(), [Message(b"1_N", EVERY * 40).checked().row()])
        self.assertEqual(north.inbox(), [Message(b"1_S", EVERY[::-1]).checked().row()])

    def test_loopback_only(self):
        "without a HOST the node listens on 127.0.0.1 only"
        listener, port = self.node().listen()
        with open("/proc/net/tcp") as table:
            local = [line.split()[1] for line in table if line.split()[3] == "0A"]
        listener.kill()
        listener.communicate()
        self.assertEqual([a for a in local if a.endswith(":%04X" % port)], ["0100007F:%04X" % port])

    def test_ipv6(self):
        "an address with colons stands in brackets"
        try:
            socket.create_server(("::1", 0), family=socket.AF_INET6).close()
        except OSError:
            self.skipTest("this machine has no IPv6")
        listener = self.node("south").start("listen", "[::1]:0", "--once")
        line = listener.stderr.readline().decode().strip()
        self.assertIn("listening on [::1]:", line)
        self.assertEqual(self.node("north").run("call", line.split(" on ")[1])[0], DONE)
        self.assertEqual(listener.wait(PATIENCE), DONE)
        listener.communicate()

    def test_bad_ports(self):
        "each bad port is named, with exit code 4"
        node = self.node()
        (self.folder / "file").touch()
        with socket.create_server(("127.0.0.1", 0)) as taken:
            for words, why in [(("call", "127.0.0.1:%d" % free_port()), "Connection refused"), (("call", "nowhere.invalid:1"), "nowhere.invalid:1: "),
                               (("call", "127.0.0.1:"), "not an address"), (("call", "127.0.0.1:port"), "127.0.0.1:port: "),
                               (("listen", str(taken.getsockname()[1])), "in use"), (("listen", "192.0.2.1:0"), "192.0.2.1:0: "),
                               (("serial", "/dev/none", "1200"), "/dev/none: No such file"), (("serial", self.folder / "file", "9600"), "file: "),
                               (("serial", "/dev/tty", "300.5"), "300.5: no speed"), (("call", "127.0.0.1:65536"), "at most 65535"),
                               (("listen", "65536"), "at most 65535"), (("listen", "99999999999999999999"), "at most 65535")]:
                with self.subTest(words):
                    self.says_why(node.run(*words), BAD_PORT, why)

    def test_many_sessions(self):
        "a listening node serves one partner after another, and its base is free in between"
        node = self.node()
        listener, port = node.listen()
        for number in range(3):
            with socket.create_connection(("127.0.0.1", port)) as link:
                partner = Partner.of_socket(listener, link)
                partner.hears(GREETING)
                partner.says(PLAIN_SID + Message(b"%d_T" % number, form="plain").proposal() + b"F>\r")
                partner.hears(b"FS +\r")
                if number == 1:
                    continue  # this one drops
                partner.says(Message(b"%d_T" % number, form="plain").transfer())
                partner.hears(Message(b"0_US", form="plain").proposal() + b"F>\r" if number else b"FF\r")
                partner.says(b"FS -\rFF\r" if number else b"FQ\r")
                partner.hears(b"FQ\r" if number else b"")
                partner.hears_end()
            if not number:
                node.add(Message(b"0_US", form="plain"))
        listener.kill()
        listener.communicate()
        self.assertEqual([row[5] for row in node.inbox()], [b"0_T", b"2_T"])
        self.assertEqual(node.states(), {b"0_US": DECLINED})

    def test_we_hang_up(self):
        "at the end, by either FQ, the node hangs up, though the partner doesn't and bytes of it are unread"
        node = self.node()
        with mailbox() as (port, accept):
            partner = accept(process := node.start("call", str(port)))
            partner.says(PLAIN_SID + b">\r")
            partner.hears(OUR_SID + b"FF\r")
            partner.says(b"FB P A B C 1_T 1\rF>\r")
            partner.hears(b"FS +\r")
            partner.says(b"A\rB\x1a\r")
            partner.hears(b"FF\r")
            partner.says(b"FQ\r\n" + b"unread" * 1000)
            partner.hears_end()
            self.assertEqual(partner.ends()[0], DONE)
        listener, port = node.listen("--once")
        with socket.create_connection(("127.0.0.1", port)) as link:
            partner = Partner.of_socket(listener, link)
            partner.hears(GREETING)
            partner.says(PLAIN_SID + b"FF\r\n")
            partner.hears(b"FQ\r")
            partner.hears_end()
            self.assertEqual(partner.ends()[0], DONE)
        self.assertIsNotNone(process)


class Telnet(Folder):
    def test_login(self):
        "the login line goes out after the question and not before; then all bytes are the protocol's"
        with mailbox() as (port, accept):
            partner = accept(self.node().start("call", str(port), "--login", ".N0DE"))
            partner.says(b"\xff\xfc\x01\r\nF0FBB Mailbox\r\nPassword : no. Callsign :")
            self.assertEqual(select.select([partner.process.stderr], [], [], 0.2)[0], [])
            partner.says(b" ")
            partner.hears(b".N0DE\r")
            partner.says(PLAIN_SID + b"(1) F0FBB BBS>\r")
            partner.hears(OUR_SID + b"FF\r")
            partner.says(b"FQ\r")
            partner.hears_end()
            partner.hang_up()
            self.assertEqual(partner.ends()[0], DONE)

    def test_question(self):
        "another question; a question that never comes"
        with mailbox() as (port, accept):
            partner = accept(self.node().start("call", str(port), "--login=me", "--question=login:"))
            partner.says(b"login:")
            partner.hears(b"me\r")
            partner.hang_up()
            self.assertEqual(partner.ends()[0], LINK_DROPPED)
            partner = accept(self.node().start("call", str(port), "--login=me"))
            partner.says(PLAIN_SID + b">\r")
            partner.hang_up()
            self.says_why(partner.ends(), LINK_DROPPED, 'never asked "Callsign : "')

    def doubled(self, portions):
        theirs, ours = Message(b"1_T", b"\xff\x00\xff\xff" + EVERY), Message(b"1_US", EVERY + b"\xff\xff\xff")
        node = self.node("node%d" % portions).add(ours)

        def wire(data):
            return data.replace(b"\xff", b"\xff\xff")

        def says(data):
            for i in range(0, len(data), portions):
                partner.says(data[i:i + portions])
        listener, port = node.listen("--once", "--telnet")
        with socket.create_connection(("127.0.0.1", port)) as link:
            link.setsockopt(socket.IPPROTO_TCP, socket.TCP_NODELAY, 1)
            partner = Partner.of_socket(listener, link)
            partner.hears(GREETING)
            # options and a suboption are no data
            says(b"\xff\xfc\x01\xff\xfa\x18\xff\xff\x00\xff\xf0\xff\xf1" + FRAMED_SID + b"\n" + theirs.proposal() + b"\nF>\r\n")
            partner.hears(b"FS +\r")
            says(wire(theirs.transfer()))
            partner.hears(ours.proposal() + b"F>\r")
            says(b"FS +\r\n")
            partner.hears(wire(ours.transfer()))
            says(b"FF\r\n")
            partner.hears(b"FQ\r")
            partner.hears_end()
            partner.hang_up()
            self.assertEqual(partner.ends()[0], DONE)
        self.assertEqual((node.inbox(), node.states()), ([theirs.row()], {b"1_US": FORWARDED}))

    def test_doubling(self):
        "FF bytes are doubled both ways, commands are passed over, in whatever portions"
        for portions in (1, 2, 3, 4096):
            with self.subTest(portions):
                self.doubled(portions)


class Serial(Folder):
    def terminal(self):
        master, slave = os.openpty()
        self.addCleanup(os.close, slave)
        return master, slave

    def opened(self, node, line, bits="9600", *options, **more):
        """A process that has its line."""
        process = node.start("serial", os.ttyname(line), bits, *options, **more)
        if not OLDER:
            self.assertIn("open at %s bit/s" % bits, next_line(process))
        return process

    def session(self, bits, speed):
        master, slave = self.terminal()
        theirs, ours = Message(b"%s_T" % bits.encode(), EVERY * 2), Message(b"%s_US" % bits.encode(), EVERY[::-1] * 2)
        node = self.node("node" + bits).add(ours)
        partner = Partner.of_terminal(self.opened(node, slave, bits), master)
        partner.hears(GREETING)
        modes = termios.tcgetattr(slave)
        self.assertEqual((modes[4], modes[5]), (speed, speed))
        partner.says(FRAMED_SID + theirs.proposal() + b"F>\r")
        partner.hears(b"FS +\r")
        partner.says(theirs.transfer())
        partner.hears(ours.proposal() + b"F>\r")
        partner.says(b"FS +\r")
        partner.hears(ours.transfer())
        partner.says(b"FF\r")
        partner.hears(b"FQ\r")
        self.assertEqual(partner.ends()[0], DONE)
        self.assertEqual((node.inbox(), node.states()), ([theirs.row()], {ours.bid: FORWARDED}))
        partner.hang_up()

    def test_speeds(self):
        "sessions from 300 to 230400 bit/s on a pseudo-terminal that was cooked, every byte value both ways"
        for bits in ("300", "1200", "9600", "19200", "57600", "230400"):
            self.session(bits, getattr(termios, "B" + bits))

    def test_given_back(self):
        "the line's mode is as it was, after a session, a dropped one and one that SIGTERM ended"
        master, slave = self.terminal()
        before = termios.tcgetattr(slave)
        for number, (said, code) in enumerate(((b"[TST-1-F$]\rFF\r", DONE), (b"Hello\r", REFUSED), (b"", -15))):
            partner = Partner.of_terminal(self.opened(self.node("node%d" % number), slave), master)
            partner.hears(GREETING)
            self.assertNotEqual(termios.tcgetattr(slave), before)
            partner.write(said)
            if code == -15:
                partner.process.terminate()
            self.assertEqual(partner.process.wait(PATIENCE), code)
            self.assertEqual(termios.tcgetattr(slave), before, code)
            partner.process.communicate()
            termios.tcflush(master, termios.TCIOFLUSH)

    def test_flow(self):
        "--rtscts and only that switches hardware flow control on"
        for options, flow in (((), 0), (("--rtscts",), termios.CRTSCTS)):
            master, slave = self.terminal()
            partner = Partner.of_terminal(self.opened(self.node("node%d" % len(options)), slave, "9600", *options), master)
            partner.hears(GREETING)
            self.assertEqual(termios.tcgetattr(slave)[2] & termios.CRTSCTS, flow)
            partner.process.kill()
            partner.process.communicate()

    def test_locked(self):
        "a second process doesn't get the line, and leaves the first its mode"
        master, slave = self.terminal()
        first = Partner.of_terminal(self.opened(self.node("first"), slave), master)
        first.hears(GREETING)
        mode = termios.tcgetattr(slave)
        self.says_why(self.node("second").run("serial", os.ttyname(slave), "1200"), BAD_PORT, "in use by another process")
        self.assertEqual(termios.tcgetattr(slave), mode)
        first.process.kill()
        first.process.communicate()
        third = Partner.of_terminal(self.opened(self.node("third"), slave), master)
        third.hears(GREETING)

    def test_stale(self):
        "what lay on the line before the node opened it is no part of the session"
        master, slave = self.terminal()
        tty.setraw(slave)
        os.write(master, b"CONNECTED to F0FBB\rgarbage\r")
        time.sleep(0.2)
        partner = Partner.of_terminal(self.opened(self.node(), slave), master)
        partner.hears(GREETING)
        partner.says(PLAIN_SID + b"FF\r")
        partner.hears(b"FQ\r")
        self.assertEqual(partner.process.wait(PATIENCE), DONE)

    def test_carrier(self):
        "where the line has carrier, its loss is a dropped link"
        shim, carrier = self.shim("line"), self.folder / "carrier"
        carrier.touch()
        master, slave = self.terminal()
        node = self.node(program=PLAIN)
        partner = Partner.of_terminal(self.opened(node, slave, env=dict(os.environ, LD_PRELOAD=shim, LINE_CARRIER=str(carrier))), master)
        partner.hears(GREETING)
        partner.says(PLAIN_SID)
        time.sleep(1)
        self.assertIsNone(partner.process.poll())
        carrier.unlink()
        self.assertEqual(partner.process.wait(PATIENCE), LINK_DROPPED)
        self.assertIn("the carrier is lost", partner.process.stderr.read().decode())

    def test_hang_up(self):
        "a serial line that goes away is a dropped link"
        master, slave = os.openpty()
        node = self.node()
        partner = Partner.of_terminal(self.opened(node, slave, "9600", "--caller"), master)
        partner.says(b"[TST-1-F$")
        while not select.select([], [master], [], 0)[1]:
            pass
        os.close(slave)
        time.sleep(0.2)
        partner.hang_up()
        self.says_why(partner.ends(), LINK_DROPPED, "the link dropped")

    def test_paced(self):
        "two nodes over a line as slow as 9600 bit/s, byte by byte"
        north, south = self.node("north").add(Message(b"1_N", EVERY * 4)), self.node("south").add(Message(b"1_S", EVERY))
        (left, left_line), (right, right_line) = self.terminal(), self.terminal()
        for line in (left_line, right_line):
            tty.setraw(line)
        caller = self.opened(north, left_line, "9600", "--caller")
        called = self.opened(south, right_line, "9600", "--called")

        def pass_on(from_, to):
            with contextlib.suppress(OSError):
                while data := os.read(from_, 1):
                    os.write(to, data)
                    time.sleep(1 / 960)
        pumps = [threading.Thread(target=pass_on, args=pair, daemon=True) for pair in ((left, right), (right, left))]
        for pump in pumps:
            pump.start()
        self.assertEqual((caller.wait(PATIENCE), called.wait(PATIENCE)), (DONE, DONE))
        for process in (caller, called):
            process.communicate()
        self.assertEqual((north.states(), south.states()), ({b"1_N": FORWARDED}, {b"1_S": FORWARDED}))
        self.assertEqual((south.inbox(), north.inbox()), ([Message(b"1_N", EVERY * 4).checked().row()], [Message(b"1_S", EVERY).checked().row()]))


class Unsaid(Folder):
    """What is said to the operator never goes onto the link."""

    def inetd(self, node, *options, base=None, **more):
        """As inetd starts it: one socket is standard input, output and error."""
        near, far = socket.socketpair()
        node.started.append(subprocess.Popen([node.program, base or node.path, "stdio", *options], stdin=near, stdout=near, stderr=near, **more))
        near.close()
        return Partner.of_socket(node.started[-1], far)

    def test_inetd(self):
        "with standard error on the socket only the protocol's bytes are sent, whatever happens"
        node = self.node()
        partner = self.inetd(node, "--transcript", "--progress")
        partner.hears(GREETING)
        partner.says(PLAIN_SID + b"FF\r")
        partner.hears(b"FQ\r")
        partner.hears_end()
        partner = self.inetd(node)
        partner.hears(GREETING)
        partner.says(b"Hello\r")
        partner.hears(PROTOCOL_ERROR)
        partner.hears_end()
        for options, base in ((("--nonsense",), None), ((), "/nowhere/base"), (("--transcript=/nowhere/air",), None), (("--timeout", "1"), "/dev/null")):
            with self.subTest(options):
                self.inetd(node, *options, base=base).hears_end()

    def test_log(self):
        "--log takes what is said instead"
        node, log = self.node(), self.folder / "log"
        partner = self.inetd(node, "--log", str(log))
        partner.hears(GREETING)
        partner.says(b"Hello\r")
        partner.hears(PROTOCOL_ERROR)
        partner.hears_end()
        partner.process.wait(PATIENCE)
        self.assertIn("refusal 3", log.read_text())
        self.assertEqual(log.stat().st_mode & 0o77, 0)

    def test_pipe(self):
        "the same where standard output and error are one pipe, or the serial line itself is standard error"
        node = self.node()
        process = subprocess.Popen([node.program, node.path, "stdio"], stdin=subprocess.PIPE, stdout=subprocess.PIPE, stderr=subprocess.STDOUT)
        node.started.append(process)
        self.assertEqual(process.communicate(b"Hello\r", timeout=PATIENCE)[0], GREETING + PROTOCOL_ERROR)
        master, slave = os.openpty()
        tty.setraw(slave)
        process = subprocess.Popen([node.program, node.path, "serial", os.ttyname(slave), "9600"], stderr=slave)
        node.started.append(process)
        partner = Partner.of_terminal(process, master)
        partner.hears(GREETING)
        partner.says(b"Hello\r")
        partner.hears(PROTOCOL_ERROR)
        self.assertEqual(process.wait(PATIENCE), REFUSED)
        os.close(slave)
        partner.hears_end()

    def test_closed(self):
        "with standard descriptors closed no file or link of ours takes their place"
        node = self.node().add(Message(b"1_US"))
        for closed in ("2>&-", "2>&- 1>&-", "2>&- 1>&- 0<&-"):
            with self.subTest(closed), socket.create_server(("127.0.0.1", 0)) as server:
                server.settimeout(PATIENCE)
                process = subprocess.Popen(["sh", "-c", 'exec "$0" "$1" call "$2" ' + closed, node.program, node.path, str(server.getsockname()[1])])
                node.started.append(process)
                partner = Partner.of_socket(process, server.accept()[0])
                partner.says(b"Hello\r")
                partner.hears(PROTOCOL_ERROR)
                partner.hears_end()
                self.assertEqual(process.wait(PATIENCE), REFUSED)
        master, slave = os.openpty()
        tty.setraw(slave)
        process = subprocess.Popen(["sh", "-c", 'exec "$0" "$1" serial "$2" 9600 2>&-', node.program, node.path, os.ttyname(slave)])
        node.started.append(process)
        partner = Partner.of_terminal(process, master)
        partner.hears(GREETING)
        partner.says(b"Hello\r")
        partner.hears(PROTOCOL_ERROR)
        self.assertEqual(process.wait(PATIENCE), REFUSED)
        os.close(slave)
        partner.hears_end()
        self.assertEqual(node.ask("PRAGMA integrity_check"), [("ok",)])
        self.assertEqual(node.states(), {b"1_US": WAITING})
