"""Links by radio: a TNC's, over AGW. `tnc.py` plays the TNC; tests/radio has a real one."""
import random
import signal
import threading

from node import *
from tnc import Tnc, pack

PLAIN_SID, FRAMED_SID = b"[TST-1-F$]\r", b"[TST-1-BF$]\r"
EVERY = bytes(range(256))
US, PARTNER = "N0DE-1", "F0ABC-7"
LOST, GONE = b"the radio link is lost (RETRYOUT)", b"the partner has disconnected"
PORTION, WINDOW = 236, 8


class Radio(Folder):
    def tnc(self, **more):
        tnc = Tnc(PATIENCE, **more)
        self.addCleanup(tnc.close)
        return tnc

    def calls(self, node, tnc, *options, **more):
        """A node that calls the partner, and the partner."""
        process = node.start("agw", "127.0.0.1:%d" % tnc.port, US.lower(), PARTNER, *options)
        return process, tnc.called(PARTNER, **more)

    def listens(self, node, tnc, *options):
        process = node.start("agw", str(tnc.port), US, "--listen", *options)
        self.assertIn("listening as %s on radio " % US, next_line(process))
        return process

    def ended(self, process, code, *words):
        said = process.communicate(timeout=PATIENCE)[1].decode()
        self.says_why((process.returncode, said), code, *words)
        return said

    def endings(self, node):
        return [row for row, in node.ask("SELECT CAST(ending AS BLOB) FROM session ORDER BY number")]

    def saved(self, node, *endings):
        """The rows of the sessions say how they ended, the last one's a moment after the partner has gone."""
        end = time.monotonic() + PATIENCE
        while self.endings(node) != list(endings) and time.monotonic() < end:
            time.sleep(0.01)
        self.assertEqual(self.endings(node), list(endings))

    def partner(self, node):
        node.right("admit", "F0ABC")
        return node

    def takes(self, station, message, sid=PLAIN_SID):
        """A called node's session in which the station takes this message."""
        station.hears(GREETING)
        station.says(sid + b"FF\r")
        station.hears(message.proposal() + b"F>\r")
        station.says(b"FS +\r")
        station.hears(message.transfer())
        station.says(b"FF\r")
        self.leaves(station)

    def leaves(self, station):
        """The node says FQ, and who hears it disconnects."""
        station.hears(b"FQ\r")
        station.disconnects()
        station.hears_end()


class Calls(Radio):
    def test_two_nodes(self):
        "two nodes exchange packed mail by a TNC, byte for byte, and nothing but the protocol's bytes is on the air"
        north = self.node("north").add(Message(b"1_N", EVERY * 40), Message(b"X", b"copy"))
        south = self.node("south").add(Message(b"1_S", EVERY[::-1] * 3), Message(b"X", b"copy"))
        south.right("admit", "N0DE")
        tnc = self.tnc()
        listener = south.start("agw", str(tnc.port), "F0abc-7", "--listen", "--once", "--transcript=%s" % (self.folder / "air"))
        tnc.registered(PARTNER)
        self.says_why(north.run("agw", str(tnc.port), US, PARTNER), DONE, "linked with F0ABC-7", "1 forwarded, 1 declined, 0 still waiting; 1 kept")
        self.ended(listener, DONE, "N0DE-1 calls", "1 forwarded, 1 declined, 0 still waiting; 1 kept")
        self.assertEqual(north.states(), {b"1_N": FORWARDED, b"X": DECLINED})
        self.assertEqual(south.states(), {b"1_S": FORWARDED, b"X": DECLINED})
        self.assertEqual(south.inbox(), [Message(b"1_N", EVERY * 40).checked().row()])
        self.assertEqual(north.inbox(), [Message(b"1_S", EVERY[::-1] * 3).checked().row()])
        self.assertEqual(north.ask("SELECT partner, role FROM session"), [(b"F0ABC", 1)])
        self.assertEqual(south.ask("SELECT partner, role FROM session"), [(b"N0DE", 0)])
        calls = [end for end in tnc.ends if end.name == PARTNER]
        self.assertEqual(len(calls), 1)
        self.assertTrue(calls[0].heard.startswith(OUR_SID + Message(b"1_N", EVERY * 40).checked().proposal()))
        self.assertNotIn("lost", " ".join(tnc.words()))

    def test_via(self):
        "a call by digipeaters names them; capitals, and an SSID of 0 is none"
        tnc = self.tnc()
        process = self.node().start("agw", str(tnc.port), "n0de-1", "f0abc-7", "via", "f0dig-0", "F0DIG-15")
        station = tnc.called(PARTNER)
        call = next(frame for frame in tnc.frames if frame.kind == "X")
        self.assertEqual(call.source, US)
        station.says(PLAIN_SID + b">\r")
        station.hears(OUR_SID + b"FF\r")
        station.says(b"FQ\r")
        self.ended(process, DONE)

    def test_via_frame(self):
        "the frame that calls by digipeaters, byte for byte; an alias can be called, and names no partner"
        tnc, node = self.tnc(), self.node()
        process = node.start("agw", str(tnc.port), US, "mybbs", "VIA", "f0dig-0", "F0DIG-15")
        call = tnc.until(lambda: next((frame for frame in tnc.frames if frame.kind == "v"), None), "a call")
        self.assertEqual((call.radio, call.source, call.target), (0, US, "MYBBS"))
        self.assertEqual(call.data, b"\2" + b"F0DIG".ljust(10, b"\0") + b"F0DIG-15".ljust(10, b"\0"))
        station = tnc.called("MYBBS")
        station.says(PLAIN_SID + b">\r")
        station.hears(OUR_SID + b"FF\r")
        station.says(b"FQ\r")
        self.ended(process, DONE)
        self.assertEqual(node.ask("SELECT partner FROM session"), [(b"",)])

    def test_radio(self):
        "a radio of several; one that the TNC hasn't got"
        for number, radios in ((1, b"2;Port1 one;Port2 two;\0"), (4, b"2;Port1 one;Port5 five;\0")):
            tnc = self.tnc(radios=radios)
            process, station = self.calls(self.node(), tnc, "--radio", str(number))
            self.assertEqual(station.end.radio, number)
            station.says(PLAIN_SID + b">\r")
            station.hears(OUR_SID + b"FF\r")
            station.says(b"FQ\r")
            self.ended(process, DONE)
            self.assertEqual({frame.radio for frame in tnc.frames}, {number})
            for wrong in ("2", "14", "255"):
                self.says_why(self.node().run("agw", str(tnc.port), US, PARTNER, "--radio", wrong), BAD_PORT, "has no radio " + wrong)

    def test_login(self):
        "a login by radio"
        process, station = self.calls(self.node(), self.tnc(), "--login", "N0DE", "--question", "call?")
        station.says(b"Welcome, call?")
        station.hears(b"N0DE\r")
        station.says(PLAIN_SID + b">\r")
        station.hears(OUR_SID + b"FF\r")
        station.says(b"FQ\r")
        self.ended(process, DONE)

    def test_no_link(self):
        "nobody answers, or refuses, or the TNC says nothing: exit code 5, no row, and the TNC is told to give up"
        node = self.node()
        for text, words in (("RETRYOUT With", "F0ABC-7 doesn't answer"), ("From Station", "F0ABC-7 refuses our call")):
            tnc = self.tnc()
            process = node.start("agw", str(tnc.port), US, PARTNER)
            tnc.until(lambda: "C" in tnc.words(), "a call")
            tnc.sends(US, pack("d", PARTNER, US, b"*** DISCONNECTED " + text.encode() + b" F0ABC-7\r\0"))
            self.ended(process, LINK_DROPPED, words)
            self.assertNotIn("d", tnc.words())
        tnc = self.tnc()
        self.says_why(node.run("agw", str(tnc.port), US, PARTNER, "--sid-limit", "1"), LINK_DROPPED, "F0ABC-7 doesn't answer")
        self.assertEqual([word for word in tnc.words() if word in ("d", "confirmed")], ["d", "confirmed"])
        self.assertEqual(node.ask("SELECT count(*) FROM session"), [(0,)])

    def test_usage(self):
        "words that make no call"
        node = self.node()
        for words in ((), ("1",), ("1", US), ("1", US, PARTNER, "via"), ("1", US, PARTNER, "by", "F0DIG"), ("1", US, PARTNER, "via", *["F0DIG"] * 8),
                      ("1", "N0DE-16", PARTNER), ("1", "N0-DE", PARTNER), ("1", US, "F0ABCDE"), ("1", US, ""), ("1", US, PARTNER, "via", "F0.IG"),
                      ("1", US, PARTNER, "--listen"), ("1", US, PARTNER, "--radio", "256"), ("1", US, PARTNER, "--radio", "x")):
            with self.subTest(words):
                self.says_why(node.run("agw", *words), BAD_USAGE)

    def test_no_tnc(self):
        "no TNC, one that doesn't take our callsign, one that says nothing, and what is none"
        node = self.node()
        for more in ((PARTNER,), ("--listen",)):
            self.says_why(node.run("agw", str(free_port()), US, *more), BAD_PORT, "Connection refused")
            self.says_why(node.run("agw", str(self.tnc(registers=b"\0").port), US, *more), BAD_PORT, "doesn't take N0DE-1 as ours")
            self.says_why(node.run("agw", str(self.tnc(registers=b"").port), US, *more), BAD_PORT, "doesn't take N0DE-1 as ours")
        with socket.create_server(("127.0.0.1", 0)) as silent:
            self.says_why(node.run("agw", str(silent.getsockname()[1]), US, PARTNER), BAD_PORT, "doesn't answer as AGW has it")


class Ends(Radio):
    def session(self, station):
        """To the FQ of a node that calls, in the role of one that is called."""
        station.hears(GREETING)
        station.says(PLAIN_SID + b"FF\r")

    def test_waits(self):
        "before it disconnects the node waits until nothing is outstanding: what it said last arrives"
        process, station = self.calls(self.node(), tnc := self.tnc(), "--called")
        self.session_held(process, station, tnc)
        station.acknowledges_all()
        station.hears(b"FQ\r")
        station.hears_end()
        self.ended(process, DONE, "ended by FQ")
        self.assertNotIn("lost 1", tnc.words())

    def session_held(self, process, station, tnc):
        """To the same FQ, which isn't acknowledged; a second later the node still waits."""
        station.hears(GREETING)
        with tnc.changed:
            station.end.other.holds = True
        station.says(PLAIN_SID + b"FF\r")
        station.holds()
        time.sleep(1)
        self.assertNotIn("d", tnc.words())
        self.assertIsNone(process.poll())

    def test_partner_first(self):
        "a partner who heard our FQ disconnects: we leave that to it for some seconds, so that two disconnects don't cross; then we do"
        for leaves in (True, False):
            tnc = self.tnc()
            process, station = self.calls(self.node(), tnc, "--called")
            self.session(station)
            station.hears(b"FQ\r")
            began = time.monotonic()
            time.sleep(1)
            station.disconnects() if leaves else None
            self.ended(process, DONE, "ended by FQ")
            self.assertEqual("d" in tnc.words(), not leaves)
            self.assertTrue(leaves or time.monotonic() - began > 4)

    def test_confirmed(self):
        "the disconnect is awaited before the connection with the TNC is closed: at the end, after a refusal, a drop, a limit, a signal, a bad base"
        def fq(process, station):
            self.session(station)

        def refusal(process, station):
            station.says(PLAIN_SID + b">\r")
            station.hears(OUR_SID + b"FF\r")
            station.says(b"FX\r")

        def drop(process, station):
            station.says(PLAIN_SID + b">\r")

        def signaled(process, station):
            station.says(PLAIN_SID + b">\r")
            station.hears(OUR_SID)
            process.send_signal(signal.SIGTERM)

        def nothing(process, station):
            pass

        for how, options, code in ((fq, ("--called",), DONE), (refusal, (), REFUSED), (drop, ("--drop-after", "9"), LINK_DROPPED), (signaled, (), -15),
                                   (nothing, ("--timeout", "1"), LINK_DROPPED), (nothing, ("--sid-limit", "1"), LINK_DROPPED),
                                   (fq, ("--called", "--linger", "0"), DONE), (nothing, ("--transcript=/dev/none/none",), FAILED)):
            with self.subTest(how=how.__name__, options=options):
                tnc = self.tnc()
                tnc.confirms = 1.5
                process, station = self.calls(self.node(), tnc, *options)
                how(process, station)
                self.ended(process, code)
                tnc.until(lambda: "closed" in tnc.words(), "the end")
                self.assertEqual([word for word in tnc.words() if word in ("d", "confirmed", "closed")], ["d", "confirmed", "closed"])

    def test_never_confirmed(self):
        "a TNC that never confirms holds us no longer than --linger, at least ten seconds"
        tnc = self.tnc()
        tnc.confirms = None
        process, station = self.calls(self.node(), tnc, "--called", "--linger", "1")
        began = time.monotonic()
        self.session(station)
        self.ended(process, DONE, "doesn't tell that F0ABC-7 is disconnected")
        self.assertTrue(9 < time.monotonic() - began < LATE)

    def test_lost(self):
        "RETRYOUT is a dropped link, in the exit code and in the session's row; no disconnect goes out any more"
        node, tnc = self.node(), self.tnc()
        process, station = self.calls(node, tnc)
        station.says(PLAIN_SID + b">\r")
        station.hears(OUR_SID + b"FF\r")
        station.is_lost()
        self.ended(process, LINK_DROPPED, "the link dropped: the radio link is lost (RETRYOUT)")
        self.assertEqual(self.endings(node), [LOST])
        self.assertNotIn("d", tnc.words())

    def test_lost_at_last(self):
        ".. also when all is said but our FQ isn't acknowledged"
        node, tnc = self.node(), self.tnc()
        process, station = self.calls(node, tnc, "--called")
        self.session_held(process, station, tnc)
        station.is_lost()
        self.ended(process, LINK_DROPPED, "the link dropped: the radio link is lost (RETRYOUT)")
        self.assertEqual(self.endings(node), [LOST])

    def test_disconnected(self):
        "a partner's disconnect is a normal end once somebody has said FQ; before that the link dropped"
        node, tnc = self.node(), self.tnc()
        process, station = self.calls(node, tnc, "--called")
        self.session_held(process, station, tnc)
        station.disconnects()
        self.ended(process, DONE, "ended by FQ")
        process, station = self.calls(node, tnc)
        station.says(PLAIN_SID + b">\r")
        station.hears(OUR_SID + b"FF\r")
        station.says(b"FQ\r")
        station.disconnects()
        self.ended(process, DONE, "ended by FQ")
        process, station = self.calls(node, tnc)
        station.says(PLAIN_SID + b">\r")
        station.hears(OUR_SID + b"FF\r")
        station.disconnects()
        self.ended(process, LINK_DROPPED, "the link dropped: the partner has disconnected")
        self.assertEqual(self.endings(node), [b"FQ", b"FQ", GONE])

    def test_last_words(self):
        "what came before a disconnect counts, though both came at once"
        node, tnc = self.node(), self.tnc()
        process, station = self.calls(node, tnc)
        station.says(FRAMED_SID + b">\r")
        station.hears(OUR_SID + b"FF\r")
        message = Message(b"1_T", EVERY * 30)
        data = message.proposal() + b"F>\r"
        station.says(data)
        station.hears(b"FS +\r")
        data = message.transfer()
        frames = b"".join(pack("D", PARTNER, US, data[at:at + 128]) for at in range(0, len(data), 128))
        tnc.sends(US, frames + pack("d", PARTNER, US, b"*** DISCONNECTED From Station F0ABC-7\r\0"))
        self.ended(process, LINK_DROPPED, "the partner has disconnected")
        self.assertEqual(node.inbox(), [message.row()])

    def test_tnc_gone(self):
        "a TNC that goes away in a session is a dropped link"
        node, tnc = self.node(), self.tnc()
        process, station = self.calls(node, tnc)
        station.hears(b"")
        station.says(PLAIN_SID + b">\r")
        station.hears(OUR_SID + b"FF\r")
        tnc.close()
        self.ended(process, LINK_DROPPED, "the link dropped: the TNC has closed its connection")
        self.assertEqual(self.endings(node), [b"the TNC has closed its connection"])


class HeldBack(Radio):
    body = EVERY * 24

    def sends(self, node, tnc, *options):
        """A node that has begun to send a long message."""
        node.add(Message(b"1_US", self.body))
        process, station = self.calls(node, tnc, *options)
        station.says(FRAMED_SID + b">\r")
        station.hears(OUR_SID + Message(b"1_US", self.body).proposal() + b"F>\r")
        with tnc.changed:
            station.end.other.holds = True
        station.says(b"FS +\r")
        return process, station

    def finishes(self, process, station):
        station.hears(Message(b"1_US", self.body).transfer())
        station.says(b"FF\r")
        station.hears(b"FQ\r")
        self.ended(process, DONE, "1 forwarded")

    def test_window(self):
        "frames have at most 236 bytes, and at most 8 are outstanding, however the partner acknowledges"
        node, tnc = self.node(), self.tnc()
        process, station = self.sends(node, tnc)
        total, draw = len(Message(b"1_US", self.body).transfer()), random.Random(7)
        while len(station.end.heard) - station.taken < total:
            left = total - (len(station.end.heard) - station.taken)
            station.holds(min(WINDOW, -(-left // PORTION) if left > WINDOW * 1024 else 1))
            time.sleep(0.6)
            self.assertLessEqual(len(station.end.other.queue), WINDOW)
            station.acknowledges(draw.randint(1, WINDOW))
        station.acknowledges_all()
        self.finishes(process, station)
        sizes = [len(frame.data) for frame in tnc.frames if frame.kind == "D"]
        self.assertLessEqual(max(sizes), PORTION)
        self.assertIn(PORTION, sizes)

    def test_cut_smaller(self):
        "a TNC that cuts our frames and counts more of them than we sent"
        node, tnc = self.node(), self.tnc()
        tnc.cuts = 3
        process, station = self.sends(node, tnc)
        station.holds(WINDOW)
        time.sleep(1)
        self.assertEqual(len(station.end.other.queue), WINDOW)
        station.acknowledges_all()
        self.finishes(process, station)

    def test_silence(self):
        "nobody is silent while frames are acknowledged one by one; silence counts from the last"
        node, tnc = self.node(), self.tnc()
        self.body = EVERY * 6  # all of it is with the TNC at once
        process, station = self.sends(node, tnc, "--timeout", "4")
        station.holds(-(-len(Message(b"1_US", self.body).transfer()) // PORTION))
        while station.end.other.queue:
            time.sleep(1)
            self.assertIsNone(process.poll())
            station.acknowledges(1)
        station.hears(Message(b"1_US", self.body).transfer())
        began = time.monotonic()
        self.ended(process, LINK_DROPPED, "the link dropped: the partner is silent")
        self.assertGreater(time.monotonic() - began, 3)

    def test_no_acknowledgement(self):
        "a partner who acknowledges nothing, or a TNC that doesn't answer, is silent in the end"
        for answers in (True, False):
            node, tnc = self.node("node%d" % answers), self.tnc()
            process, station = self.sends(node, tnc, "--timeout", "3", "--linger", "1")
            tnc.answers_outstanding = answers
            self.ended(process, LINK_DROPPED, "the link dropped: the port takes no more bytes")
            self.assertEqual(node.states(), {b"1_US": WAITING})

    def test_protest(self):
        "a partner who protests in our transfer is heard before the rest is sent"
        node, tnc = self.node(), self.tnc()
        process, station = self.sends(node, tnc)
        station.holds(WINDOW)
        station.says(b"*** no\r")
        station.acknowledges_all()
        self.ended(process, REFUSED, "refusal 11")
        self.assertLess(len(station.end.heard) - station.taken, 2 * WINDOW * PORTION)


class Frames(Radio):
    def meets(self, data, code, *words, where="session"):
        """A node in a session, or while it calls, to which the TNC sends this."""
        node, tnc = self.node("node%d" % len(Node.started)), self.tnc()
        process = node.start("agw", str(tnc.port), US, PARTNER, "--timeout", "2", "--sid-limit", "4")
        if where == "session":
            station = tnc.called(PARTNER)
            station.says(PLAIN_SID + b">\r")
            station.hears(OUR_SID + b"FF\r")
        else:
            tnc.until(lambda: "C" in tnc.words(), "a call")
        tnc.sends(US, data)
        return self.ended(process, code, *words)

    def test_malformed(self):
        "malformed frames end the link with a sentence that says what was wrong"
        head = bytearray(pack("D", PARTNER, US))
        huge, long, zero, high = bytearray(head), bytearray(head), bytearray(head), bytearray(head)
        huge[28:32], long[28:32], zero[4], high[4] = b"\xff" * 4, (4097).to_bytes(4, "little"), 0, 0xC4
        endless, other = bytearray(head), bytearray(head)
        endless[8:18], other[18:28] = b"F0ABC-7890", b"X" * 10
        for data, words in ((huge, "too long"), (long, "too long"), (zero, "kind is no letter"), (high, "kind is no letter"),
                            (endless, "callsign that doesn't end"), (other, "callsign that doesn't end"),
                            (b"HTTP/1.1 400 Bad Request\r\nServer: none\r\n\r\n", "no AGW"), (b"\xff" * 36, "no letter"), (bytes(36), "no letter")):
            with self.subTest(words):
                self.meets(bytes(data), LINK_DROPPED, "the TNC sends what is no AGW: ", words)
        self.meets(bytes(huge), LINK_DROPPED, "the TNC sends what is no AGW: ", "too long", where="call")

    def test_short_count(self):
        "a count of what is outstanding that is no number"
        node, tnc = self.node(), self.tnc()
        tnc.answers_outstanding = False
        process, station = self.calls(node, tnc)
        with tnc.changed:
            station.end.other.holds = True
        station.says(PLAIN_SID + b">\r")
        tnc.until(lambda: "Y" in tnc.words(), "the question")
        tnc.sends(US, pack("Y", US, PARTNER, b"\0\0\0"))
        self.ended(process, LINK_DROPPED, "count of what is outstanding is no number")

    def test_foreign(self):
        "frames of other links, radios and kinds, and empty ones, are passed over"
        others = b"".join([pack("D", PARTNER, US), pack("D", "F0XXX", US, b"FQ\r"), pack("D", PARTNER, "F0XXX", b"FQ\r"), pack("D", PARTNER, US, b"FQ\r", radio=3),
                           pack("D", "", "", b"FQ\r"), pack("d", "F0XXX", US, b"*** DISCONNECTED RETRYOUT With F0XXX\r\0"), pack("d", PARTNER, US, b"RETRYOUT", radio=1),
                           pack("C", "", US, b"*** CONNECTED To Station \r\0"), pack("C", "F0XXX", "F0YYY"), pack("C", "what is", US), pack("Y", US, PARTNER, b"\0" * 4),
                           pack("Y", "F0XXX", US, b"\0"), pack("X", US, data=b"\0"), pack("G", data=b"9;"), pack("G")]
                          + [pack(kind, PARTNER, US, b"FQ\r") for kind in "abceghijklmnopqrstuvwxyzABEFHIJKLMNOPQRSTUVWZ"])
        node, tnc = self.node(), self.tnc()
        process, station = self.calls(node, tnc)
        station.says(PLAIN_SID + b">\r")
        tnc.sends(US, others)
        station.hears(OUR_SID + b"FF\r")
        tnc.sends(US, others)
        time.sleep(0.5)
        self.assertIsNone(process.poll())
        station.says(b"FQ\r")
        self.ended(process, DONE, "0 kept")

    def test_portions(self):
        "frames that come byte by byte, several at once, and a TNC that closes inside one"
        node, tnc = self.node(), self.tnc()
        process, station = self.calls(node, tnc)
        for byte in pack("D", PARTNER, US, PLAIN_SID) + pack("D", PARTNER, US, b">\r"):
            tnc.sends(US, bytes([byte]))
            time.sleep(0.002)
        station.hears(OUR_SID + b"FF\r")
        tnc.sends(US, b"".join(pack("D", PARTNER, US, bytes([byte])) for byte in b"FQ\r"))
        self.ended(process, DONE)
        process, station = self.calls(node, tnc)
        tnc.sends(US, pack("D", PARTNER, US, PLAIN_SID)[:50])
        time.sleep(0.2)
        tnc.close()
        self.ended(process, LINK_DROPPED, "the TNC has closed its connection")

    def test_largest(self):
        "a frame of 4,096 bytes is taken"
        process, station = self.calls(self.node(), tnc := self.tnc())
        tnc.sends(US, pack("D", PARTNER, US, PLAIN_SID + (b";" + b"x" * 70 + b"\r") * 56 + b";" + b"x" * (4096 - len(PLAIN_SID) - 56 * 72 - 4) + b"\r>\r"))
        station.hears(OUR_SID + b"FF\r")
        station.says(b"FQ\r")
        self.ended(process, DONE)

    def test_random(self):
        "a TNC that sends random frames and random bytes ends nothing but the link"
        draw = random.Random(20261116)
        node = self.node()
        for number in range(10):
            tnc = self.tnc()
            process = node.start("agw", str(tnc.port), US, *((PARTNER,) if number % 2 else ("--listen", "--once")), "--timeout", "1", "--sid-limit", "1", "--delay", "0")
            tnc.registered(US)
            for _ in range(40):
                names = [draw.choice([US, PARTNER, "F0XXX", "", "??", "F0ABC"]) for _ in range(2)]
                data = pack(draw.choice("CDdYXGKv"), *names, draw.randbytes(draw.choice([0, 1, 4, 236, 300])), draw.choice([0, 0, 0, 1]))
                if draw.random() < 0.03:
                    data = bytes(byte ^ (draw.random() < 0.02) * draw.randrange(256) for byte in data)
                tnc.sends(US, data) if not tnc.programs[-1].closed else None
            tnc.programs[-1].send(draw.randbytes(200))
            said = process.communicate(timeout=PATIENCE)[1].decode() if number % 2 else self.stopped(process)
            self.says_why((LINK_DROPPED, said), LINK_DROPPED)
            self.assertIn(process.returncode, (BAD_PORT, LINK_DROPPED, REFUSED, NOT_ADMITTED, -15))
            tnc.close()

    def stopped(self, process):
        try:
            return process.communicate(timeout=2)[1].decode()
        except subprocess.TimeoutExpired:
            process.terminate()
            return process.communicate(timeout=PATIENCE)[1].decode()


class Listens(Radio):
    def test_partners(self):
        "partners are served one after another, told by their callsigns, whatever the SSID; others get the disconnect alone"
        node, tnc = self.partner(self.node().add(Message(b"1_US", b"private", form="plain"))), self.tnc()
        process = self.listens(node, tnc, "--delay", "1")
        began = time.monotonic()
        stranger = tnc.calls("F0XXX", US)
        stranger.says(PLAIN_SID + b"FF\r")
        stranger.hears_end()
        self.assertGreater(time.monotonic() - began, 0.9)
        self.assertEqual(stranger.end.heard, b"")
        self.assertEqual(node.ask("SELECT count(*) FROM session"), [(0,)])
        for name, text in (("F0ABC", b"1_US"), ("F0ABC-15", b"2_US")):
            station = tnc.calls(name, US)
            self.takes(station, Message(text, b"private", form="plain"))
            node.add(Message(b"2_US", b"private", form="plain")) if text == b"1_US" else None
        self.assertEqual(node.states(), {b"1_US": FORWARDED, b"2_US": FORWARDED})
        self.assertEqual(node.ask("SELECT partner, role FROM session"), [(b"F0ABC", 0)] * 2)
        self.assertRegex(node.right("partners").decode(), r"(?m)^F0ABC   no        \d{4}-")
        process.terminate()
        self.ended(process, -15, "a caller was turned away: F0XXX is no partner", "F0ABC-15 calls", "ended by SIGTERM")
        self.assertEqual(tnc.words().count("X"), 1)

    def test_anyone(self):
        "--anyone serves all; a dismissed partner is none; --once ends with the caller's exit code"
        node, tnc = self.partner(self.node()), self.tnc()
        process = self.listens(node, tnc, "--anyone", "--once")
        station = tnc.calls("F0XXX-1", US)
        station.hears(GREETING)
        station.says(PLAIN_SID + b"FF\r")
        self.leaves(station)
        self.ended(process, DONE)
        self.assertEqual(node.ask("SELECT partner FROM session"), [(b"F0XXX",)])
        node.right("dismiss", "F0ABC")
        process = self.listens(node, tnc, "--once", "--delay", "0")
        tnc.calls(PARTNER, US).hears_end()
        self.ended(process, NOT_ADMITTED, "F0ABC-7 is no partner")

    def test_second_caller(self):
        "whoever calls while a link stands, or on another radio, is hung up on; the session goes on"
        node, tnc = self.partner(self.node()), self.tnc(radios=b"2;Port1 a;Port2 b;\0")
        node.right("admit", "F0XYZ")
        process = self.listens(node, tnc)
        station = tnc.calls(PARTNER, US)
        station.hears(GREETING)
        second, third = tnc.calls("F0XYZ", US), tnc.calls("F0XYZ", US, radio=1)
        second.hears_end()
        third.hears_end()
        self.assertEqual(second.end.heard + third.end.heard, b"")
        station.says(PLAIN_SID + b"FF\r")
        self.leaves(station)
        again = tnc.calls("F0XYZ", US)
        again.hears(GREETING)
        again.says(PLAIN_SID + b"FF\r")
        self.leaves(again)
        process.terminate()
        self.ended(process, -15, "F0XYZ calls on radio 0, and is hung up on: another link stands", "F0XYZ calls on radio 1, and is hung up on: that radio isn't ours")

    def test_anew(self):
        "a partner whose station lost the link and calls anew gets a new session; the old one dropped"
        node, tnc = self.partner(self.node().add(Message(b"1_US", b"mail", form="plain"))), self.tnc()
        process = self.listens(node, tnc)
        station = tnc.calls(PARTNER, US)
        station.hears(GREETING)
        station.says(PLAIN_SID + b"FF\r")
        station.hears(Message(b"1_US", b"mail", form="plain").proposal() + b"F>\r")
        with tnc.changed:
            station.end.ended = station.end.other.ended = "forgotten"
        station = tnc.calls(PARTNER, US)
        self.takes(station, Message(b"1_US", b"mail", form="plain"))
        self.saved(node, b"the partner calls anew", b"FQ")
        process.terminate()
        self.ended(process, -15, "the link dropped: the partner calls anew")
        self.assertEqual(node.states(), {b"1_US": FORWARDED})

    def test_comes_back(self):
        "a TNC that goes away, in a session or between two, and comes back: the node listens again"
        node, tnc = self.partner(self.node()), self.tnc()
        process = self.listens(node, tnc)
        station = tnc.calls(PARTNER, US)
        station.hears(GREETING)
        for number in range(2):
            tnc.close()
            tnc = self.tnc(port=tnc.port)
            station = tnc.calls(PARTNER, US)
            station.hears(GREETING)
            station.says(PLAIN_SID + b"FF\r")
            self.leaves(station)
        self.saved(node, b"the TNC has closed its connection", b"FQ", b"FQ")
        process.terminate()
        said = self.ended(process, -15, "the TNC has closed its connection; it is tried again")
        self.assertEqual(said.count("listening as"), 2)

    def test_came_and_went(self):
        "a caller who is gone before we look keeps nobody out"
        node, tnc = self.partner(self.node()), self.tnc()
        process = self.listens(node, tnc)
        text = b"*** CONNECTED To Station F0ABC-7\r\0"
        tnc.sends(US, pack("C", PARTNER, US, text) + pack("D", PARTNER, US, PLAIN_SID) + pack("d", PARTNER, US, b"*** DISCONNECTED From Station F0ABC-7\r\0"))
        station = tnc.calls(PARTNER, US)
        station.hears(GREETING)
        station.says(PLAIN_SID + b"FF\r")
        self.leaves(station)
        process.terminate()
        self.ended(process, -15)

    def test_base_in_use(self):
        "while another session has the base the caller is hung up on"
        node, tnc = self.partner(self.node()), self.tnc()
        process = self.listens(node, tnc)
        other = node.stdio()
        other.hears(GREETING)
        tnc.calls(PARTNER, US).hears_end()
        other.hang_up()
        other.ends()
        station = tnc.calls(PARTNER, US)
        station.hears(GREETING)
        station.says(PLAIN_SID + b"FF\r")
        self.leaves(station)
        process.terminate()
        self.ended(process, -15, "the base is in use")
