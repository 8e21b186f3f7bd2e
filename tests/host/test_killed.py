"""Links that drop and processes that are killed at random moments: nothing that a partner was told of is lost, nothing is doubled.

Two nodes exchange mail through a relay. After a random number of bytes, either way, one node or both are killed (SIGKILL), or the link is
cut; then the bases are held to what passed the relay. Beside the session somebody lists and imports, and may be killed too. After some such
sessions one is left alone, and must settle everything.
"""
import contextlib
import random
import threading

from node import *

ROUNDS = 40
SEED = int(os.environ.get("SEED", "0")) or random.SystemRandom().randrange(1, 1 << 32)


class Relay:
    """Passes bytes between a caller and a listening node, up to a count, and keeps them in order."""

    def __init__(self, to_port, limit, at_limit):
        self.to_port, self.left, self.at_limit = to_port, limit, at_limit
        self.passed, self.lock, self.over = [], threading.Lock(), threading.Event()
        self.server = socket.create_server(("127.0.0.1", 0))
        self.port = self.server.getsockname()[1]
        self.thread = threading.Thread(target=self.run, daemon=True)
        self.thread.start()

    def run(self):
        self.server.settimeout(PATIENCE)
        try:
            caller = self.server.accept()[0]
        except OSError:
            return
        called = socket.create_connection(("127.0.0.1", self.to_port))
        pumps = [threading.Thread(target=self.pump, args=way, daemon=True) for way in (("north", caller, called), ("south", called, caller))]
        for pump in pumps:
            pump.start()
        for pump in pumps:
            pump.join()
        caller.close()
        called.close()

    def pump(self, who, from_, to):
        try:
            while data := from_.recv(200):
                with self.lock:
                    part = data if self.left is None else data[:self.left]
                    self.left = None if self.left is None else self.left - len(part)
                    if self.over.is_set():
                        break
                    self.passed.append((who, part))
                    to.sendall(part)
                    if self.left == 0:
                        self.over.set()
                        self.at_limit()
                        break
        except OSError:
            pass
        for end in (from_, to):
            try:
                end.shutdown(socket.SHUT_RDWR)
            except OSError:
                pass

    def close(self):
        self.server.close()
        self.thread.join(PATIENCE)

    def told(self, sender, message):
        """Whether the sender heard something after it had sent this message whole: then the other was told that it came."""
        said = b""
        for who, part in self.passed:
            if who == sender:
                said += part
            elif message.transfer() in said:
                return True
        return False


class Killed(Folder):
    def setUp(self):
        super().setUp()
        self.dice = random.Random(SEED)

    def letters(self, who, count):
        sizes = [self.dice.choice([0, 1, 200, 256, 257, self.dice.randrange(6000)]) for _ in range(count)]
        return [Message(b"%d_%s" % (i, who), self.dice.randbytes(size), title=b"message %d of %s" % (i, who)) for i, size in enumerate(sizes)]

    def session(self, nodes, limit, action, beside=()):
        """One session; gives the relay, with what passed. Processes that run beside it are killed with the others."""
        called, port = nodes["south"].listen("--once", "--timeout", "10")
        delay = self.dice.random() * 0.006 * (action != "cut")

        def at_limit():
            time.sleep(delay)
            for process in {"cut": [], "north": [caller], "south": [called], "both": [caller, called, *beside]}[action]:
                process.kill()
        relay = Relay(port, limit, at_limit)
        caller = nodes["north"].start("call", str(relay.port), "--timeout", "10")
        ends = [process.communicate(timeout=PATIENCE)[1].decode() for process in (caller, called)]
        relay.close()
        self.ends = list(zip((caller.returncode, called.returncode), ends))
        return relay

    def hold(self, nodes, mail, relay):
        """What must be so at any moment, wherever it was cut."""
        for sender, other in (("north", "south"), ("south", "north")):
            mine, inbox = mail[sender], nodes[other].inbox()
            rows = {m.bid: m.checked().row() for m in mine}  # both nodes have B1
            self.assertEqual(nodes[other].ask("PRAGMA integrity_check"), [("ok",)])
            self.assertEqual(len({row[5] for row in inbox}), len(inbox), "kept twice")
            for row in inbox:
                self.assertEqual(row, rows.get(row[5]), "kept, but not as it was sent")
            kept, known = {row[5] for row in inbox}, nodes[other].known()
            self.assertLessEqual(kept, known, "kept, and its BID not known")
            for message in mine:
                state = nodes[sender].states()[message.bid]
                self.assertTrue(state != FORWARDED or message.bid in kept, "forwarded, but not there")
                self.assertTrue(state != DECLINED or message.bid in known, "declined, but not there")
                self.assertTrue(not relay.told(sender, message) or message.bid in kept, "told, and lost")

    def one_round(self, number):
        common = Message(b"COMMON", self.dice.randbytes(100))
        mail = {"north": self.letters(b"N", 7) + [common], "south": self.letters(b"S", 4) + [common]}
        nodes = {name: self.node("%s%d" % (name, number), program=PLAIN).add(*mail[name]) for name in mail}
        total = sum(len(m.transfer()) + 40 for letters in mail.values() for m in letters)
        for number in range(self.dice.randrange(1, 4)):
            action = self.dice.choice(["cut", "north", "south", "both"])
            more = Message(b"%d_MORE" % number, self.dice.randbytes(300))
            importing, listing = (nodes["south"].start(*words, stdin=subprocess.PIPE) for words in (("import", "-"), ("list",)))
            importing.stdin.write(more.file())
            importing.stdin.close()
            relay = self.session(nodes, self.dice.randrange(1, total), action, [importing, listing])
            self.assertIn((importing.wait(PATIENCE), action), [(DONE, action), (-9, "both")])
            self.assertIn((listing.wait(PATIENCE), action), [(DONE, action), (-9, "both")])
            self.assertTrue(importing.returncode or more.bid in nodes["south"].states(), "imported, and lost")
            mail["south"] += [more] if more.bid in nodes["south"].states() else []
            self.hold(nodes, mail, relay)
        for _ in range(2):  # the first settles everything, the second has nothing to do
            relay = self.session(nodes, None, "cut")
            self.assertEqual([code for code, _ in self.ends], [DONE, DONE], self.ends)
        self.hold(nodes, mail, relay)
        for sender, other in (("north", "south"), ("south", "north")):
            self.assertNotIn(WAITING, nodes[sender].states().values())
            self.assertEqual({row[5] for row in nodes[other].inbox()}, {m.bid for m in mail[sender]} - {b"COMMON"})

    def test_killed(self):
        "40 rounds of nodes killed and links cut at random moments lose and double nothing"
        for number in range(ROUNDS):
            with self.subTest(seed=SEED, round=number):
                self.one_round(number)

    def test_each_write(self):
        "killed before each of its calls that write: what the partner was told of is in the base, and nothing is marked that the partner hasn't"
        shim = self.shim("killed")
        ours, theirs = Message(b"1_US", b"ours", form="plain"), Message(b"1_T", b"theirs", form="plain")
        steps = [(GREETING, b"[TST-1-F$]\r" + theirs.proposal() + b"F>\r"), (b"FS +\r", theirs.transfer()), (ours.proposal() + b"F>\r", b"FS +\r"),
                 (ours.transfer(), b"FF\r"), (b"FQ\r", b"")]
        fresh = self.node("fresh", program=PLAIN).add(ours)
        for moment in range(1, 200):
            shutil.copy(fresh.path, self.folder / ("at%d.base" % moment))
            node = self.node("at%d" % moment, program=PLAIN)
            partner = Partner.of_process(node.start("stdio", stdin=subprocess.PIPE, env=dict(os.environ, LD_PRELOAD=shim, KILL_AT=str(moment))))
            heard = self.play(partner, steps)
            partner.process.wait(PATIENCE)
            with contextlib.suppress(BrokenPipeError):
                partner.rest()
            if heard > 2:  # the turn after its message
                self.assertEqual(node.inbox(), [theirs.row()], moment)
            if heard > 4:  # FQ, which says that its FF came
                self.assertEqual(node.states(), {b"1_US": FORWARDED}, moment)
            if heard < 4:
                self.assertEqual(node.states(), {b"1_US": WAITING}, moment)
            if partner.process.returncode == DONE:
                break
        self.assertGreater(moment, 12)

    def play(self, partner, steps):
        """Gives how many of the node's turns were heard whole."""
        for number, (heard, said) in enumerate(steps):
            try:
                partner.hears(heard)
                partner.says(said)
            except (AssertionError, BrokenPipeError):
                return number
        return len(steps)

    def test_told(self):
        "killed as soon as the partner hears the turn that follows its message: the message is in the base"
        for number in range(20):
            node, theirs = self.node("told%d" % number, program=PLAIN), Message(b"1_T", b"x" * 500)
            partner = node.stdio()
            partner.hears(GREETING)
            partner.says(b"[TST-1-BF$]\r" + theirs.proposal() + b"F>\r")
            partner.hears(b"FS +\r")
            partner.says(theirs.transfer())
            partner.hears(b"F")
            partner.process.kill()
            partner.rest()
            self.assertEqual((node.inbox(), node.known()), ([theirs.row()], {b"1_T"}))

    def test_synced(self):
        "what a receive changed is synced to the disk before the next byte is given, and nothing is synced where nothing changed"
        node, theirs = self.node(program=PLAIN).add(Message(b"1_US"), Message(b"2_US")), Message(b"1_T", b"x")
        events = self.traced(lambda **more: node.start("stdio", stdin=subprocess.PIPE, **more))
        partner = Partner.of_process(node.started[-1])
        partner.hears(GREETING)
        partner.says(b"[TST-1-BF$]\r" + theirs.proposal() + b"F>\r")
        partner.hears(b"FS +\r")
        partner.says(theirs.transfer())
        partner.hears(Message(b"1_US").proposal() + Message(b"2_US").proposal() + b"F>\r")
        partner.says(b"FS +-\r")
        partner.hears(Message(b"1_US").transfer())
        partner.says(b"FF\r")
        partner.hears(b"FQ\r")
        self.assertEqual(partner.ends()[0], DONE)
        order = events()
        # The session's row; greeting, FS; the message is kept, our block; the decline, our transfer; the mark, FQ; the row's end.
        self.assertRegex(order, r"^[PSD]*P+S[SD]*WWP+S+WP+S+WP+S+WP+S")
        # Before bytes go onto the link, all that was written is synced; the log of the base is a new file, so its folder was synced too.
        self.assertNotRegex(order, r"P[^S]*W")
        self.assertIn("D", order.split("W")[0])
