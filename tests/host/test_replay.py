"""A capture played to our node: what is shown, and that the bytes are those of the proved program (tests/replay)."""
import json

from node import *

PROGRAM = pathlib.Path(os.environ.get("FRINGEMOLE_REPLAY") or ROOT / "target" / "bin" / "replay")
STORED = ROOT / "tests" / "replay" / "outputs.txt"
CAPTURES = ROOT / "tests" / "peers" / "captures"
HELLO = Message(b"24657_F6FBB", b"packed", frm=b"F6FBB", at=b"FC1GHV", to=b"FC1MVP", title=b"Title", size=1345)
BLOCK = b"[TST-1-BF$]\r" + HELLO.proposal() + b"F>\r"


def plain(shown):
    """The bytes that were shown or stored as text."""
    return shown.decode("unicode_escape").encode("latin-1")


def program_says(out):
    """What the program would write, from what the host shows."""
    lines = out.splitlines()
    return b"".join(plain(line[10:]) for line in lines if line.startswith(b"us:       ")) + lines[-1] + b"\n"


def heard_from(name):
    """What the mailbox of a capture said to the forwarder."""
    events = json.loads((CAPTURES / (name + ".json")).read_text())["events"]
    return b"".join(bytes.fromhex(event["hex"]) for event in events if event["dir"] == "peer>us" and event["phase"] == "fbb")


@unittest.skipIf("replay" in UNKNOWN, "an older host")
class Replayed(Folder):
    def replay(self, capture, code=DONE):
        done = subprocess.run([SANITIZED, "replay", "-"], input=capture, stdout=subprocess.PIPE, stderr=subprocess.PIPE, timeout=PATIENCE)
        self.assertEqual((done.returncode, done.stderr), (code, b""))
        return done.stdout

    def test_shown(self):
        "both directions of a capture, the messages that would have been kept, the line that got a refusal, and the rule in words"
        out = self.replay(BLOCK + HELLO.transfer() + b"FX hello\rFF\r", REFUSED)
        rows = out.decode().splitlines()
        self.assertEqual(rows[:6], ["us:       [NOD-1-B1FH$]\\r", "us:       >\\r", "partner:  [TST-1-BF$]\\r",
                                    "partner:  " + HELLO.proposal().decode().replace("\r", "\\r"), "partner:  F>\\r", "us:       FS +\\r"])
        self.assertEqual(rows[-5:-3] + rows[-3:], ["kept:     P from F6FBB to FC1MVP@FC1GHV, BID 24657_F6FBB, message, 6 bytes: Title", rows[-4], "refused:  FX hello\\r",
                                                   "because:  the partner sent a line that isn't allowed here", "refusal 5"])
        self.assertRegex(rows[-4], r"^heard:    \d+ of \d+ bytes, refused at the last of them$")

    def test_ends(self):
        "an end by FQ, an end of the capture in a line and in a transfer, an empty one: no refusal, and nothing is heard after an end"
        for capture, kept, end in ((b"[TST-1-F$]\rFF\r", b"nothing", b"14 of 14 bytes, ended by FQ"), (b"[TST-1-F$]\rFF\r\nmore", b"nothing", b"14 of 19 bytes, ended by FQ"),
                                   (b"[TST", b"nothing", b"4 of 4 bytes, then the capture ends"), (b"", b"nothing", b"0 of 0 bytes, then the capture ends"),
                                   (BLOCK + HELLO.transfer()[:-1], b"nothing", b"then the capture ends")):
            out = self.replay(capture)
            self.assertIn(b"kept:     " + kept, out)
            self.assertIn(end + b"\nrefusal 0\n", out)

    def test_transfer(self):
        "a refusal in a transfer shows its last bytes, up to the refused one"
        whole = HELLO.transfer()
        out = self.replay(BLOCK + whole[:-1] + bytes([whole[-1] ^ 1]), REFUSED)
        shown = plain(re.search(rb"^refused:  (.*)$", out, re.M)[1])
        self.assertEqual(shown, (whole[:-1] + bytes([whole[-1] ^ 1]))[-16:])
        self.assertTrue(out.endswith(b"because:  the checksum of the partner's transfer is wrong\nrefusal 9\n"), out)

    def test_same_bytes(self):
        "on every real capture the host gives the bytes that are stored of the proved program"
        for line in STORED.read_bytes().splitlines():
            name, _, output = line.partition(b" | ")
            if not name.startswith(b"real: "):
                continue
            with self.subTest(name):
                done = subprocess.run([PLAIN, "replay", "-"], input=heard_from(name[6:].decode()), stdout=subprocess.PIPE, timeout=PATIENCE)
                self.assertEqual(program_says(done.stdout), plain(output))

    def test_program(self):
        "and on captures of our own those of the program itself"
        if not PROGRAM.exists():
            self.skipTest("the program is not built (.ci/archives replay)")
        for capture in (b"", b"[TST-1-F$]\r\nFF\r\n", BLOCK + HELLO.transfer() + b"FQ\r", BLOCK + b"x", b"Hello\r", b"[TST-1-F$]\r" + b"A" * 300, bytes(range(256)) * 20):
            done = subprocess.run([PROGRAM], input=capture, stdout=subprocess.PIPE, check=True, timeout=PATIENCE)
            host = subprocess.run([PLAIN, "replay", "-"], input=capture, stdout=subprocess.PIPE, timeout=PATIENCE)
            self.assertEqual(program_says(host.stdout), done.stdout)

    def test_readme(self):
        "the captures that the README shows come out as it shows them, by the host and by the program"
        blocks = re.findall(r"(?m)^    (\S.*)\n\n((?:    .*\n)+)", (ROOT / "README.md").read_text().split("## What would we have made of a capture?")[1].split("\n## ")[0])
        self.assertEqual([command.split()[0] for command, _ in blocks], ["fringemole", "printf", "fringemole-replay"])
        if not PROGRAM.exists():
            self.skipTest("the program is not built (.ci/archives replay)")
        names = self.folder / "bin"
        names.mkdir()
        (names / "fringemole").symlink_to(PLAIN)
        (names / "fringemole-replay").symlink_to(PROGRAM)
        path = "%s:%s" % (names, os.environ["PATH"])
        for command, shown in blocks:
            done = subprocess.run(command, shell=True, cwd=ROOT, env=dict(os.environ, PATH=path), stdout=subprocess.PIPE, timeout=PATIENCE)
            self.assertEqual(done.stdout.decode(), re.sub(r"(?m)^    ", "", shown), command)

    def test_words(self):
        "replay needs no base, takes one file, and says why it can't read it"
        capture = self.folder / "capture"
        capture.write_bytes(b"[TST-1-F$]\rFF\r")
        self.assertEqual(subprocess.run([SANITIZED, "replay", capture], stdout=subprocess.PIPE).returncode, DONE)
        for words, code in ((["replay"], BAD_USAGE), (["replay", capture, capture], BAD_USAGE), (["replay", self.folder / "none"], BAD_FILE)):
            done = subprocess.run([SANITIZED, *words], stdout=subprocess.PIPE, stderr=subprocess.PIPE)
            self.assertEqual((done.returncode, done.stdout), (code, b""))
            self.assertTrue(done.stderr.startswith(b"fringemole: "), done.stderr)
        self.assertEqual([path.name for path in self.folder.iterdir()], ["capture"])
