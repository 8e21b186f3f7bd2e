"""The example for one's own C program, and the memory checkers."""
from node import *


class Embed(Folder):
    def test_example(self):
        "the example is under 60 lines, sends its message and keeps the partner's"
        self.assertLess(len((HOST / "host" / "embed.c").read_text().splitlines()), 60)
        for folder in ("host", "host-sanitized"):
            process = subprocess.Popen([HOST / "target" / folder / "embed"], stdin=subprocess.PIPE, stdout=subprocess.PIPE, stderr=subprocess.PIPE)
            partner = Partner.of_process(process)
            theirs = Message(b"1_T", b"theirs\r", form="plain", title=b"From them")
            partner.hears(GREETING)
            partner.says(b"[TST-1-F$]\r" + theirs.proposal() + b"F>\r")
            partner.hears(b"FS +\r")
            partner.says(theirs.transfer())
            partner.hears(b"FB P N0DE F0FBB.TST.FRA.EU F0SYS 1_N0DE 19\rF>\r")
            partner.says(b"FS +\r")
            partner.hears(b"Hello\r73 from the shelf.\r\x1a\r")
            partner.says(b"FF\r")
            partner.hears(b"FQ\r")
            self.assertEqual(partner.ends(), (0, "answer 0; our message's state is 1\nkept: From them\n"))

    def test_refusal(self):
        "the example says why, and ends with the library's number"
        process = subprocess.Popen([HOST / "target" / "host" / "embed"], stdin=subprocess.PIPE, stdout=subprocess.PIPE, stderr=subprocess.PIPE)
        partner = Partner.of_process(process)
        partner.hears(GREETING)
        partner.says(b"Hello\r")
        partner.hears(PROTOCOL_ERROR)
        self.assertEqual(partner.ends()[0], 3)


class Memory(Folder):
    def test_valgrind(self):
        "a session of two nodes under valgrind"
        if not shutil.which("valgrind"):
            self.skipTest("there is no valgrind")
        south, north = self.node("south", program=PLAIN).add(Message(b"1_S", b"x" * 300)), self.node("north", program=PLAIN).add(Message(b"1_N", b"y" * 300))
        listener, port = south.listen("--once")
        checked = ["valgrind", "--quiet", "--leak-check=full", "--error-exitcode=99", PLAIN, north.path, "call", str(port)]
        answer = subprocess.run(checked, capture_output=True, timeout=6 * PATIENCE)
        self.assertEqual(answer.returncode, DONE, answer.stderr.decode())
        listener.communicate(timeout=PATIENCE)
        self.assertEqual((north.states(), south.states()), ({b"1_N": FORWARDED}, {b"1_S": FORWARDED}))
