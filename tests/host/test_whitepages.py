"""White pages: home mailboxes are kept from the mails that name them, the newest answers, and what is dropped is told."""
import random

import test_beside
from node import *
from test_mail import Kept

# 004's sample mail.
SAMPLE = (b"R:990407/0944z @:OE3DZW.#OE3.AUT.EU [BayCom-Mailbox] Bcm1.40P\r"
          b"\r"
          b"D7 V 10\r"
          b"68 B OE3DZW.#OE3.AUT.EU 10 0 DL8MBT AX25 OE3DZW-8 923478289 1\r"
          b'5C M OE3DZW OE3DZW.#OE3.AUT.EU 749OE3DZW004 923471053 OE3DZW 1 "Dietmar" ? "?"\r'
          b'00 E WW OE3DZW F29OE3DZW007 F29OE3DZW006 OE3DZW 1 "#E"\r')
OLD = b"On 990215 OE3DZW/U @ OE1XAB.AUT.EU zip 3400 Dietmar Klosterneuburg near Wien\r"
LONGEST_MAILBOX = b"ABCDEF.ABCDEF.ABCDEF.ABCDEF.ABCDEF.ABC"


def member(call=b"F0ABC", home=b"F0FBB.FRA.EU", bid=b"1_F0FBB", stamp=1000, origin=b"F0FBB", hops=1, name=b"Ann", zip=b"75001", town=b"Paris"):
    return b'00 M %s %s %s %d %s %d "%s" %s "%s"\r' % (call, home, bid, stamp, origin, hops, name, zip, town)


class Pages(Folder):
    def read(self, node, mail, *words):
        return node.right("whitepages", "-", *words, input=mail)

    def homes(self, node, columns="call, mailbox, stamp"):
        return node.ask("SELECT " + columns + " FROM home ORDER BY number")

    def goes_to(self, node, call):
        return node.right("home", call).split(b"\n")[0]


class Shown(Pages):
    def test_sample(self):
        "004's sample mail: its records with their two digits, what is dropped and why, and what is kept"
        node = self.node()
        lines = self.read(node, SAMPLE).decode().splitlines()
        self.assertEqual([line.split() for line in lines[1:]], [
            "line sum call home mailbox time (GMT) hops BID origin name, zip, town".split(),
            "1 dropped R:990407/0944z @:OE3DZW.#OE3.AUT.EU [BayCom-Mailbox] Bcm1.40P".split(),
            "no record: two hexadecimal digits, a flag of 1 to 10 bytes and data, one space apart".split(),
            "2 dropped".split(),
            "no record: two hexadecimal digits, a flag of 1 to 10 bytes and data, one space apart".split(),
            "3 D7 version 1.0".split(),
            '5 5C OE3DZW OE3DZW.#OE3.AUT.EU 1999-04-07 07:44:13 1 749OE3DZW004 OE3DZW "Dietmar" ? "?"'.split(),
            "home mailboxes 1 (new 1, of the old form 0), versions 1; lines skipped 2, dropped 2".split()])
        self.assertEqual(len({line.index(word) for line, word in ((lines[1], "home"), (lines[7], "OE3DZW.#"))}), 1, lines)
        self.assertEqual(self.homes(node, "station, call, mailbox, bid, stamp, origin, hops, name, zip, town, old, source, inbox"),
                         [(b"OE3DZW", b"OE3DZW", b"OE3DZW.#OE3.AUT.EU", b"749OE3DZW004", 923471053, b"OE3DZW", 1, b"Dietmar", b"?", b"?", 0, b"-", 0)])

    def test_why(self):
        "each reason for which a line is dropped is told beside it"
        good = [b"A", b"B", b"C", b"1", b"D", b"1", b'""', b"z", b'""']
        reasons = ["a call has 1 to 6", "a home mailbox has", "a BID has 1 to 12", "a time stamp has", "an origin is", "hops have", "a name stands", "a zip isn't", "a town stands"]
        bad = [b"TOOLONG", b"B..C", b"1234567890123", b"12345678901", b"@", b"-1", b'"', b"", b'"a"b']
        node = self.node()
        for place, (word, why) in enumerate(zip(bad, reasons)):
            line = b"00 M " + b" ".join(good[:place] + [word] + good[place + 1:])
            self.assertRegex(self.read(node, line + b"\r00 V 10").decode(), r"(?s)  1  dropped  00 M .*\n +%s.*dropped 1\n$" % why)
        for line, why in ((b"00 V 1", "a version is two digits"), (b"0 V 10", "no record"), (b"00 V", "no record"), (b"00 ELEVENBYTES x", "no record")):
            self.assertIn(why, self.read(node, line + b"\r00 V 10").decode())
        self.assertEqual(self.homes(node), [])

    def test_limits(self):
        "a record at its limits is kept, byte for byte"
        node = self.node()
        record = dict(call=b"A1B-15", home=LONGEST_MAILBOX, bid=b"\xff" * 12, stamp=9999999999, origin=LONGEST_MAILBOX, hops=9999999999, name=b"", zip=b'"', town=b"a  b")
        self.read(node, member(**record))
        self.assertEqual(self.homes(node, "call, mailbox, bid, stamp, origin, hops, name, zip, town"), [tuple(record.values())])
        out = node.right("home", "a1b").decode()
        self.assertTrue(out.startswith("A1B@" + LONGEST_MAILBOX.decode() + "\n   white page of 2286-11-20 17:46:39 GMT (in the future, by this machine's clock): \"\" \" \"a  b\"\n"), out)

    def test_newer(self):
        "a mail of a newer version is left unread, wherever it says so, and that is told"
        node = self.node()
        for mail in (b"00 V 11\r" + SAMPLE, SAMPLE + b"00 V 11", SAMPLE + b"\nFF V 99\rbad\r"):
            code, out, err = node.run("whitepages", "-", input=mail)
            self.says_why((code, err), BAD_FILE)
            self.assertRegex(out.decode(), r"^-\n   version (1\.1|9\.9): left unread, 1\.0 is known here\n$")
        self.assertEqual(self.homes(node), [])
        mixed = self.folder / "newer.txt"
        mixed.write_bytes(SAMPLE + b"00 V 11\r")
        self.says_why(node.run("whitepages", mixed, "-", input=SAMPLE), BAD_FILE)
        self.assertEqual(len(self.homes(node)), 1)

    def test_texts(self):
        "names are shown as they are in UTF-8, and so that nothing happens to a terminal where they are not"
        node = self.node()
        self.read(node, member(name="Zoë".encode(), town="Besançon".encode()))
        self.read(node, member(call=b"F0DEF", name=b"Zo\xeb\x1b[2J", town=b"\xff\x00\x07", zip=b"\x9b"))
        self.assertIn('"Zoë" 75001 "Besançon"'.encode(), node.right("home", "F0ABC"))
        self.assertIn(b'"Zo\\xEB\\x1B[2J" \\x9B "\\xFF\\x00\\x07"', node.right("home", "F0DEF"))
        self.assertEqual(self.homes(node, "name, town")[1], (b"Zo\xeb\x1b[2J", b"\xff\x00\x07"))
        code, out, _ = node.run("whitepages", "-", input=b"\x1b]0;bad\x07" + b"x" * 100 + b"\r" + SAMPLE)
        self.assertEqual(code, DONE)
        self.assertIn(b"dropped  \\x1B]0;bad\\x07" + b"x" * 64 + b" ..\n", out)

    def test_many(self):
        "a mail as long as a mail can be, and longer, takes no time"
        node = self.node()
        out = self.read(node, b"".join(member(stamp=i) for i in range(4000)))
        self.assertIn(b"home mailboxes 4000 (new 4000, ", out)
        self.assertIn(b"   white pages beside it: 3999; --older shows them\n", node.right("home", "F0ABC"))
        self.assertEqual(len(node.right("home", "F0ABC", "--older").splitlines()), 4 + 3999)

    def test_page(self):
        "README shows what comes out"
        node = self.node()
        text = (ROOT / "README.md").read_text().split("## Where does somebody's mail go?")[1].split("\n## ")[0]
        for words in (("whitepages", "--text", "host/samples/white-pages.txt"), ("home", "oe3dzw")):
            process = node.start(*words, cwd=ROOT)
            shown = "".join("    " + line + "\n" for line in process.communicate(timeout=PATIENCE)[0].decode().splitlines())
            self.assertIn("    fringemole my.base %s\n\n%s\n" % (" ".join(words), shown), text)

    def test_damaged(self):
        "of a hundred damaged mails just the records are kept that a regular expression finds in them"
        dice = random.Random(10)
        call, number, text = rb"[!-\-/-?A-~]{1,6}", rb"[0-9]{1,10}", rb'"([^"]*)"'
        at = rb"(?=[^ ]{1,38} )(?![^ .]*\.[^ ]{32})(?:%s\.)*%s" % (call, call)
        record = re.compile(rb"(?s)[0-9A-Fa-f]{2} M (%s) (%s) ([!-\xff]{1,12}) (%s) (%s) (%s) %s ([^ ]+) %s" % (call, at, number, at, number, text, text))
        mails = [bytearray(b"".join(member(call=b"F%dABC" % i, stamp=dice.randrange(10 ** dice.randrange(1, 12)), hops=i, home=LONGEST_MAILBOX[:dice.randrange(1, 39)])
                                    for _ in range(10))) for i in range(100)]
        for mail in mails:
            for _ in range(dice.randrange(12)):
                mail[dice.randrange(len(mail))] = dice.choice(b' "\r\nM@.0\x00\xff-')
        found = [record.fullmatch(line[1:] if line.startswith(b"\n") else line) for mail in mails for line in bytes(mail).split(b"\r")]
        found = [tuple(int(part) if place in (3, 5) else part for place, part in enumerate(match.groups())) for match in found if match]
        self.assertGreater(len(found), 300)
        node = self.node()
        self.read(node, b"".join(Message(b"%d" % i, bytes(mail), form="plain").file() for i, mail in enumerate(mails)))
        self.assertEqual(self.homes(node, "call, mailbox, bid, stamp, origin, hops, name, zip, town"), list(dict.fromkeys(found)))

    def test_nothing(self):
        "a mail without lines, and a file without a white page"
        node = self.node()
        self.assertEqual(self.read(node, b""), b"no mail\n")
        self.says_why(node.run("whitepages", "-", input=b"Dear friend,\rhello\r"), BAD_FILE, "-: no white page; taken for the text of a mail, since as a file of messages: a header line has no colon")


class Dated(Pages):
    def test_old(self):
        "a line of the old white pages is kept with its date converted: that midnight less one day"
        node = self.node()
        out = self.read(node, OLD)
        self.assertRegex(out, rb'\n +1  old  OE3DZW  OE1XAB\.AUT\.EU +1999-02-14 00:00:00 +\? +"Dietmar" 3400 "Klosterneuburg near Wien"\n')
        self.assertIn(b"home mailboxes 1 (new 1, of the old form 1), versions 0; lines skipped 0, dropped 0\n", out)
        self.assertEqual(self.homes(node, "call, mailbox, bid, stamp, origin, hops, name, zip, town, old"),
                         [(b"OE3DZW", b"OE1XAB.AUT.EU", b"", 918950400, b"", None, b"Dietmar", b"3400", b"Klosterneuburg near Wien", 1)])
        self.read(node, b"On 930123 FD1CDC/U @ F6FBB.FMLR.FRA.EU zip 31240 Claude Saint Jean\r\nOn 930124 FD1CDC/U @ F6FBB.FMLR.FRA.EU zip ? ? Saint Jean\r\n")  # LinFBB's own page
        self.assertEqual(self.homes(node, "call, mailbox, stamp, name, zip, town")[1:], [
            (b"FD1CDC", b"F6FBB.FMLR.FRA.EU", 727660800, b"Claude", b"31240", b"Saint Jean"), (b"FD1CDC", b"F6FBB.FMLR.FRA.EU", 727747200, b"?", b"?", b"Saint Jean")])
        self.assertIn(b"white page of 1999-02-14 00:00:00 GMT (an old one's date, less a day): ", node.right("home", "OE3DZW"))

    def test_old_edges(self):
        "the first date lies before 1970; a call without a letter is a user's; nothing else of the old form is taken, and why is told"
        node = self.node()
        self.read(node, b"On 700101 F0ABC @ F0FBB zip ? ? ?\rOn 691231 F0DEF/u @ F0FBB zip ? Ann\r")
        self.assertEqual(self.homes(node), [(b"F0ABC", b"F0FBB", -86400), (b"F0DEF", b"F0FBB", 3155587200)])
        self.assertIn(b"white page of 1969-12-31 00:00:00 GMT", node.right("home", "F0ABC"))
        for line, why in ((b"On 990215 F0ABC/G @ F0FBB zip ? ? ?", "no guess (/G)"), (b"On 990215 F0ABC/I @ F0FBB zip ? ? ?", "no info (/I)"),
                          (b"On 990230 F0ABC @ F0FBB zip ? ? ?", "its date is none"), (b"On 99021 F0ABC @ F0FBB zip ? ? ?", "its date is none"),
                          (b"On 990215 F0ABCDE @ F0FBB zip ? ? ?", "a call has 1 to 6"), (b"On 990215 F0ABC @ F0FBB. zip ? ? ?", "a home mailbox has"),
                          (b"On 990215 F0ABC @ F0FBB zip", "a zip isn't empty"), (b'On 990215 F0ABC @ F0FBB zip ? A"n ?', "a name stands in quotes"),
                          (b'On 990215 F0ABC @ F0FBB zip ? ? a" ? "b', "a town stands in quotes"), (b"On 990215 F0ABC F0FBB zip ? ? ?", "no record"),
                          (b"on 990215 F0ABC @ F0FBB zip ? ? ?", "no record"), (b"On  990215 F0ABC @ F0FBB zip ? ? ?", "no record")):
            self.assertRegex(self.read(node, b"00 V 10\r" + line).decode(), r"2  dropped  [Oo]n .*\n +[^\n]*" + re.escape(why))
        self.assertEqual(len(self.homes(node)), 2)
        self.assertEqual(node.run("whitepages", "-", input=b"On 990215 F0GHI @ F0FBB zip ? ? ?\r00 V 11\r")[0], BAD_FILE)
        self.assertEqual(len(self.homes(node)), 2)

    def test_convert(self):
        "dates and seconds, as the request has them, without a base; what is refused, with its number"
        node = self.node()
        node.path.unlink()
        for words, out in ((("--date", "990215"), b"918950400\n"), (("--date", "700101"), b"-86400\n"), (("--seconds", "918950400"), b"990214\n"),
                           (("--seconds", "0"), b"700101\n"), (("--seconds=3155759999",), b"691231\n"), (("--date", "000301", "--seconds", "951868799"), b"951782400\n000229\n")):
            self.assertEqual(node.right("whitepages", *words), out)
        for date in ("990229", "9902", "9902150", "99021x", "", "990012", "991300"):
            self.says_why(node.run("whitepages", "--date", date), REFUSED, "--date: %s: refusal 1, bad date" % date)
        for seconds in ("-1", "-86400", "3155760000", "99999999999999999999999", "-99999999999999999999999"):
            self.says_why(node.run("whitepages", "--seconds", seconds), REFUSED, "--seconds: %s: refusal 2, out of range" % seconds)
        for seconds in ("", "-", "1x", "+1", " 1", "0x1", "1 "):
            self.says_why(node.run("whitepages", "--seconds", seconds), BAD_USAGE, "not a number")
        self.says_why(node.run("whitepages", "FILE", "--date", "990215"), BAD_USAGE, "nothing is read")
        self.says_why(node.run("whitepages"), BAD_USAGE, "wrong number of arguments")


class Newest(Pages):
    def test_newest(self):
        "the newest by its time stamp answers, in whatever order they came, and no older one is lost"
        stamps = [500, 3000, 1000, 3000, 2000]
        for number, order in enumerate((stamps, sorted(stamps), sorted(stamps, reverse=True))):
            node = self.node("node%d" % number)
            for stamp in order:
                self.read(node, member(home=b"H%d" % stamp, stamp=stamp))
            self.assertEqual(self.goes_to(node, "F0ABC"), b"F0ABC@H3000")
            self.assertIn(b"   white pages beside it: 3; --older shows them\n", node.right("home", "F0ABC"))
            older = node.right("home", "F0ABC", "--older").decode().splitlines()
            self.assertEqual([line.split()[1] for line in older[4:]], ["H2000", "H1000", "H500"])
            self.assertEqual([line.split("  ")[-1] for line in older[4:]], ["file -"] * 3)

    def test_equal(self):
        "of equal stamps the one with fewer hops answers, then the one that was read last; another mailbox is told"
        node = self.node()
        for home, hops in ((b"FAR", 7), (b"NEAR", 2), (b"LATER", 2), (b"MIDDLE", 3)):
            self.read(node, member(home=home, hops=hops))
        self.assertEqual(self.goes_to(node, "F0ABC"), b"F0ABC@LATER")
        out = node.right("home", "F0ABC")
        self.assertEqual(re.findall(rb"another white page of that time names (\w+)\n", out), [b"NEAR", b"MIDDLE", b"FAR"])
        self.read(node, b"On 700103 F0GHI @ OLDER zip ? ? ?\rOn 700103 F0GHI @ OLD zip ? ? ?\r" + member(call=b"F0GHI", home=b"PAGE", stamp=86400, hops=99))
        self.assertEqual(self.goes_to(node, "F0GHI"), b"F0GHI@PAGE")

    def test_again(self):
        "the same record is kept once, from whatever source; one that differs in anything is another"
        node = self.node()
        self.assertIn(b"home mailboxes 2 (new 2, ", self.read(node, SAMPLE + OLD))
        self.assertIn(b"home mailboxes 2 (new 0, ", self.read(node, SAMPLE + OLD))
        file = self.folder / "wp.txt"
        file.write_bytes(SAMPLE + OLD)
        self.assertIn(b"(new 0, ", node.right("whitepages", file))
        self.assertEqual(self.homes(node, "source"), [(b"-",), (b"-",)])
        records = [member(), member(bid=b"2_F0FBB"), member(hops=2), member(name=b"ANN"), member(zip=b"?"), member(town=b""), member(origin=b"F0XYZ"), member(call=b"f0abc")]
        for record in records * 2:
            self.read(node, record)
        self.assertEqual(len(self.homes(node)), 2 + len(records))

    def test_calls(self):
        "a callsign is one in either case and with any SSID; what is no callsign is taken as it is, in capitals"
        node = self.node()
        self.read(node, member(call=b"n0de", stamp=1) + member(call=b"N0D-7", home=b"SSID") + member(call=b"Sys-1", home=b"WORD") + member(call=b"\"", home=b"QUOTE"))
        for call in ("N0DE", "n0de", "N0DE-0", "n0De-15"):
            self.assertEqual(self.goes_to(node, call), b"N0DE@F0FBB.FRA.EU")
        self.assertEqual(self.homes(node, "station, call")[:2], [(b"N0DE", b"n0de"), (b"N0D", b"N0D-7")])
        self.assertEqual([self.goes_to(node, call) for call in ("N0D", "SYS-1", "sys-1", "\"")], [b"N0D@SSID", b"SYS-1@WORD", b"SYS-1@WORD", b"\"@QUOTE"])
        for call in ("F0XYZ", "SYS", "N0DE-16", "", "N0DE ", "A" * 1000):
            self.says_why(node.run("home", call), BAD_USAGE, call + ": no white page of the base names this callsign")
        self.says_why(node.run("home"), BAD_USAGE, "home: wrong number of arguments")
        self.says_why(node.run("home", "A", "B"), BAD_USAGE, "home: wrong number of arguments")


class Sources(Kept, Pages):
    def test_inbox(self):
        "a mail of the inbox by its BID in whatever spelling, its copies too; the outbox isn't asked"
        node = self.node().add(Message(b"1_OUT", SAMPLE, form="plain"))
        self.sends(node, Message(b"1_Them", SAMPLE, form="plain", to=b"W", frm=b"OE3DZW", title=b"WP Update"))
        out = node.right("whitepages", "1_THEM")
        self.assertTrue(out.startswith(b"inbox 1, BID 1_Them, from OE3DZW: WP Update\n   line  sum "), out)
        self.assertEqual(self.homes(node, "source, inbox"), [(b"1_Them", 1)])
        self.assertIn(b"\n   from: message of the inbox, BID 1_Them; BID 749OE3DZW004 of OE3DZW, hops 1\n", node.right("home", "OE3DZW"))
        self.says_why(node.run("whitepages", "1_OUT"), BAD_USAGE, "1_OUT: no message of the inbox has this BID, and no file this name")
        self.sends(node, Message(b"X", b"another", form="plain"))
        self.import_others(node)
        self.sends(node, Message(b"1_THEM", SAMPLE.replace(b"9234710", b"9234711"), form="plain", to=b"W"))
        out = node.right("whitepages", "1_THEM")
        self.assertEqual(re.findall(rb"(?m)^(inbox .*), BID", out), [b"inbox 1", b"inbox 3, copy 1"])
        self.assertEqual(re.findall(rb"new (\d)", out), [b"0", b"1"])

    def test_packed(self):
        "what is packed can't be read, and that is told"
        node = self.node()
        file = self.folder / "packed.msg"
        file.write_bytes(Message(b"1_A", SAMPLE).file())
        code, out, err = node.run("whitepages", file)
        self.says_why((code, err), BAD_FILE)
        self.assertIn(b"\n   packed: its white pages lie in what is packed\n", out)
        self.assertEqual(self.homes(node), [])

    def test_files(self):
        "a file of messages, each of them a mail, or the text of a mail; line ends as import takes them"
        node = self.node()
        file = self.folder / "wp.msg"
        file.write_bytes(Message(b"1_A", SAMPLE, form="plain").file() + Message(b"2_A", member(), form="plain", title=b"Two").file())
        out = node.right("whitepages", file)
        self.assertEqual(re.findall(rb"(?m)^/.*(, message .*)$", out), [b", message 1, BID 1_A, from F0ABC: Hello", b", message 2, BID 2_A, from F0ABC: Two"])
        self.assertEqual(self.homes(node, "call, source, inbox"), [(b"OE3DZW", bytes(file), 0), (b"F0ABC", bytes(file), 0)])
        for name, text, options in (("crlf", SAMPLE.replace(b"\r", b"\r\n"), ()), ("lf", SAMPLE.replace(b"\r", b"\n"), ("--text",)), ("cut", SAMPLE[:-1], ())):
            other = self.node(name)
            self.read(other, text, *options)
            self.assertEqual(self.homes(other), [(b"OE3DZW", b"OE3DZW.#OE3.AUT.EU", 923471053)])
        lf = SAMPLE.replace(b"\r", b"\n")
        self.says_why(node.run("whitepages", "-", input=lf), BAD_FILE, "lines end with LF", "--text")
        self.says_why(node.run("whitepages", "-", "--as-is", input=lf), BAD_FILE, "no white page")

    def test_bad(self):
        "what can't be read gets a sentence, and then nothing of the command is kept"
        node = self.node()
        file = self.folder / "bad.msg"
        for content, why in ((b"\xef\xbb\xbf" + SAMPLE, "byte order mark"), (Message(b"1_A", SAMPLE, form="plain").file() + b"To: nobody\r\n", "no empty line")):
            file.write_bytes(content)
            self.says_why(node.run("whitepages", "-", file, input=SAMPLE), BAD_FILE, "bad.msg: ", why)
        self.says_why(node.run("whitepages", "-", self.folder / "none", input=SAMPLE), BAD_USAGE, "none: no message of the inbox has this BID, and no file this name")
        self.says_why(node.run("whitepages", self.folder), BAD_FILE, "directory")
        self.assertEqual(self.homes(node), [])

    def test_name(self):
        "a BID of the inbox comes before a file of that name"
        node = self.node()
        self.sends(node, Message(b"wp.txt", member(home=b"INBOX"), form="plain"))
        (self.folder / "wp.txt").write_bytes(member(home=b"FILE"))
        process = node.start("whitepages", "wp.txt", cwd=self.folder)
        self.assertEqual(process.wait(PATIENCE), DONE)
        self.assertEqual(self.homes(node, "mailbox"), [(b"INBOX",)])
        process = node.start("whitepages", "./wp.txt", cwd=self.folder)
        self.assertEqual(process.wait(PATIENCE), DONE)
        self.assertEqual(self.homes(node, "mailbox"), [(b"INBOX",), (b"FILE",)])


class Bases(Pages):
    def test_beside(self):
        "beside a session, which goes on"
        node = self.node()
        partner = node.stdio()
        partner.hears(GREETING)
        self.read(node, SAMPLE)
        self.assertEqual(self.goes_to(node, "OE3DZW"), b"OE3DZW@OE3DZW.#OE3.AUT.EU")
        partner.says(b"[TST-1-F$]\rFF\r")
        partner.hears(b"FQ\r")
        self.says_why(partner.ends(), DONE)

    def test_locked(self):
        "a base that somebody else is changing for long is named, nothing is kept, and who only asks isn't held up"
        node = self.node()
        self.read(node, SAMPLE)
        other = sqlite3.connect(node.path, isolation_level=None)
        other.execute("BEGIN IMMEDIATE")
        process = node.start("whitepages", "-", stdin=subprocess.PIPE)
        process.stdin.write(member())
        process.stdin.close()
        self.assertEqual(self.goes_to(node, "OE3DZW"), b"OE3DZW@OE3DZW.#OE3.AUT.EU")
        self.says_why((process.wait(PATIENCE), process.stderr.read().decode()), BAD_BASE, "in use by another process")
        self.assertEqual(process.stdout.read(), b"")
        other.execute("ROLLBACK")
        other.close()
        self.assertEqual(len(self.homes(node)), 1)

    def test_before(self):
        "a base of the version before is lifted"
        node = self.node().add(Message(b"1_A"))
        for table in ("home", "forward", "route", "passage"):
            node.ask("DROP TABLE " + table)
        for column in ("proposed", "unsettled", "waiting", "waiting_bytes"):
            node.ask("ALTER TABLE session DROP COLUMN " + column)
        node.ask("CREATE INDEX waiting ON outbox (number) WHERE state = 0")
        node.ask("PRAGMA user_version = 4")
        self.says_why(node.run("home", "OE3DZW"), BAD_USAGE, "no white page")
        self.read(node, SAMPLE)
        self.assertEqual(self.goes_to(node, "OE3DZW"), b"OE3DZW@OE3DZW.#OE3.AUT.EU")
        self.assertEqual(node.states(), {b"1_A": WAITING})

    def test_full(self):
        "output that can't be written is an error; what was read is kept"
        node = self.node()
        file = self.folder / "wp.txt"
        file.write_bytes(SAMPLE)
        for words in (("whitepages", file), ("home", "OE3DZW")):
            with open("/dev/full", "wb") as full:
                process = node.start(*words, stdout=full)
                self.says_why((process.wait(PATIENCE), process.stderr.read().decode()), FAILED, "standard output")
        self.assertEqual(len(self.homes(node)), 1)

    def test_killed(self):
        "killed at any moment it has kept all of a mail or nothing"
        loaded, moment, code = self.shim("killed"), 0, None
        mail = self.folder / "wp.txt"
        mail.write_bytes(SAMPLE + OLD + member())
        while code != DONE:
            moment += 1
            node = self.node(str(moment), program=PLAIN)
            process = node.start("whitepages", mail, env=dict(os.environ, LD_PRELOAD=loaded, KILL_AT=str(moment)))
            process.communicate(timeout=PATIENCE)
            code = process.returncode
            self.assertIn(len(self.homes(node)), (3,) if code == DONE else (0, 3))
            self.assertIn(b"home mailboxes 3 ", node.right("whitepages", mail))
            self.assertEqual(len(self.homes(node)), 3)
        self.assertGreater(moment, 3)


class OnlyRead(test_beside.ReadOnly):
    """With what those tests make; they themselves don't run here again."""

    def test_home(self):
        "a base that can only be read says where mail goes; white pages aren't kept there"
        for number, (file, folder) in enumerate(((0o444, 0o555), (0o444, 0o755), (0o644, 0o555))):
            self.place.chmod(0o755)
            node = Node(self.place, "node%d" % number)
            node.right("whitepages", "-", input=SAMPLE)
            self.protect(node, file, folder)
            self.assertEqual(self.run_as_reader(node, "home", "OE3DZW")[1].split(b"\n")[0], b"OE3DZW@OE3DZW.#OE3.AUT.EU")
            self.says_why(self.run_as_reader(node, "whitepages", "-"), BAD_BASE, "can only be read")


for name in list(vars(test_beside.ReadOnly)):
    if name.startswith("test_"):
        setattr(OnlyRead, name, None)
