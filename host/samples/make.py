#!/usr/bin/env python3
"""Writes the sample messages, north/*.msg and south/*.msg, from the texts below.

    make.py [FOLDER]    (default: where it stands)

A packed body is its text in LZHUF, as mailboxes have it at level 1 (tests/peers/lzhuf.py), so a real mailbox can read it. Files are named by BID and
written as the host writes them, so that what arrives can be compared with them byte for byte.
"""
import pathlib
import sys

here = pathlib.Path(__file__).resolve().parent
sys.path.insert(0, str(here.parents[1] / "tests" / "peers"))
import lzhuf  # noqa: E402

FRENCH = """Bonjour à tous,
la prochaine réunion du club est prévue samedi à 14 h à Besançon, dans la salle habituelle.
Ordre du jour : le relais, la balise à 144 MHz, le repas de Noël.
73 de F0ABC
"""
GERMAN = """Liebe Funkfreunde,
die Ergebnisse des Fieldday: 1. OE0ABC 412 Punkte, 2. OE0XYZ 398, 3. DL0ÄÖÜ 377. Wir grüßen alle, die im Regen durchgehalten haben.
"""
ITALIAN = """Perché il rapporto è sceso di sei decibel? L'antenna è più bassa di due metri: il palo si è piegato col vento di giovedì. \
La rialziamo sabato, servono quattro persone e una corda lunga. Chi può venire risponda a questo messaggio, grazie. 73 da I0ABC, Perugia. A domani. Buona serata."""
ENGLISH = """Kepler elements, week 11. OBJECT 1 EPOCH 25073.51782528 INC 51.6416 RAAN 247.4627 ECC .0006703 ARGP 130.5360 MA 325.0288
OBJECT 2 EPOCH 25073.20138889 INC 98.5681 RAAN 83.0412 ECC .0011220 ARGP 90.1101 MA 270.1305
"""
SWEDISH = """Hej! Mötet på lördag är flyttat till klockan tre. Ta med kaffe, och någon som kan löda. Hälsningar från Växjö
"""
SPANISH = """¿Alguien más oye la baliza con señal débil? Aquí en la montaña llega con mucho desvanecimiento desde el miércoles.
Quizás el conector se llenó de agua. 73, EA0ABC
"""
POLISH = """Zażółć gęślą jaźń. Zawody UKF odbędą się w niedzielę, logi proszę przysyłać do środy. Powodzenia życzy SP0ABC
"""

LEVEL = 1  # two of these nodes speak framed at level 1, so what arrives has the same bytes


def contest_log():
    """A long text that doesn't pack too well."""
    seed, lines = 11, []
    for serial in range(1, 801):
        seed = seed * 1103515245 + 12345 & 0x7FFFFFFF
        call = "".join(chr(65 + (seed >> shift) % 26) for shift in (4, 9, 14))
        locator = "J%c%d%c%c" % (78 + (seed >> 7) % 3, seed % 89 + 10, 65 + (seed >> 11) % 24, 65 + (seed >> 5) % 24)
        lines.append("%04d  %s0%s  5%d  %03d  %s  %d km" % (seed % 1440, "FDGHI"[seed % 5], call, seed % 9 + 1, seed >> 3 & 511, locator, seed % 977))
    return "\n".join(lines) + "\n"


def air(text, code):
    return text.replace("\n", "\r").encode(code)


def letter(bid, kind, frm, to, heading, body, form="message"):
    """As letter_write in host/letter.c has it."""
    lines = [b"From: " + frm, b"To: " + to]
    lines += [b"Subject: " + heading] if form != "file" else []
    lines += [b"Message-ID: " + bid, b"X-msgtype: " + kind, b"X-BID: " + bid]
    lines += [b"X-Form: " + form.encode(), b"X-Level: %d" % LEVEL] if form != "plain" else []
    lines += [b"X-File-Name: " + heading] if form == "file" else []
    return b"\r\n".join(lines + [b"", body]) + b"\r\n/EX\r\n"


def packed(text, code):
    return lzhuf.pack(air(text, code), LEVEL)


def samples():
    south, north = b"@N0SUD.TST.FRA.EU", b"@N0NOR.TST.FRA.EU"
    kepler = (b"KEPLER-11", b"B", b"N0SAT", b"ALL@EU", b"Kepler elements, week 11", packed(ENGLISH, "ascii"))
    italian = packed(ITALIAN, "latin-1")
    assert italian[0] == 0x0A, "this body begins with LF"
    yield "north", (b"101_N0NOR", b"P", b"F0ABC", b"F0XYZ" + south, "Réunion du club à Besançon".encode("latin-1"), packed(FRENCH, "latin-1"))
    yield "north", ("102_ÖVSV".encode("latin-1"), b"B", b"OE0ABC", b"ALL@EU", "Grüße vom Fieldday".encode(), packed(GERMAN, "utf-8"))
    yield "north", (b"103_N0NOR", b"P", b"I0ABC", b"I0XYZ" + south, "Perché è più bassa".encode("latin-1"), italian)
    yield "north", kepler
    yield "north", (b"105_N0NOR", b"B", b"F0LOG", b"LOGS@EU", b"CONTEST.LOG", packed(contest_log(), "ascii"), "file")
    yield "north", (b"106_N0NOR", b"P", b"SM0ABC", b"SM0XYZ" + south, "Möte på lördag".encode(), air(SWEDISH, "utf-8"), "plain")
    yield "south", (b"201_N0SUD", b"P", b"EA0ABC", b"EA0XYZ" + north, "¿Señal débil?".encode("latin-1"), packed(SPANISH, "latin-1"))
    yield "south", kepler
    yield "south", (b"203_N0SUD", b"B", b"SP0ABC", b"ALL@EU", "Zażółć gęślą jaźń".encode("iso8859-2"), packed(POLISH, "iso8859-2"))


def file_name(bid):
    return "".join(chr(b) if chr(b) in "-_" or (b < 128 and chr(b).isalnum()) else "%%%02X" % b for b in bid) + ".msg"


if __name__ == "__main__":
    folder = pathlib.Path(sys.argv[1]) if len(sys.argv) > 1 else here
    for node, fields in samples():
        (folder / node).mkdir(parents=True, exist_ok=True)
        (folder / node / file_name(fields[0])).write_bytes(letter(*fields))
