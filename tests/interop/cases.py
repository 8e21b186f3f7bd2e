"""The cases. Each has a name, says what it shows, and raises Failed where it doesn't hold."""
import re
import time

import lzhuf
from linfbb import FRAMED, HEAD
from node import DECLINED, DONE, FORWARDED, LINK_DROPPED, NOT_ADMITTED, REFUSED, WAITING
from relay import Drop, other_letter, wrong_data, wrong_line
from world import LEVELS, PASSWORD, WAYS, Failed, expect, kept_in, wire

BLOCK_END = re.compile(rb"[\r\n]F> [0-9A-F]{2}(?=\r)")

SHORT, LONG = [], []  # (name, function, arguments); the first argument names the mailbox


def case(name, *ways, into=SHORT):
    """A case for each of these ways (mode and role), by default for all six."""
    def add(function):
        for mode, role in ways or WAYS:
            into.append((f"{mode}, {role}: {name}", function, (mode, role)))
        return function
    return add


CALLER = [(mode, "caller") for mode in ("level1", "level0", "plain")]
FRAMED_WAYS = [(mode, role) for mode in ("level1", "level0") for role in ("caller", "called")]


def states_of(node, messages, *states):
    expect("states", node.states(), dict(zip((m.bid for m in messages), states)))


def done(session):
    ended, _ = session
    if ended.code != DONE:
        raise Failed(f"the session ended with exit code {ended.code}: {ended.said}")
    return session


def refused(ended, number):
    expect(f"refusal ({ended.said.strip()})", (ended.code, ended.refusal()), (REFUSED, number))


def inbox_is(node, mode, telnet, messages):
    """The messages that LinFBB passed on, each once, with its own lines in front."""
    found = []
    for bid, title, body in node.inbox():
        text = lzhuf.unpack(body, LEVELS[mode]) if mode in LEVELS else body
        # On its telnet port LinFBB adds LF after each CR, inside plain transfers too: 01 keeps them, the one after the title's CR first.
        if mode == "plain" and telnet:
            expect(f"first byte of {bid}", text[:1], b"\n")
            text = text[1:]
        found.append((bid, title, HEAD.sub(b"", text, count=1).replace(b"\r\n", b"\r")))
    expect("inbox", sorted(found), sorted((m.bid, m.title, m.text) for m in messages))


def at_linfbb(world, mode, messages):
    """Each message is there once, byte for byte."""
    found = world.fetch(mode)
    for message in messages:
        title, text = message.title[:60], kept_in(mode, message.text)
        expect(f"{message.bid} at LinFBB", found.get(message.bid.upper()), [(title, text)])


# ---- our mail goes out

LATIN = "Größe, élève, señor, ação, città".encode("latin-1")
UTF_8 = "Žluťoučký kůň úpěl ďábelské ódy".encode()
HIGH = bytes(range(0x80, 0x100))


def letters(world, mode):
    """What LinFBB keeps byte for byte, and what it alters: titles over 60 bytes, small letters of a BID, LFs of plain bodies."""
    end = b"\r" if mode == "plain" else b"\r\n"
    return [
        world.message(mode, title=LATIN, text=b"Two lines," + end + HIGH + end),
        world.message(mode, title=UTF_8, text=UTF_8 + end),
        world.message(mode, title=b" spaces at both ends ", text=bytes(range(0x20, 0x7F)) + end),
        world.message(mode, title=b"t" * 60, text=b"a long line " * 50 + end),
        world.message(mode, title=b"u" * 61, text=b"x" + end),
        world.message(mode, title=b"v" * 80, text=b"", bid=world.bid().replace(b"N0DE", b"low\xe9")),
        world.message(mode, type=b"B", at=b"WW", to=b"NEWS", title=b"a bulletin", text=b"to all" + end),
    ]


@case("mail goes out and is kept there")
def out(world, mode, role):
    messages = letters(world, mode)
    messages.append(world.message(mode, title=b"line ends", text=b"\nLF, CR\rand CR LF\r\nand none at the end"))
    node = world.node(*messages)
    done(world.session(mode, role, node))
    states_of(node, messages, *[FORWARDED] * len(messages))
    at_linfbb(world, mode, messages)


@case("repeated BIDs are declined")
def again(world, mode, role):
    messages = [world.message(mode) for _ in range(3)]
    first, second = world.node(*messages), world.node(messages[0], world.message(mode), messages[2])
    done(world.session(mode, role, first))
    at_linfbb(world, mode, messages)
    done(world.session(mode, role, second))
    expect("states", list(second.states().values()), [DECLINED, FORWARDED, DECLINED])
    at_linfbb(world, mode, messages)


@case("nobody has mail")
def nothing(world, mode, role):
    node = world.node()
    _, link = done(world.session(mode, role, node))
    expect("our last line", link.heard["us"][-3:], b"FF\r" if role == "caller" else b"FQ\r")


@case("what it rejects is declined, what it holds is accepted")
def reject_and_hold(world, mode, role):
    messages = [world.message(mode, type=b"B", at=b"WW", to=to) for to in (b"REJME", b"HOLDME", b"NEWS")]
    node = world.node(*messages)
    _, link = done(world.session(mode, role, node))
    expect("its answer", (b"FS RHY\r" if mode == "level1" else b"FS -++\r") in link.heard["peer"], True)
    states_of(node, messages, DECLINED, FORWARDED, FORWARDED)
    at_linfbb(world, mode, messages[2:])


@case("a packed file", *FRAMED_WAYS)
def packed_file(world, mode, role):
    message = world.message(mode, form=2, title=b"NEWS.TXT", text=b"A file\r\n")
    node = world.node(message)
    done(world.session(mode, role, node))
    states_of(node, [message], FORWARDED)


def lines_of(mode, size):
    """About so many bytes in lines that don't pack well."""
    end = b"\r" if mode == "plain" else b"\r\n"
    rows = size // (74 + len(end))
    return b"".join(bytes(33 + (7 * row + 3 * at * at) % 94 for at in range(74)) + end for row in range(rows))


def sizes(world, mode, role, *lengths):
    messages = [world.message(mode, text=lines_of(mode, length)) for length in lengths]
    node = world.node(*messages)
    done(world.session(mode, role, node))
    states_of(node, messages, *[FORWARDED] * len(messages))
    at_linfbb(world, mode, messages)


@case("a block that overruns 10,240 bytes", *CALLER)
def overrun(world, mode, role):
    sizes(world, mode, role, 1_000, 9_000, 4_000, 300)


@case("a body of 60,000 bytes", into=LONG)
def big(world, mode, role):
    sizes(world, mode, role, 60_000)


# ---- dropped links

def opening(role):
    """Our bytes before the first turn."""
    return b".N0DE\r[NOD-1-B1FH$]\r" if role == "caller" else b"[NOD-1-B1FH$]\r>\r"


def drop_points(role, block, transfers):
    """{where: the drop}."""
    start = len(opening(role))
    said = start + wire(role, block)
    ends = [said + sum(wire(role, t) for t in transfers[:n + 1]) for n in range(len(transfers))]
    return {
        "in our SID": Drop(start - 5),
        "in our proposals": Drop(said - 20),
        "before its FS line": Drop(said),
        "in its FS line": Drop(said, more=3),
        "in our first transfer": Drop((said + ends[0]) // 2),
        "after our first transfer": Drop(ends[0]),
        "before our last byte": Drop(ends[-1] - 1),
        "before its next turn": Drop(ends[-1]),
        "in its next turn": Drop(ends[-1], more=1),
        "in our FQ": Drop(ends[-1] + 1),
    }


def drop_and_call_again(world, mode, role, choose):
    messages = [world.message(mode, title=b"drop %d" % n, text=b"dropped \xe9 %d\r\n" % n * 40) for n in range(2)]
    node = world.node(*messages)
    block = b"".join(m.proposal() for m in messages) + b"F>\r"
    ended, _ = world.session(mode, role, node, drop=choose(block, [m.transfer() for m in messages]))
    # Where only our FQ is lost, the session is over for us.
    expect("the dropped session", ended.code in (DONE, LINK_DROPPED), True)
    marked = node.states()
    world.fetch(mode)
    done(world.session(mode, role, node))
    for message in messages:
        # A record that was marked stays so; one that was not is sent again, or declined because it is there.
        before, after = marked[message.bid], node.states()[message.bid]
        expect(f"{message.bid} before and after", before in (WAITING, after) and after != WAITING, True)
    at_linfbb(world, mode, messages)
    return [marked[m.bid] for m in messages]


def dropped(world, mode, role, where):
    states = drop_and_call_again(world, mode, role, lambda *said: drop_points(role, *said)[where])
    # Only its whole turn after our transfers marks.
    expect("states after the drop", states, [FORWARDED if where == "in our FQ" else WAITING] * 2)


for _mode, _role in WAYS:
    for _where in drop_points(_role, b"", [b""]):
        SHORT.append((f"{_mode}, {_role}: link dropped {_where}, neither lost nor doubled", dropped, (_mode, _role, _where)))


STEPS = 24


def dropped_at(world, mode, role, step):
    """After a part of all our bytes, whatever stands there."""
    def choose(block, transfers):
        return Drop(len(opening(role)) + step * wire(role, block + b"".join(transfers)) // STEPS)
    drop_and_call_again(world, mode, role, choose)


for _mode, _role in WAYS:
    for _step in range(1, STEPS):
        LONG.append((f"{_mode}, {_role}: link dropped at {_step}/{STEPS} of our bytes", dropped_at, (_mode, _role, _step)))


LEVEL_1_WAYS = [("level1", role) for role in ("caller", "called")]
ASKS = re.compile(rb"FS A[1-9][0-9]*[A-Z]*\r")
WAIT = 3  # seconds without progress, then the host ends a session


def cut_in_first(world, mode, role, *messages):
    """A node whose link dropped in its first transfer, after some 2,000 bytes of it."""
    node = world.node(*messages)
    block = b"".join(m.proposal() for m in messages) + b"F>\r"
    said = opening(role) + block + messages[0].transfer()[:2000]
    ended, _ = world.session(mode, role, node, drop=Drop(wire(role, said), pause=1))
    expect("exit code of the dropped session", ended.code, LINK_DROPPED)
    return node, block


@case("link dropped amid a long transfer: it asks for the rest, which counts as deferred; our limit ends the wait, at each call", *LEVEL_1_WAYS)
def asks_for_the_rest(world, mode, role):
    message = world.message(mode, text=lines_of(mode, 4_000))
    node, block = cut_in_first(world, mode, role, message)
    for _ in range(2):
        ended, link = world.session(mode, role, node, options=["--progress-limit", str(WAIT)])
        expect(f"exit code ({ended.said.strip()})", ended.code, LINK_DROPPED)
        expect("its answer", bool(ASKS.search(link.heard["peer"])), True)
        expect("our last bytes", link.heard["us"].endswith(block), True)
        states_of(node, [message], WAITING)
    expect("at LinFBB", world.fetch(mode).get(message.bid), None)


@case("link dropped amid a long transfer: at level 0 it takes the whole at the next call", ("level0", "caller"), ("level0", "called"))
def takes_the_whole(world, mode, role):
    message = world.message(mode, text=lines_of(mode, 4_000))
    node, _ = cut_in_first(world, mode, role, message)
    states_of(node, [message], WAITING)
    done(world.session(mode, role, node))
    states_of(node, [message], FORWARDED)
    at_linfbb(world, mode, [message])


@case("the same with another message behind it: we hang up before it takes that for the rest; at the next call the other goes first", *LEVEL_1_WAYS)
def asks_for_the_rest_of_one(world, mode, role):
    cut, other = world.message(mode, title=b"cut", text=lines_of(mode, 4_000)), world.message(mode, title=b"other", text=b"behind it\r\n")
    node, block = cut_in_first(world, mode, role, cut, other)
    ended, link = world.session(mode, role, node, options=["--progress-limit", str(WAIT)])
    expect(f"how it ended ({ended.said.strip()})", (ended.code, "asks for the rest" in ended.said), (LINK_DROPPED, True))
    expect("its answer", bool(re.search(rb"FS A[1-9][0-9]*Y\r", link.heard["peer"])), True)
    expect("our last bytes", link.heard["us"].endswith(block), True)
    states_of(node, [cut, other], WAITING, WAITING)
    for answer, state in ((rb"FS YA[1-9][0-9]*\r", WAITING), (rb"FS [NR]A[1-9][0-9]*\r", DECLINED)):
        world.fetch(mode)
        ended, link = world.session(mode, role, node, options=["--progress-limit", str(WAIT)])
        expect(f"how it ended ({ended.said.strip()})", (ended.code, "no progress" in ended.said), (LINK_DROPPED, True))
        expect("its answer", bool(re.search(answer, link.heard["peer"])), True)
        states_of(node, [cut, other], WAITING, state)
    at_linfbb(world, mode, [other])
    expect("at LinFBB", world.fetch(mode).get(cut.bid), None)


# ---- its mail comes in

BLANKS = "--blank-offset"


def for_us(world, mode, **fields):
    """Mail for our node, as LinFBB's other partner brings it in."""
    return world.message(mode, at=b"N0DE.TST.FRA.EU", to=b"N0DE", **fields)


def incoming_mail(world, mode, count):
    return [for_us(world, mode, title=b"for us %d" % n, text=b"t\xe9xt %d\r" % n * (n + 1)) for n in range(count)]


def options_for(mode):
    """What the host needs to take LinFBB's mail in this mode."""
    return [BLANKS] if mode in LEVELS else []


def kept_as_sent(node, mode, heard):
    """Each message of the inbox stands on the link byte for byte; framed, as LinFBB writes it: six bytes of offset, blocks of 250."""
    for bid, title, body in node.inbox():
        sent = title + b"\r" + body + b"\x1a\r"
        if mode in LEVELS:
            blocks = [body[at:at + 250] for at in range(0, len(body), 250)]
            sent = bytes([1, len(title) + 8]) + title + b"\0     0\0"
            sent += b"".join(bytes([2, len(block)]) + block for block in blocks) + bytes([4, -sum(body) % 256])
        expect(f"{bid} on the link", heard.count(sent), 1)


def exchange(world, mode, role, login=".N0DE"):
    """Six messages come, in blocks of five and one, and one goes."""
    incoming, outgoing = incoming_mail(world, mode, 6), world.message(mode)
    node, telnet = world.node(outgoing), role == "called" or not login.startswith(".")
    with world.box(mode).holding(*incoming):
        _, link = done(world.session(mode, role, node, login=login, options=options_for(mode)))
    heard = link.heard["peer"]
    states_of(node, [outgoing], FORWARDED)
    inbox_is(node, mode, telnet, incoming)
    kept_as_sent(node, mode, heard.replace(b"\xff\xff", b"\xff") if telnet else heard)
    expect("blocks that ended with F> HH", len(BLOCK_END.findall(heard)), 2)
    at_linfbb(world, mode, [outgoing])


@case("mail goes both ways, and each text is kept as it was sent")
def both_ways(world, mode, role):
    exchange(world, mode, role)


@case("mail goes both ways on a port that adds LF after CR", *CALLER)
def both_ways_with_lf(world, mode, role):
    exchange(world, mode, role, login="N0DE")


def dropped_at_its_end(world, mode, role, cr):
    """The link drops before the CR of its F> HH, or right after it. As called station our turn comes after its first five."""
    incoming, outgoing = incoming_mail(world, mode, 6), world.message(mode)
    node, first = world.node(outgoing), 5 if role == "called" else 0
    said = opening(role) + (b"FS +++++\r" if first else b"") + outgoing.proposal() + b"F>\r" + outgoing.transfer()
    turn = b"".join(message.proposal() for message in incoming[first:][:5]) + b"F> HH"
    # Where LinFBB calls, LF follows each CR, but not after framed transfers.
    more = len(turn) + (turn.count(b"\r") if (mode, role) == ("plain", "called") else 0) + cr
    with world.box(mode).holding(*incoming):
        ended, link = world.session(mode, role, node, drop=Drop(len(said), more), options=options_for(mode))
        expect("exit code of the dropped session", ended.code, LINK_DROPPED)
        expect("its last line", re.sub(rb"F> [0-9A-F]{2}", b"F> HH", link.heard["peer"][-6:])[-5 - cr:], b"F> HH" + b"\r" * cr)
        states_of(node, [outgoing], FORWARDED if cr else WAITING)
        expect("messages kept", len(node.inbox()), first)
        world.fetch(mode)
        done(world.session(mode, role, node, options=options_for(mode)))
    # Where the mark was not set, LinFBB declines the copy.
    states_of(node, [outgoing], FORWARDED if cr else DECLINED)
    inbox_is(node, mode, role == "called", incoming)
    at_linfbb(world, mode, [outgoing])


@case("ours that it took is forwarded at the CR of its F> HH")
def forwarded_at_its_end(world, mode, role):
    dropped_at_its_end(world, mode, role, 1)


@case("and not a byte before")
def waits_before_its_end(world, mode, role):
    dropped_at_its_end(world, mode, role, 0)


@case("one letter of a BID changed on the way: 13, and the message comes at the next call")
def changed_letter(world, mode, role):
    incoming, outgoing = incoming_mail(world, mode, 3), world.message(mode)
    node = world.node(outgoing)
    with world.box(mode).holding(*incoming):
        ended, link = world.session(mode, role, node, edits=[other_letter(incoming[1].bid)], options=options_for(mode))
        refused(ended, 13)
        expect("its last line", bool(BLOCK_END.search(link.heard["peer"])), True)
        last = outgoing.transfer() if role == "caller" else b">\r"
        expect("our last line", link.heard["us"].endswith(last + b"*** Protocol error\r"), True)
        expect("inbox", node.inbox(), [])
        # As caller we had sent our mail, but a turn with a wrong checksum is none.
        states_of(node, [outgoing], WAITING)
        world.fetch(mode)
        done(world.session(mode, role, node, options=options_for(mode)))
    states_of(node, [outgoing], DECLINED if role == "caller" else FORWARDED)
    inbox_is(node, mode, role == "called", incoming)
    at_linfbb(world, mode, [outgoing])


@case("a BID in small letters comes back in capitals and is declined, not kept again")
def comes_back(world, mode, role):
    """The flood that nobody wants: our own message, which another partner brings to a mailbox that writes BIDs in capitals."""
    message = for_us(world, mode, bid=world.bid().replace(b"N0DE", b"low\xe9"))
    node, capitals = world.node(message), message.bid.upper()
    world.fetch(mode)
    done(world.session(mode, "caller", node, login=".F0SRC", options=options_for(mode)))
    states_of(node, [message], FORWARDED)
    _, link = done(world.session(mode, role, node, options=options_for(mode)))
    expect("its proposal", b" %s " % capitals in link.heard["peer"], True)
    expect("our answer", b"FS -\r" in link.heard["us"], True)
    expect("the base", (node.states(), node.inbox()), ({message.bid: FORWARDED}, []))
    _, link = done(world.session(mode, role, node, options=options_for(mode)))
    expect("proposed again", capitals in link.heard["peer"], False)


def dropped_while_it_sends(world, mode, role, step):
    incoming, node = incoming_mail(world, mode, 4), world.node()
    # Our bytes up to our FS line, then a part of its transfers.
    said = opening(role) + (b"FF\rFS ++++\r" if role == "caller" else b"FS ++++\r")
    more = 1 + step * (75 if mode in LEVELS else 90)
    with world.box(mode).holding(*incoming):
        ended, _ = world.session(mode, role, node, drop=Drop(len(said), more), options=options_for(mode))
        expect("exit code of the dropped session", ended.code, LINK_DROPPED)
        kept = len(node.inbox())
        done(world.session(mode, role, node, options=options_for(mode)))
    inbox_is(node, mode, role == "called", incoming)
    return kept


for _mode, _role in WAYS:
    for _step in range(8):
        _name = f"{_mode}, {_role}: link dropped while it sends ({_step + 1}), neither lost nor doubled"
        (SHORT if _step in (1, 5) else LONG).append((_name, dropped_while_it_sends, (_mode, _role, _step)))


SPACES, ZEROS = b" " * 9 + b"0", b"0" * 9 + b" "


@case("titles and texts of blanks and zeros come unchanged, where blanks of an offset count as zeros", *FRAMED_WAYS)
def blanks_and_zeros(world, mode, role):
    header = b"\x01\x08HI\0     0\0\x02\x02"
    incoming = [for_us(world, mode, title=b"x" + SPACES * 5, text=SPACES * 40 + b"\r"), for_us(world, mode, title=ZEROS * 5 + b"x", text=b"\r" * 9),
                for_us(world, mode, title=b"0     0", text=header * 30 + ZEROS + b"\r")]
    node = world.node()
    with world.box(mode).holding(*incoming, sid=FRAMED):
        _, link = done(world.session(mode, role, node, options=[BLANKS]))
    kept_as_sent(node, mode, link.heard["peer"].replace(b"\xff\xff", b"\xff") if role == "called" else link.heard["peer"])
    expect("titles", [title for _, title, _ in node.inbox()], [message.title for message in incoming])


# ---- it hears why we hang up

PROTOCOL_ERROR, CHECKSUM_ERROR = b"*** Protocol error", b"*** Checksum error"


def told_why(world, mode, role, number, reason, edits, options):
    """A refusal that LinFBB's own console shows as its operator sees it; the mail comes at the next call."""
    incoming, node = incoming_mail(world, mode, 2), world.node()
    with world.box(mode).holding(*incoming):
        with world.box(mode).watched() as shown:
            ended, link = world.session(mode, role, node, edits=edits, options=options)
            refused(ended, number)
            expect("our last line", link.heard["us"].endswith(reason + b"\r"), True)
            console = shown()
            expect(f"at LinFBB's console ({console[-600:]!r})", reason in console, True)
        expect("inbox", node.inbox(), [])
        done(world.session(mode, role, node, options=options_for(mode)))
    inbox_is(node, mode, role == "called", incoming)


@case("a wrong line put in on the way: 5, and its console shows our reason")
def told_of_a_line(world, mode, role):
    told_why(world, mode, role, 5, PROTOCOL_ERROR, [wrong_line()], options_for(mode))


@case("a byte of its transfer changed on the way: 9, and its console shows our reason", *FRAMED_WAYS)
def told_of_a_checksum(world, mode, role):
    told_why(world, mode, role, 9, CHECKSUM_ERROR, [wrong_data(b"for us 0")], options_for(mode))


@case("its blank-padded offset: its console shows our reason", *FRAMED_WAYS)
def told_of_an_offset(world, mode, role):
    told_why(world, mode, role, 8, PROTOCOL_ERROR, (), ())


def tells_why(world, mode, role, spoil, reason):
    """What we say is spoilt on the way: our operator reads LinFBB's reason, and the mail goes at the next call."""
    message = world.message(mode, text=b"good\r\n")
    node = world.node(message)
    ended, link = world.session(mode, role, node, spoil=spoil)
    refused(ended, 5)
    said = re.search(rb"\*\*\* [^\r]*", link.heard["peer"])
    expect(f"its reason ({link.heard['peer'][-100:]!r})", said is not None and said.group().startswith(reason), True)
    expect(f"what our operator reads ({ended.said})", "the partner says why: " + said.group().decode() in ended.said, True)
    expect("the session's row", node.rows("SELECT refusal, line FROM session"), [(5, said.group() + b"\r")])
    states_of(node, [message], WAITING)
    world.fetch(mode)
    done(world.session(mode, role, node))
    states_of(node, [message], FORWARDED)


@case("a line of ours spoilt on the way: its reason is told to our operator")
def tells_of_a_line(world, mode, role):
    tells_why(world, mode, role, lambda data: re.sub(rb"F[AB] P F0AAA ", b"FX P F0AAA ", data), PROTOCOL_ERROR)


@case("a byte of our transfer spoilt on the way: its reason is told to our operator", *FRAMED_WAYS)
def tells_of_a_checksum(world, mode, role):
    def spoil(data):
        return re.sub(rb"(\0000\0\x02.)(.)", lambda found: found.group(1) + bytes([found.group(2)[0] ^ 1]), data, flags=re.S)
    tells_why(world, mode, role, spoil, CHECKSUM_ERROR)


# ---- where LinFBB leaves 01 (docs/INTEROP.md)

@case("its blank-padded offset gets 8, and the message comes once the host takes blanks for zeros", *FRAMED_WAYS)
def blank_offset(world, mode, role):
    incoming, outgoing = incoming_mail(world, mode, 1), world.message(mode)
    node = world.node(outgoing)
    with world.box(mode).holding(*incoming):
        ended, link = world.session(mode, role, node)
        refused(ended, 8)
        expect("a header with blanks came", b"for us 0\0     0\0" in link.heard["peer"], True)
        expect("inbox", node.inbox(), [])
        # As caller ours went first, and its `F> HH` marked it.
        states_of(node, [outgoing], FORWARDED if role == "caller" else WAITING)
        world.fetch(mode)
        done(world.session(mode, role, node, options=[BLANKS]))
    states_of(node, [outgoing], FORWARDED)
    inbox_is(node, mode, role == "called", incoming)
    at_linfbb(world, mode, [outgoing])


@case("a SID without F gets 4", ("old", "caller"), ("old", "called"))
def old_mode(world, mode, role):
    message = world.message("plain")
    node = world.node(message)
    refused(world.session(mode, role, node)[0], 4)
    states_of(node, [message], WAITING)


@case("all its mail deferred, its FF in answer to our FF gets 5", ("level1", "caller"))
def all_deferred(world, mode, role):
    node = world.node()
    with world.box(mode).holding(for_us(world, mode)):
        ended, link = world.session(mode, role, node, options=["--room", "0"])
    refused(ended, 5)
    expect("our answer", link.heard["us"].endswith(b"FS =\rFF\r*** Protocol error\r"), True)
    expect("its last line", link.heard["peer"][-3:], b"FF\r")


@case("its text is longer than announced: 10 where room is tight", ("plain", "caller"))
def longer_than_announced(world, mode, role):
    """It announces the text's size and sends its R: and From: lines on top."""
    node, message = world.node(), for_us(world, mode)
    with world.box(mode).holding(message):
        ended, link = world.session(mode, role, node, options=["--room", "60"])
    refused(ended, 10)
    expect("its proposal", b" %s %d\r" % (message.bid, len(message.text)) in link.heard["peer"], True)
    expect("our answer", link.heard["us"].endswith(b"FS +\r*** Protocol error\r"), True)
    expect("inbox", node.inbox(), [])


@case("a packed empty text is passed on announced with ten digits: 5", ("level1", "caller"))
def ten_digits(world, mode, role):
    node, empty = world.node(), for_us(world, mode, text=b"")
    with world.box(mode).holding(empty, sid=FRAMED):
        ended, link = world.session(mode, role, node)
    refused(ended, 5)
    expect("its proposal", b" %s 4294967295\r" % empty.bid in link.heard["peer"], True)


@case("type T (NTS traffic) gets 5", ("level1", "caller"))
def type_t(world, mode, role):
    node, traffic = world.node(), world.message(mode, type=b"T", at=b"NTSTX", to=b"75001")
    with world.box(mode).holding(traffic):
        ended, link = world.session(mode, role, node)
    refused(ended, 5)
    expect("its proposal", b"FA T F0AAA NTSTX 75001 %s " % traffic.bid in link.heard["peer"], True)


@case("an at field over 31 bytes is deferred each time", *CALLER)
def long_at(world, mode, role):
    message = world.message(mode, at=b"F0SRC.ABCDEF.ABCDEF.ABCDEF.ABCDEF")
    node = world.node(message)
    for _ in range(2):
        done(world.session(mode, role, node))
        states_of(node, [message], WAITING)


@case("a body line /EX ends the message there, and we can't know", ("plain", "caller"))
def ex_line(world, mode, role):
    message = world.message(mode, text=b"before\r/EX\rafter\r")
    node = world.node(message)
    ended, _ = world.session(mode, role, node)
    # After its FF comes a `***` line about the rest of the text: 11 if our FQ still waits then.
    expect("answer", ended.refusal() in (0, 11), True)
    states_of(node, [message], FORWARDED)
    expect("at LinFBB", world.fetch(mode).get(message.bid), [(message.title, b"before\r")])


@case("a copy that it declines, it may mark as passed on, and we can't know", *CALLER, into=LONG)
def unpassed_copy(world, mode, role):
    """LinFBB takes the partner whose session just ended on that telnet channel for the one that proposes the copy."""
    message = world.message(mode)
    world.fetch(mode)
    node, again = world.node(message), world.node(message)
    world.fetch(mode)
    done(world.session(mode, role, node))
    time.sleep(2)
    done(world.session(mode, role, again))
    states_of(again, [message], DECLINED)
    expect("passed on", world.fetch(mode).get(message.bid), None)


@case("a body line that begins with FF loses two bytes there, and we can't know", ("plain", "called"))
def ff_line(world, mode, role):
    message = world.message(mode, text=b"good \xff\r\xffab and the rest\r")
    node = world.node(message)
    done(world.session(mode, role, node))
    states_of(node, [message], FORWARDED)
    expect("at LinFBB", world.fetch(mode).get(message.bid), [(message.title, b"good \xff\r\xff and the rest\r")])


@case("login without the dot (LF after CR, FF doubled)", *CALLER)
def without_the_dot(world, mode, role):
    messages = letters(world, mode)
    node = world.node(*messages)
    done(world.session(mode, role, node, login="N0DE"))
    states_of(node, messages, *[FORWARDED] * len(messages))
    at_linfbb(world, mode, messages)


# ---- who may call

@case("it logs in to us by callsign and password; with another password it gets nothing", ("asked", "called"))
def logs_in_to_us(world, mode, role):
    first, second = world.message(mode, text=HIGH + b"\r\n"), world.message(mode)
    right, wrong = world.node(first), world.node(second)
    right.admit("F0FBB", PASSWORD)
    wrong.admit("F0FBB", PASSWORD.lower())
    done(world.session(mode, role, right))
    states_of(right, [first], FORWARDED)
    ended, link = world.session(mode, role, wrong, options=("--delay", "1"))
    expect("exit code", ended.code, NOT_ADMITTED)
    expect("what it heard", link.heard["us"], b"Callsign : Password : ")
    states_of(wrong, [second], WAITING)
    at_linfbb(world, mode, [first])


@case("we log in to it by callsign and password; with another password nothing goes", ("asked", "caller"))
def we_log_in(world, mode, role):
    message = world.message(mode, text=HIGH + b"\r\n")
    node = world.node(message)
    with world.box(mode).asking(b"GOODWORD"):
        ended, link = world.session(mode, role, node, options=("--password", world.secret("WRONG"), "--sid-limit", "3"))
        expect("exit code", ended.code, LINK_DROPPED)
        states_of(node, [message], WAITING)
        ended, link = done(world.session(mode, role, node, options=("--password", world.secret("GOODWORD"), "--transcript")))
    expect("what it said to that", b"Logon Ok" in link.heard["peer"], True)
    expect("the password in the transcript", "GOODWORD" in ended.said, False)
    states_of(node, [message], FORWARDED)
    at_linfbb(world, mode, [message])
