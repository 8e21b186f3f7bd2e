"""Our node at station A, a real LinFBB at station B (by bridge.py), with real radio between them: we call it, and it calls us. To be run by
`stations`, as `long` does: python3 mailbox.py ROOT"""
import pathlib
import sys
import tempfile
import time

ROOT = pathlib.Path(sys.argv[1]).resolve()
sys.dont_write_bytecode = True
sys.path[:0] = [str(pathlib.Path(__file__).parent), str(ROOT / "tests" / "interop"), str(ROOT / "tests" / "peers")]

from bridge import Bridge  # noqa: E402
from cases import inbox_is  # noqa: E402
from node import DONE, FORWARDED  # noqa: E402
from relay import Relay  # noqa: E402
from linfbb import free_port  # noqa: E402
from world import World, expect  # noqa: E402
import node as nodes  # noqa: E402

nodes.PATIENCE = 300  # seconds; LinFBB answers at once, the air doesn't
PROGRAM = str(ROOT / "target" / "radio" / "fringemole")
US, THEM = "N0DE-1", "N0BBB-1"
BLANKS = "--blank-offset"  # LinFBB pads the offset of a framed header, which 01 refuses


def both_ways(world, name, session):
    """Mail of ours goes out and mail of LinFBB's comes in, in one session."""
    ours = world.message("level1", title="Grüße".encode("latin-1"), text=bytes(range(0x20, 0x7F)) + b"\r\n")
    theirs = [world.message("level1", title=b"From LinFBB", text=b"A text by radio\r", at=b"N0DE", to=b"F0CCC")]
    box = world.box("level1")
    with box.holding(*theirs):
        node, began = world.node(ours), time.monotonic()
        expect("the session's end", session(node, box).code, DONE)
        took = time.monotonic() - began
        expect("states", node.states(), {ours.bid: FORWARDED})
        inbox_is(node, "level1", False, theirs)
    expect("at LinFBB", world.fetch("level1").get(ours.bid.upper()), [(ours.title, ours.text)])
    print("radio: LinFBB, %s: mail both ways, each once, byte for byte: %.0f s" % (name, took), flush=True)


def we_call(node, box):
    bridge = Bridge(8200, THEM)
    bridge.beside(bridge.answer, Relay(True, box.port).port)
    return nodes.wait_for(node.start("agw", "8100", US, THEM, "--login", ".N0DE", BLANKS))


def it_calls(node, box):
    node.run("admit", "N0BBB")
    bridge = Bridge(8200, THEM)
    process = node.start("agw", "8100", US, "--listen", "--once", "--telnet", BLANKS)
    process.stderr.readline()
    port = free_port()
    bridge.beside(bridge.dial, US, port)
    Relay(False, port, box.call_port)
    box.call_us()
    return nodes.wait_for(process)


with tempfile.TemporaryDirectory(prefix="radio.") as folder:
    world = World(PROGRAM, folder + "/world")
    try:
        both_ways(world, "we call", we_call)
        both_ways(world, "it calls", it_calls)
    finally:
        world.stop()
