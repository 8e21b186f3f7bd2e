"""Our node with a real LinFBB mailbox on loopback: runs the cases. See tests/interop/run."""
import argparse
import os
import shutil
import signal
import sys
import tempfile
import threading
import time
import traceback

sys.dont_write_bytecode = True
sys.path.insert(0, os.path.join(os.path.dirname(os.path.abspath(__file__)), "../peers"))

import cases  # noqa: E402
from world import Failed, World  # noqa: E402


def chosen(options):
    all_cases = cases.SHORT + (cases.LONG if options.long else [])
    return [one for one in all_cases if all(word in one[0] for word in options.only or [])]


def run(world, name, function, arguments):
    start = time.monotonic()
    try:
        function(world, *arguments)
    except Failed as failed:
        print(f"interop: {name}: FAILED\n  {failed}", flush=True)
        return False
    except Exception:
        print(f"interop: {name}: FAILED\n{traceback.format_exc()}{world.logs()}", flush=True)
        return False
    print(f"interop: {name}: ok ({time.monotonic() - start:.1f} s)", flush=True)
    return True


def run_group(world, group, results):
    try:
        for one in group:
            results.append(run(world, *one))
    finally:
        world.stop()


def stop_at_signals(worlds, folder):
    """Whoever ends the run early leaves no mailbox behind."""
    def stop(number, _):
        for world in worlds:
            world.stop()
        shutil.rmtree(folder, ignore_errors=True)
        os._exit(128 + number)
    for number in (signal.SIGINT, signal.SIGTERM, signal.SIGHUP):
        signal.signal(number, stop)


def run_all(host, folder, selected):
    """Each mailbox has a thread of its own: a session mostly waits for LinFBB."""
    groups, results = {}, []
    for one in selected:
        groups.setdefault(one[2][0], []).append(one)
    worlds = {mailbox: World(host, os.path.join(folder, mailbox)) for mailbox in groups}
    stop_at_signals(worlds.values(), folder)
    threads = [threading.Thread(target=run_group, args=(worlds[mailbox], group, results)) for mailbox, group in groups.items()]
    for thread in threads:
        thread.start()
    for thread in threads:
        thread.join()
    return results


def main():
    words = argparse.ArgumentParser(description=__doc__)
    words.add_argument("--host", required=True, help="the host program")
    words.add_argument("--long", action="store_true", help="the longer set too")
    words.add_argument("--only", action="append", help="cases with this in their name")
    words.add_argument("--skip", metavar="REASON", help="name each case as skipped")
    options = words.parse_args()
    selected = chosen(options)
    if options.skip:
        for name, _, _ in selected:
            print(f"interop: {name}: skipped")
        print(f"interop: skipped: {options.skip}")
        return 0
    start = time.monotonic()
    with tempfile.TemporaryDirectory(prefix="interop.") as folder:
        results = run_all(os.path.abspath(options.host), folder, selected)
    print(f"interop: {time.monotonic() - start:.0f} s")
    print(f"interop: {len(results)} cases, {len(selected) - results.count(True)} failed")
    return 0 if selected and results.count(True) == len(selected) else 1


sys.exit(main())
