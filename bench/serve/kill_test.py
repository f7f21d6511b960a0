#!/usr/bin/env python3
"""Kills a house with SIGKILL while twelve bidders report to its clocks, starts it again, and so on; at last each report that was answered Taken or
Again has to be in its clock's journal just once, and no report may be there that nobody sent.

    kill_test.py PROGRAM [--kills N] [--clocks N] [--faults]

PROGRAM is the built house_main. The bidders report to the first so many of the thirteen clocks. With --faults one call on a file fails in each life of
the house, after the opening; gcc has to be there. It ends with status 1 where a report was lost or doubled, or none came.
"""
import argparse
import multiprocessing
import os
import random
import subprocess
import sys
import tempfile
import time
from pathlib import Path

from load import AGAIN, BIDDERS, DISK_FAILED, REFUSED, TAKEN, Session, entries, journal, token_of, write_auction

PORT = 27_321
SHIM = Path(__file__).resolve().parent.parent / "hostile" / "failing_calls.c"

# The calls on files of which one fails: opening takes fewer than the least.
FAILING = (300, 3_000)


def build_shim(folder):
    subprocess.run(["gcc", "-shared", "-fPIC", "-O2", "-o", folder / "failing_calls.so", SHIM, "-ldl"], check=True)


def with_fault(folder):
    """What lets one call on a file fail."""
    (folder / "count").write_bytes(bytes(8))
    shim, number = folder / "failing_calls.so", random.randint(*FAILING)
    return {"LD_PRELOAD": str(shim), "FAILING_KIND": "files", "FAILING_NUMBER": str(number), "FAILING_COUNT": str(folder / "count")}


def start(program, folder, faults=False):
    words = [program, "serve", "auction.toml", "journals", f"127.0.0.1:{PORT}", "--doors", str(BIDDERS), "--sessions", "10000"]
    more = with_fault(folder) if faults else {}
    return subprocess.Popen(words, cwd=folder, stdout=subprocess.DEVNULL, env={**os.environ, **more})


def await_doors(house):
    """Waits until the house listens or has ended: one that is killed before has taken no report."""
    port = f":{PORT:04X} "
    while house.poll() is None:
        if any(port in line and line.split()[3] == "0A" for line in Path("/proc/net/tcp").read_text().splitlines()[1:]):
            return
        time.sleep(0.001)


def bid(bidder, folder, most, stop):
    """Reports round by round to each clock but its own, and notes what it sends and what is acknowledged."""
    sent = open(folder / f"sent-{bidder}", "a")
    taken = open(folder / f"taken-{bidder}", "a")
    refused = open(folder / f"refused-{bidder}", "a")
    clocks = [clock for clock in range(most) if clock != bidder]
    while not stop.is_set():
        try:
            session = Session(PORT, bidder, wait=5.0)
            while not stop.is_set():
                for clock in clocks:
                    number = session.round_of(clock)
                    print(clock, number, file=sent, flush=True)
                    kind, answer = session.report(clock, number)
                    if kind in (TAKEN, AGAIN):
                        print(clock, number, file=taken, flush=True)
                    else:
                        assert kind == REFUSED and answer[0] == DISK_FAILED, (kind, answer)
                        print(clock, number, file=refused, flush=True)
        except (ConnectionError, OSError):
            continue


def noted(path):
    return [tuple(map(int, line.split())) for line in path.read_text().splitlines()]


def judge(folder):
    lost = doubled = unsent = total = 0
    for clock in range(BIDDERS + 1):
        found = entries(journal(folder / "journals", clock))
        total += len(found)
        doubled += len(found) - len(set(found))
        for bidder in range(1, BIDDERS + 1):
            rounds = {number for who, number in found if who == bidder}
            lost += len({number for c, number in noted(folder / f"taken-{bidder}") if c == clock} - rounds)
            unsent += len(rounds - {number for c, number in noted(folder / f"sent-{bidder}") if c == clock})
    failed = sum(len(noted(folder / f"refused-{bidder}")) for bidder in range(1, BIDDERS + 1))
    print(f"reports {total} lost {lost} doubled {doubled} unsent {unsent}, answered by a fault of the disk {failed}")
    return total > 0 and lost + doubled + unsent == 0


def main():
    words = argparse.ArgumentParser()
    words.add_argument("program")
    words.add_argument("--kills", type=int, default=300)
    words.add_argument("--clocks", type=int, default=BIDDERS + 1)
    words.add_argument("--faults", action="store_true")
    given = words.parse_args()
    program = str(Path(given.program).resolve())
    with tempfile.TemporaryDirectory() as name:
        folder = Path(name)
        (folder / "journals").mkdir()
        write_auction(folder / "auction.toml")
        if given.faults:
            build_shim(folder)
        stop = multiprocessing.Event()
        bidders = [multiprocessing.Process(target=bid, args=(b, folder, given.clocks, stop)) for b in range(1, BIDDERS + 1)]
        for process in bidders:
            process.start()
        for _ in range(given.kills):
            house = start(program, folder, given.faults)
            await_doors(house)
            time.sleep(random.uniform(0.05, 0.4))
            assert house.poll() is None, "the house ended by itself"
            house.kill()
            house.wait()
        stop.set()
        house = start(program, folder)
        for process in bidders:
            process.join(20)
            process.kill()
        house.kill()
        house.wait()
        print(f"kills {given.kills}")
        sys.exit(0 if judge(folder) else 1)


if __name__ == "__main__":
    main()
