#!/usr/bin/env python3
"""Tries on real files and sockets what no proof reaches: two houses on one folder, where a house listens, looks beside a house and at
copies of its folder, a sync that fails, and reading without rights.

    edge_test.py PROGRAM [--looks N]

PROGRAM is the built house_main. gcc has to be there, and reading without rights is tried by root alone. It prints a line for each, and ends with
status 1 where one is not as it should be.
"""
import argparse
import multiprocessing
import os
import shutil
import socket
import struct
import subprocess
import sys
import tempfile
import time
from pathlib import Path

from load import AGAIN, BIDDERS, DISK_FAILED, REFUSED, REPORT, TAKEN, Session, entries, journal, write_auction

PORT = 27_341
UNITS = 2_000
NOBODY = 65_534
DISK_FAULT, NET_FAULT = 6, 7
# How many seconds a house may take to open, or to end by itself.
PATIENCE = 60.0
SHIM = Path(__file__).resolve().parent / "dropped_pages.c"

# How many bundles a report of some bytes has, and one of 3 KB.
SHORT, LONG = 1, 1_500

# So many looks at one house, or copies of its folder: each reads its journals whole, and they grow.
SPELL = 50


def payload(number, bundles):
    """A report of so many bundles, of which the last is all units; each keeps a clock running."""
    return struct.pack(f">IBH{bundles}H", number, 1, bundles, *range(UNITS - bundles + 1, UNITS + 1))


def report(session, clock, number, bundles):
    return session.ask(REPORT, bytes([clock]) + payload(number, bundles))


def folder_with_auction(name):
    folder = Path(name)
    folder.chmod(0o755)
    (folder / "journals").mkdir()
    write_auction(folder / "auction.toml", (UNITS,))
    return folder


def serve(program, folder, port=PORT, **more):
    words = [program, "serve", "auction.toml", "journals", f"127.0.0.1:{port}", "--doors", str(BIDDERS), "--sessions", "10000"]
    env = {**os.environ, **more}
    return subprocess.Popen(words, cwd=folder, stdout=subprocess.PIPE, stderr=subprocess.PIPE, text=True, env=env)


def read(program, folder, command, journals="journals", **more):
    return subprocess.run([program, command, "auction.toml", journals], cwd=folder, capture_output=True, text=True, **more)


def end(house):
    house.kill()
    house.communicate()


def two_houses(program, folder):
    """The second of two houses ends at once, and the first goes on; once it was killed the next one starts."""
    first = serve(program, folder)
    session = Session(PORT, 1, wait=PATIENCE)
    kinds = [report(session, 0, 1, SHORT)[0]]
    before = journal(folder / "journals", 0).read_bytes()
    second = serve(program, folder, PORT + 1)
    text, said = second.communicate(timeout=PATIENCE)
    same = journal(folder / "journals", 0).read_bytes() == before
    kinds.append(report(session, 2, 1, SHORT)[0])
    end(first)
    next_one = serve(program, folder)
    session = Session(PORT, 1, wait=PATIENCE)
    kinds.append(report(session, 0, 1, SHORT)[0])
    end(next_one)
    print(f"two houses: the second {second.returncode} {text.strip()!r} {said.strip()!r}, answers of the first and the next {kinds}, journal the same {same}")
    return second.returncode == DISK_FAULT and text == "disk fault clock 0\n" and same and kinds == [TAKEN, TAKEN, AGAIN]


def is_reached(host):
    try:
        socket.create_connection((host, PORT), 1).close()
        return True
    except OSError:
        return False


def addresses(program, folder, other):
    """A house is reached where it was told to listen and nowhere else, and says that it is open; a second one there ends, and says why."""
    first = serve(program, folder)
    Session(PORT, 1, wait=PATIENCE)
    elsewhere = is_reached("127.0.0.2")
    second = serve(program, other)
    text, why = second.communicate(timeout=PATIENCE)
    first.kill()
    _, said = first.communicate()
    print(f"addresses: reached elsewhere {elsewhere}, the first said {said.strip()!r}, the second {second.returncode} {text.strip()!r} {why.strip()!r}")
    is_open = said.startswith(f"127.0.0.1:{PORT}: doors are open\n")
    return not elsewhere and is_open and second.returncode == NET_FAULT and why.startswith(f"127.0.0.1:{PORT}: bind: ")


def bid(bidder, stop):
    clocks = [clock for clock in range(BIDDERS + 1) if clock != bidder]
    session = Session(PORT, bidder, wait=PATIENCE)
    while not stop.is_set():
        for clock in clocks:
            report(session, clock, session.round_of(clock), LONG)


def spell(program, folder, of_copies):
    """How many looks beside a house, or at copies of its folder, tell no standing, and how often one goes back behind an earlier one; and the
    last round that was seen."""
    house = serve(program, folder)
    stop = multiprocessing.Event()
    bidders = [multiprocessing.Process(target=bid, args=(b, stop)) for b in range(1, BIDDERS + 1)]
    for process in bidders:
        process.start()
    rounds, refused, back = [0] * (BIDDERS + 1), 0, 0
    for _ in range(SPELL):
        if of_copies:
            subprocess.run(["cp", "-r", "journals", "copy"], cwd=folder, check=True)
        answer = read(program, folder, "standing", "copy" if of_copies else "journals")
        shutil.rmtree(folder / "copy", ignore_errors=True)
        lines = [line.split() for line in answer.stdout.splitlines()]
        if answer.returncode or len(lines) != BIDDERS + 1:
            print(answer.returncode, answer.stdout.strip(), answer.stderr.strip())
            refused += 1
            continue
        for line in lines:
            clock, number = int(line[1]), int(line[3])
            back += number < rounds[clock]
            rounds[clock] = max(rounds[clock], number)
    stop.set()
    for process in bidders:
        process.join(5)
        process.kill()
    end(house)
    return refused, back, max(rounds)


def looks(program, fresh, count, of_copies):
    """Each standing beside a house under twelve bidders, or of a copy of its folder, is one of some front, and none goes back."""
    what = "copies" if of_copies else "looks"
    spells = [spell(program, fresh(f"{what}-{number}"), of_copies) for number in range(-(-count // SPELL))]
    refused, back = sum(s[0] for s in spells), sum(s[1] for s in spells)
    least, most = min(s[2] for s in spells), max(s[2] for s in spells)
    print(f"{what} {len(spells) * SPELL}: refused {refused}, gone back {back}, last rounds {least} to {most}")
    return refused == back == 0 and least > 1


def failed_sync(program, folder, shim, bundles, before, goes_on):
    """A sync of a journal fails once, the house goes on, or is killed after the report's acknowledgement, and the file system is mounted anew: each
    acknowledged report is on the disk."""
    when = folder / "when"
    house = serve(program, folder, LD_PRELOAD=str(shim), DROP_WHEN=str(when))
    sessions = {bidder: Session(PORT, bidder, wait=PATIENCE) for bidder in range(1, BIDDERS + 1)}
    acknowledged, faults, number = [], 0, 1

    def send(bidder):
        kind, answer = report(sessions[bidder], 0, number, bundles)
        if kind in (TAKEN, AGAIN):
            acknowledged.append((bidder, number))
            return True
        assert kind == REFUSED and answer[0] == DISK_FAILED, (kind, answer)
        return False

    turns = [(number, bidder) for number in (1, 2, 3, 4) for bidder in range(1, BIDDERS + 1)]
    failing = turns.index((3, 6))
    for place, (number, bidder) in enumerate(turns if goes_on else turns[: failing + 1]):
        if place == failing:
            when.write_text(str(before))
        while not send(bidder):
            faults += 1
    house.kill()
    _, said = house.communicate()
    found = entries(journal(folder / "journals", 0).with_suffix(".ahj.disk"))
    lost = len(set(acknowledged) - set(found))
    print(f"a failed sync after {before}, {bundles} bundles, goes on {goes_on}: faults {faults}, said {said.strip()!r}, acknowledged {len(acknowledged)}, lost {lost}, doubled {len(found) - len(set(found))}")
    return faults == 1 and lost == 0 and len(found) == len(set(found)) and said.count("sync") == 1


def names(folder):
    return sorted(str(path.relative_to(folder)) for path in folder.rglob("*"))


def without_rights(program, folder):
    """Who may not write reads journals and an empty folder, and leaves no file."""
    house = serve(program, folder)
    session = Session(PORT, 1, wait=PATIENCE)
    report(session, 0, 1, SHORT)
    end(house)
    (folder / "none").mkdir()
    before = names(folder)
    own = [read(program, folder, command, journals).returncode for command in ("standing", "settle") for journals in ("journals", "none")]
    them = [read(program, folder, command, journals, user=NOBODY, group=NOBODY).returncode for command in ("standing", "settle") for journals in ("journals", "none")]
    kept = names(folder) == before
    said = [read(program, folder, "standing", journals).stderr.strip() for journals in ("journals", "none")]
    print(f"reading without rights: statuses {them}, with rights {own}, the same names {kept}, said {said}")
    return own == them == [0, 0, 9, 9] and kept and said == ["", "no journal was found"]


def main():
    words = argparse.ArgumentParser()
    words.add_argument("program")
    words.add_argument("--looks", type=int, default=1_000)
    given = words.parse_args()
    good = True
    with tempfile.TemporaryDirectory() as name:
        top = Path(name)
        top.chmod(0o755)
        program = str(shutil.copy(given.program, top / "house_main"))
        shim = top / "dropped_pages.so"
        subprocess.run(["gcc", "-shared", "-fPIC", "-O2", "-o", shim, SHIM, "-ldl"], check=True)

        def fresh(label):
            """A new folder with an auction and no journals."""
            (top / label).mkdir()
            return folder_with_auction(top / label)

        good &= two_houses(program, fresh("two"))
        good &= addresses(program, fresh("first"), fresh("second"))
        good &= looks(program, fresh, given.looks, False)
        good &= looks(program, fresh, given.looks // 10, True)
        for bundles in (SHORT, LONG):
            for before in (0, 1):
                for goes_on in (True, False):
                    good &= failed_sync(program, fresh(f"sync-{bundles}-{before}-{goes_on}"), shim, bundles, before, goes_on)
        if os.geteuid() == 0:
            good &= without_rights(program, fresh("rights"))
    sys.exit(0 if good else 1)


if __name__ == "__main__":
    main()
