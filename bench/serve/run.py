#!/usr/bin/env python3
"""Reports a second, and the time of a look, of a real house over loopback: twelve bidders, each in a process of its own (load.rs, built by rustc).

    run.py PROGRAM [TURNS [PAUSE]]

PROGRAM is the built house_main. For 1, 4 and 13 active clocks and 4, 13 and 64 doors, each bidder reports round by round to the active
clocks but its own and looks between, in each turn of the clocks once, with a pause of PAUSE microseconds (none where it is left out)
between two turns; on 4 doors it comes for one report a session. The journals lie in a folder beside this file, so that they are on the disk
of the repository. Beside them are measured: bare pairs, the two writes of a report, each with its fdatasync, by as many threads as there are
active clocks, in a file that grows by them and in one that has their bytes; what SQLite commits, one report a transaction into one table,
with a write-ahead log and full synchronisation, without any network; and a plain server that keeps its reports so (plain.rs), before the
same bidders, where its library is there to build it.

A machine has spells, above all one that is shared, and its disk. So all rows are measured in turns, TURNS times (7 where it is left out), and in
each turn each server and measure runs for a second: pairs, the house, pairs, and then the others. Printed are the middles of the turns, and
what share of the pairs before and after it the house had: the middle, the least and the most. The last column tells a spell: how many
milliseconds the machine under this one took from its processors while the house ran, by /proc/stat.
"""
import os
import shutil
import sqlite3
import statistics
import subprocess
import sys
import threading
import tempfile
import time
from pathlib import Path

from load import BIDDERS, write_auction

# Below the ports that a system gives to who dials: else a bidder who dials before the house listens may be answered by itself.
PORT = 27_322

# How long each is measured in a turn. On few doors each report is a session, and a door of the house serves 10,000 of them at most.
SECOND = 1
HERE = Path(__file__).resolve().parent

# As many zeros as a journal lays ahead at once.
AHEAD = 4_096


def build(folder, name):
    """A program of this folder, by rustc; none where it cannot be built."""
    program = folder / name
    built = subprocess.run(["rustc", "-O", "--edition", "2021", "-o", str(program), str(HERE / f"{name}.rs")], stderr=subprocess.DEVNULL)
    return program if built.returncode == 0 else None


def house_words(program, doors):
    return [program, "serve", "auction.toml", "journals", f"127.0.0.1:{PORT}", "--doors", str(doors), "--sessions", "10000"]


def plain_words(plain, doors):
    return [str(plain), str(PORT), str(doors), str(BIDDERS + 1), "reports.sqlite"]


def serve(words, bidder, folder, active, doors, pause):
    """What twelve bidders are served by the server of these words: reports a second, times of looks in order, and its peak memory."""
    shutil.rmtree(folder, ignore_errors=True)
    (folder / "journals").mkdir(parents=True)
    write_auction(folder / "auction.toml")
    house = subprocess.Popen(words, cwd=folder, stdout=subprocess.DEVNULL)
    words = [str(bidder), str(PORT)]
    stay = str(int(doors > BIDDERS))
    bidders = [
        subprocess.Popen([*words, str(number), str(active), str(SECOND), stay, str(pause)], stdout=subprocess.PIPE, text=True)
        for number in range(1, BIDDERS + 1)
    ]
    told = [process.communicate()[0].splitlines() for process in bidders]
    status = Path(f"/proc/{house.pid}/status").read_text()
    memory = int(status.split("VmHWM:")[1].split()[0]) // 1024
    house.kill()
    house.wait()
    looks = sorted(int(look) for _, some in told for look in some.split())
    return sum(int(reports) for reports, _ in told) / SECOND, looks, memory


def pairs(folder, threads, seconds, ahead=0):
    """Pairs of a write of 15 bytes and a write of one byte, each with its fdatasync, a second. Where `ahead` is above 0 they are put over so many
    zeros, which are written whenever the file ends."""
    counts = [0] * threads

    def work(place):
        file = os.open(folder / f"pairs-{place}", os.O_RDWR | os.O_CREAT | os.O_TRUNC)
        at, laid, end = 0, 0, time.monotonic() + seconds
        while time.monotonic() < end:
            if ahead and at + 16 > laid:
                laid = at + 1 + os.pwrite(file, bytes(ahead), at + 1)
            os.pwrite(file, b"\x00" * 15, at + 1)
            os.fdatasync(file)
            os.pwrite(file, b"\xa5", at)
            os.fdatasync(file)
            at += 15
            counts[place] += 1
        os.close(file)

    workers = [threading.Thread(target=work, args=(place,)) for place in range(threads)]
    for worker in workers:
        worker.start()
    for worker in workers:
        worker.join()
    return sum(counts) / seconds


def commits(folder, seconds):
    """Reports that SQLite commits one by one, a second."""
    base = sqlite3.connect(folder / "reports.sqlite", isolation_level=None)
    base.execute("pragma journal_mode = wal")
    base.execute("pragma synchronous = full")
    base.execute("create table reports (clock integer, bidder integer, round integer, entry blob, primary key (clock, bidder, round))")
    count, end = 0, time.monotonic() + seconds
    while time.monotonic() < end:
        base.execute("insert into reports values (0, 1, ?, ?)", (count, b"0123456789"))
        count += 1
    base.close()
    return count / seconds


def stolen():
    """How many milliseconds the machine under this one has taken from its processors."""
    ticks = int(Path("/proc/stat").read_text().split(maxsplit=9)[8])
    return ticks * 1_000 // os.sysconf("SC_CLK_TCK")


def turn(program, bidder, plain, folder, active, doors, pause):
    """One turn of a row: the house and its share of the pairs, then the others, each a second; the median look and the 99th of 100, memory, and
    what the machine under this one took meanwhile."""
    before = pairs(folder, active, SECOND)
    taken = stolen()
    reports, looks, memory = serve(house_words(program, doors), bidder, folder, active, doors, pause)
    taken = stolen() - taken
    bare = (before + pairs(folder, active, SECOND)) / 2
    over, kept = pairs(folder, active, SECOND, AHEAD), commits(folder, SECOND)
    beside = serve(plain_words(plain, doors), bidder, folder, active, doors, pause)[0] if plain else 0
    return reports, reports / bare, bare, over, kept, beside, statistics.median(looks), looks[len(looks) * 99 // 100], memory, taken


def main():
    program = str(Path(sys.argv[1]).resolve())
    turns = int(sys.argv[2]) if len(sys.argv) > 2 else 7
    pause = int(sys.argv[3]) if len(sys.argv) > 3 else 0
    folder = HERE / "scratch"
    folder.mkdir(exist_ok=True)
    rows = {(active, doors): [] for active in (1, 4, 13) for doors in (4, 13, 64)}
    with tempfile.TemporaryDirectory() as name:
        bidder, plain = build(Path(name), "load"), build(Path(name), "plain")
        for _ in range(turns):
            for (active, doors), found in rows.items():
                found.append(turn(program, bidder, plain, folder, active, doors, pause))
    shutil.rmtree(folder, ignore_errors=True)
    print("clocks doors reports/s of pairs (least most) pairs/s over zeros/s commits/s plain/s look median us look 99% us peak MB taken ms")
    for (active, doors), found in rows.items():
        reports, share, bare, over, kept, beside, median, most, memory, taken = (statistics.median(column) for column in zip(*found))
        shares = [row[1] for row in found]
        print(
            f"{active:6} {doors:5} {reports:9.0f} {share:8.2f} ({min(shares):.2f} {max(shares):.2f}) {bare:7.0f} {over:12.0f} {kept:9.0f} {beside:7.0f}"
            f" {median:14.0f} {most:11.0f} {memory:7.0f} {taken:8.0f}"
        )


if __name__ == "__main__":
    main()
