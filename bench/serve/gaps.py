#!/usr/bin/env python3
"""Where the time of a report goes, on one clock: what its syncs take, one or two, and what passes from the last sync of a report to the first
of the next.

    gaps.py PROGRAM.. [--doors N] [--runs N] [--seconds N]

Twelve bidders (load.rs) report to one clock of a real house of 13 doors, or so many, in turns of the programs. Where there are fewer doors
than bidders, each comes for one report a session. The house runs over syncs.c, which notes when
each fdatasync begins and ends; cc and rustc have to be there. Printed are the reports a second, as the bidders count them, and of how many in
100 one sync was all; the microseconds of a report from its first sync to its last and from there to the next report's first sync, in the middle
and on the average; and the pairs that one thread alone makes, in a file that grows by them and in one that has their bytes, before the house and
after it. Of the averages those above a millisecond are left out, and told apart: they are spells in which the machine or its disk stood still.
Each figure is the middle of the runs. Below it stands for each run what share of the pairs the house had, and how many milliseconds the machine
under this one took from its processors while the house ran, as /proc/stat tells it.
"""
import argparse
import os
import shutil
import statistics
import struct
import subprocess
import tempfile
from pathlib import Path

from load import BIDDERS, write_auction
from run import AHEAD, HERE, PORT, build, house_words, pairs, stolen

NOTE = struct.Struct("=QQII")
STOOD_STILL = 1_000


def notes_of(path):
    """The syncs of the file that is synced most, in order: begin and end in nanoseconds, and thread."""
    data = path.read_bytes()
    count = struct.unpack_from("=Q", data)[0]
    notes = sorted(NOTE.unpack_from(data, 8 + NOTE.size * place) for place in range(count))
    journal = statistics.mode(file for _, _, _, file in notes)
    return [(begin, end, thread) for begin, end, thread, file in notes if file == journal]


def reports_of(notes):
    """Begin and end of the syncs of each report, and how many there are: one thread makes two, one after the other, or one."""
    reports, place = [], 0
    while place < len(notes):
        begin, end, thread = notes[place]
        count = 1
        if place + 1 < len(notes) and notes[place + 1][2] == thread:
            end, count = notes[place + 1][1], 2
        reports.append((begin, end, count))
        place += count
    return reports[1:]


def shape(micros):
    """The middle, the average of what is below a millisecond, and how many are above."""
    short = [value for value in micros if value < STOOD_STILL]
    return statistics.median(short), statistics.mean(short), len(micros) - len(short)


def measure(program, bidder, syncs, folder, doors, seconds):
    shutil.rmtree(folder, ignore_errors=True)
    (folder / "journals").mkdir(parents=True)
    write_auction(folder / "auction.toml")
    alone, over = pairs(folder, 1, 1), pairs(folder, 1, 1, AHEAD)
    noted = {**os.environ, "LD_PRELOAD": str(syncs), "SYNCS": str(folder / "notes")}
    taken = stolen()
    house = subprocess.Popen(house_words(program, doors), cwd=folder, stdout=subprocess.DEVNULL, env=noted)
    bidders = [
        subprocess.Popen([bidder, str(PORT), str(number), "1", str(seconds), str(int(doors > BIDDERS)), "0"], stdout=subprocess.PIPE, text=True)
        for number in range(1, BIDDERS + 1)
    ]
    rate = sum(int(process.communicate()[0].split()[0]) for process in bidders) / seconds
    taken = stolen() - taken
    house.kill()
    house.wait()
    reports = reports_of(notes_of(folder / "notes"))
    own = [(end - begin) / 1_000 for begin, end, _ in reports]
    gaps = [(after - end) / 1_000 for (_, end, _), (after, _, _) in zip(reports, reports[1:])]
    ones = 100 * sum(count == 1 for _, _, count in reports) / len(reports)
    alone, over = (alone + pairs(folder, 1, 1)) / 2, (over + pairs(folder, 1, 1, AHEAD)) / 2
    return rate, ones, *shape(own), *shape(gaps), alone, over, taken


def main():
    words = argparse.ArgumentParser()
    words.add_argument("programs", nargs="+")
    words.add_argument("--doors", type=int, default=13)
    words.add_argument("--runs", type=int, default=5)
    words.add_argument("--seconds", type=int, default=2)
    given = words.parse_args()
    folder, found = HERE / "scratch", {program: [] for program in given.programs}
    with tempfile.TemporaryDirectory() as name:
        bidder, syncs = build(Path(name), "load"), Path(name) / "syncs.so"
        subprocess.run(["cc", "-O2", "-shared", "-fPIC", "-o", str(syncs), str(HERE / "syncs.c"), "-ldl"], check=True)
        for _ in range(given.runs):
            for program in given.programs:
                found[program].append(measure(str(Path(program).resolve()), bidder, syncs, folder, given.doors, given.seconds))
    print("reports/s, of 100 with one sync | its syncs us: middle average still | to the next us: middle average still | pairs alone/s, over zeros/s")
    for program, rows in found.items():
        rate, ones, *parts, alone, over, _ = (statistics.median(column) for column in zip(*rows))
        print(f"{rate:9.0f} {ones:3.0f} | {parts[0]:5.0f} {parts[1]:7.0f} {parts[2]:5.0f} | {parts[3]:5.0f} {parts[4]:7.0f} {parts[5]:5.0f} | {alone:7.0f} {over:7.0f}  {program}")
        shares = sorted((row[0] / row[-3], row[-1]) for row in rows)
        print(f"          of the pairs, and ms taken, run by run: {', '.join(f'{share:.2f} {taken}' for share, taken in shares)}")
    shutil.rmtree(folder, ignore_errors=True)


if __name__ == "__main__":
    main()
