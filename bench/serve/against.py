#!/usr/bin/env python3
"""Durable reports a second of two programs in turns, before the same twelve bidders: `against.py PROGRAM OLD [TURNS]`.

Each row is one of run.py: 1, 4 and 13 active clocks on 4, 13 and 64 doors, without pauses. In each turn (5 where it is left out) each program
serves for a second, the one that goes first in turn. Printed are the middles of the turns, what share of the old program's reports the new one
had, by those middles and as the middle of the shares turn by turn, and the middle of what the machine under this one took, in ms.
"""
import shutil
import statistics
import sys
import tempfile
from pathlib import Path

from run import HERE, build, house_words, serve, stolen


def main():
    new, old = (str(Path(word).resolve()) for word in sys.argv[1:3])
    turns = int(sys.argv[3]) if len(sys.argv) > 3 else 5
    folder = HERE / "scratch"
    folder.mkdir(exist_ok=True)
    rows = {(active, doors): [] for active in (1, 4, 13) for doors in (4, 13, 64)}
    with tempfile.TemporaryDirectory() as name:
        bidder = build(Path(name), "load")
        for turn in range(turns):
            for (active, doors), found in rows.items():
                taken, reports = stolen(), {}
                for program in (new, old) if turn % 2 else (old, new):
                    reports[program] = serve(house_words(program, doors), bidder, folder, active, doors, 0)[0]
                found.append((reports[new], reports[old], reports[new] / reports[old], stolen() - taken))
    shutil.rmtree(folder, ignore_errors=True)
    print("clocks doors  new/s  old/s  of middles  middle of shares (least most)  taken ms")
    for (active, doors), found in rows.items():
        now, before, share, taken = (statistics.median(column) for column in zip(*found))
        shares = [row[2] for row in found]
        print(f"{active:6} {doors:5} {now:6.0f} {before:6.0f} {now / before:11.3f} {share:17.3f} ({min(shares):.2f} {max(shares):.2f}) {taken:9.0f}")


if __name__ == "__main__":
    main()
