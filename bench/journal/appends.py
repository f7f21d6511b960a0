#!/usr/bin/env python3
"""Appends per second, alone and each laid with the one before, beside bare pairs of pwrite and fdatasync and SQLite's durable insert, on one disk in one run."""
import pathlib
import sqlite3
import sys
import time

import program

COUNT, SIZE, ROUNDS = 2_000, 32, 5


def sqlite_seconds(path):
    path.unlink(missing_ok=True)
    base = sqlite3.connect(path, isolation_level=None)
    base.execute("pragma journal_mode = wal")
    base.execute("pragma synchronous = full")
    base.execute("create table records (number integer primary key, payload blob)")
    start = time.perf_counter()
    for number in range(COUNT):
        base.execute("insert into records values (?, ?)", (number, bytes(SIZE)))
    seconds = time.perf_counter() - start
    base.close()
    return seconds


def main():
    folder = pathlib.Path(sys.argv[1] if len(sys.argv) > 1 else "/tmp")
    rates = {"journal": [], "journal, laid": [], "bare pairs": [], "sqlite": []}
    for turn in range(ROUNDS):
        journal, laid, pairs, base = (folder / f"bench-{turn}.{kind}" for kind in ("journal", "laid", "pairs", "sqlite"))
        for path in (journal, laid, pairs):
            path.unlink(missing_ok=True)
        rates["journal"].append(COUNT * 1e6 / program.microseconds(program.run("append", journal, COUNT, SIZE)))
        rates["journal, laid"].append(COUNT * 1e6 / program.microseconds(program.run("append_laid", laid, COUNT, SIZE)))
        rates["bare pairs"].append(COUNT * 1e6 / program.microseconds(program.run("pairs", pairs, COUNT, SIZE)))
        rates["sqlite"].append(COUNT / sqlite_seconds(base))
        for path in folder.glob(f"bench-{turn}.*"):
            path.unlink()
    middle = {kind: sorted(found)[ROUNDS // 2] for kind, found in rates.items()}
    for kind, rate in middle.items():
        print(f"{kind}: {rate:.0f} a second, {rate / middle['bare pairs']:.2f} of the bare pairs (all: {', '.join(f'{r:.0f}' for r in rates[kind])})")


main()
