#!/usr/bin/env python3
"""Kills the appending program at random points, and scans its journal: each acknowledged record is there once, in order."""
import pathlib
import random
import subprocess
import sys
import time

import program

RUNS, SIZE = 200, 48


def one_run(path, seed):
    path.unlink(missing_ok=True)
    words = [str(program.find()), "acknowledge", str(path), "1000000", str(SIZE)]
    child = subprocess.Popen(words, stdout=subprocess.PIPE, text=True)
    time.sleep(random.Random(seed).uniform(0.0, 0.25))
    child.kill()
    told = [int(line) for line in child.stdout.read().split("\n")[:-1]]
    child.wait()
    found = [int(line) for line in program.run("list", path).split()]
    assert told == list(range(len(told))), (seed, told[-3:])
    assert found == list(range(len(found))), (seed, found[-3:])
    assert len(told) <= len(found) <= len(told) + 1, (seed, len(told), len(found))
    return len(told), len(found)


def main():
    folder = pathlib.Path(sys.argv[1] if len(sys.argv) > 1 else "/tmp")
    path = folder / "killed.journal"
    runs = [one_run(path, seed) for seed in range(RUNS)]
    path.unlink(missing_ok=True)
    more = sum(found > told for told, found in runs)
    print(f"{RUNS} runs killed, {sum(told for told, _ in runs)} records acknowledged, all there once and in order; "
          f"one more record there in {more} runs; {sum(told == 0 for told, _ in runs)} runs killed before the first")


main()
