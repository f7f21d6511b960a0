#!/usr/bin/env python3
"""Measures `fold` on five legal logs beside the same work in plain Rust (reference.rs), in processor time, and its peak memory.

The program is proved and built where it stands, by `rt run`; give --no-build to measure the program that was built before. The
reference is built by rustc. Of each the least of five runs is taken, in turns, so that both meet the same machine.
"""
import subprocess
import sys
import tempfile
from pathlib import Path

BIDDERS = 12
CEILING = 10_000
MEGABYTE = 1_000_000
HERE = Path(__file__).resolve().parent
CRATE = HERE.parents[1] / "crates" / "house_main"
PROGRAM = CRATE / "out" / "house_main"


def entry(bidder, round_number, bundles):
    """An entry of a log: its length, then the report."""
    goods = len(bundles[0])
    report = bytes([bidder]) + round_number.to_bytes(4, "big") + bytes([goods])
    report += len(bundles).to_bytes(2, "big")
    report += b"".join(quantity.to_bytes(2, "big") for bundle in bundles for quantity in bundle)
    return len(report).to_bytes(4, "big") + report


def rounds(size, supply, demands):
    """Full rounds of a clock that goes on: in each one every bidder reports its demand of that round, until the log is full."""
    log = bytearray()
    round_number = 0
    while round_number < CEILING * len(supply):
        round_number += 1
        reports = [entry(bidder, round_number, demand) for bidder, demand in enumerate(demands(round_number), 1)]
        if len(log) + sum(map(len, reports)) > size:
            break
        for report in reports:
            log += report
    return bytes(log)


def box(supply):
    """All bundles within the supply, ascending."""
    bundles = [[]]
    for units in supply:
        bundles = [bundle + [quantity] for bundle in bundles for quantity in range(units + 1)]
    return bundles


def good_of(round_number):
    """The good whose price rises: good 0 up to the ceiling, then good 1, and so on."""
    return (round_number - 1) // CEILING


def having_all(supply, most):
    """For each good the first bundles that have all of its units."""
    return [[bundle for bundle in box(supply) if bundle[good] == supply[good]][:most] for good in range(len(supply))]


def logs():
    """The logs by name: their supply, and their bytes."""
    six = [1] * 6
    one = having_all(six, 1)
    seven = having_all(six, 7)
    yield "small, 6 goods, 1 bundle", six, rounds(17 * MEGABYTE, six, lambda r: [one[good_of(r)]] * BIDDERS)
    yield "many, 6 goods, 7 bundles", six, rounds(67 * MEGABYTE, six, lambda r: [seven[good_of(r)]] * BIDDERS)
    three = [9, 9, 9]
    mid = having_all(three, 28)
    yield "mid, 3 goods, 28 bundles", three, rounds(65 * MEGABYTE, three, lambda r: [mid[good_of(r)]] * BIDDERS)
    wide = [3, 3, 3, 3, 3, 1]
    wanted = [bundle for bundle in box(wide) if bundle[0] >= 1]
    big = wanted[: 1_500]
    yield "big, 6 goods, 1,500 bundles", wide, rounds(67 * MEGABYTE, wide, lambda r: [big] * BIDDERS)
    whole = box([2047])
    demands = [whole[2047:], whole[1:]] + [whole] * (BIDDERS - 2)
    yield "long, 1 good, 2,000 bundles", [2047], rounds(67 * MEGABYTE, [2047], lambda r: demands)


def run(program, folder, supply):
    """The text, the processor seconds and the peak memory in MiB of one run."""
    words = [str(program), "fold"] if program == PROGRAM else [str(program)]
    words += [",".join(map(str, supply)), str(BIDDERS), str(CEILING), "log"]
    timed = ["/usr/bin/time", "-f", "%U %S %M", "-o", "figures", *words]
    done = subprocess.run(timed, cwd=folder, capture_output=True, text=True, check=False)
    user, system, kilobytes = (folder / "figures").read_text().split()[-3:]
    return done.stdout.strip(), float(user) + float(system), int(kilobytes) / 1024


def main():
    if "--no-build" not in sys.argv:
        build = ["rt", "run", "--", "fold", "1", "2", "5", "data/two-bidders.log"]
        subprocess.run(build, cwd=CRATE, check=True, capture_output=True)
    with tempfile.TemporaryDirectory() as name:
        folder = Path(name)
        reference = folder / "reference"
        plain = ["rustc", "-O", "--edition", "2021", "-o", str(reference), str(HERE / "reference.rs")]
        subprocess.run(plain, check=True)
        print(f"{'log':30} {'MB':>4} {'fold MB/s':>10} {'plain MB/s':>10} {'times':>6} {'MiB':>6} {'plain MiB':>9}")
        for title, supply, log in logs():
            (folder / "log").write_bytes(log)
            best = {PROGRAM: (1e9, 0), reference: (1e9, 0)}
            texts = set()
            for _ in range(5):
                for program in best:
                    text, seconds, memory = run(program, folder, supply)
                    texts.add(text)
                    best[program] = min(best[program], (seconds, memory))
            size = len(log) / MEGABYTE
            ours, plain_one = best[PROGRAM], best[reference]
            print(
                f"{title:30} {size:4.0f} {size / ours[0]:10.0f} {size / plain_one[0]:10.0f} {ours[0] / plain_one[0]:6.1f}"
                f" {ours[1]:6.0f} {plain_one[1]:9.0f}  {texts.pop() if len(texts) == 1 else 'TEXTS DIFFER'}"
            )


if __name__ == "__main__":
    main()
