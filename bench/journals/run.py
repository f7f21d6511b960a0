#!/usr/bin/env python3
"""Measures `settle` over the 13 journals of an auction of twelve bidders, 64 MiB in all, beside a checksum of the same bytes. Then the replay of
as many reports as there can be on clock 0, beside the plain form of the same clock (../fold/reference.rs) over a log of them.

In each round every member reports the same demand, which drives one price up; in the last one the first member wants all there is and the others
nothing, so each clock ends and clears. The program is proved and built where it stands, by `rt run`; give --no-build to measure
the program that was built before. With --judge that program judges one bidder's 720,012 reports, beside `standing` of the same journals.
"""
import hashlib
import struct
import subprocess
import sys
import tempfile
from pathlib import Path

BIDDERS = 12
CEILING = 10_000
TOTAL = 67_108_864
CRATE = Path(__file__).resolve().parents[2] / "crates" / "house_main"
PROGRAM = CRATE / "out" / "house_main"
REFERENCE = Path(__file__).resolve().parents[1] / "fold" / "reference.rs"


def auction(supply):
    """An auction file of version 1."""
    goods = "".join(f'[[goods]]\nname = "good-{good}"\nsupply = {units}\n' for good, units in enumerate(supply))
    bidders = "".join(
        f'[[bidders]]\nname = "bidder-{bidder}"\ntoken = "{hashlib.sha256(bytes([bidder])).hexdigest()}"\n'
        for bidder in range(1, BIDDERS + 1)
    )
    return f"version = 1\nceiling = {CEILING}\n{goods}{bidders}".encode()


def box(supply):
    """All bundles within the supply, ascending."""
    bundles = [[]]
    for units in supply:
        bundles = [bundle + [quantity] for bundle in bundles for quantity in range(units + 1)]
    return bundles


def record(bidder, round_number, bundles):
    """An open gate, the length of an entry, and the entry."""
    quantities = [quantity for bundle in bundles for quantity in bundle]
    entry = struct.pack(f">BIBH{len(quantities)}H", bidder, round_number, len(bundles[0]), len(bundles), *quantities)
    return b"\xa5" + struct.pack(">I", len(entry)) + entry


def journal(clock, digest, supply, most, size):
    """The journal of a clock with so many bytes at most: rounds in which some price rises, and the last one."""
    members = [bidder for bidder in range(1, BIDDERS + 1) if bidder != clock]
    wanted = [[bundle for bundle in box(supply) if bundle[good] == supply[good]][:most] for good in range(len(supply))]
    file = bytearray(b"\xa5AHJ1" + struct.pack(">I", clock) + digest)
    last = 2 * len(record(1, 1, [supply])) * BIDDERS
    round_number = 0
    while round_number < CEILING * len(supply):
        demand = wanted[round_number // CEILING]
        full = [record(bidder, round_number + 1, demand) for bidder in members]
        if len(file) + sum(map(len, full)) + last > size:
            break
        round_number += 1
        file += b"".join(full)
    for bidder in members:
        file += record(bidder, round_number + 1, [supply if bidder == members[0] else [0] * len(supply)])
    return bytes(file) + b"\0"


def used(words, folder):
    """The processor seconds, the peak memory in MiB and the first line of a run."""
    timed = ["/usr/bin/time", "-f", "%U %S %M", "-o", "figures", *words]
    done = subprocess.run(timed, cwd=folder, capture_output=True, text=True, check=False)
    user, system, kilobytes = (folder / "figures").read_text().split()[-3:]
    first = done.stdout.split("\n")[0] if done.returncode == 0 else f"status {done.returncode}: {done.stdout.strip()}"
    return float(user) + float(system), int(kilobytes) / 1024, first


def log_of(file):
    """The entries of a journal as a log has them: each without its gate."""
    log = bytearray()
    place = 9 + 32
    while file[place] == 0xA5:
        end = place + 5 + int.from_bytes(file[place + 1 : place + 5], "big")
        log += file[place + 1 : end]
        place = end
    return bytes(log)


def replay():
    """All rounds of clock 0, where one good after another rises to the ceiling, and one round of each other clock: 720,144 reports."""
    supply = [1] * 6
    with tempfile.TemporaryDirectory() as name:
        folder = Path(name)
        text = auction(supply)
        (folder / "auction.toml").write_bytes(text)
        digest = hashlib.sha256(text).digest()
        for clock in range(BIDDERS + 1):
            file = journal(clock, digest, supply, 1, 0 if clock else TOTAL)
            (folder / f"clock-{clock:02}.ahj").write_bytes(file)
            if clock == 0:
                (folder / "log").write_bytes(log_of(file))
        reference = folder / "reference"
        subprocess.run(["rustc", "-O", "--edition", "2021", "-o", str(reference), str(REFERENCE)], check=True)
        words = [str(reference), ",".join(map(str, supply)), str(BIDDERS), str(CEILING), "log"]
        ours, plain = [], []
        for _ in range(5):
            ours.append(used([str(PROGRAM), "settle", "auction.toml", "."], folder))
            plain.append(used(words, folder))
        (seconds, memory, first), (other, _, line) = min(ours), min(plain)
        print(
            f"replay of 720,144 reports: {1000 * seconds:.0f} ms, {memory:.0f} MiB; plain clock 0: {1000 * other:.0f} ms,"
            f" so {seconds / max(other, 0.01):.1f} times  {first}; {line}"
        )


def judging():
    """One bidder's part of all rounds that there can be on its clocks, 720,012 reports, beside `standing` of the same journals."""
    supply = [1] * 6
    with tempfile.TemporaryDirectory() as name:
        folder = Path(name)
        text = auction(supply)
        (folder / "auction.toml").write_bytes(text)
        digest = hashlib.sha256(text).digest()
        for clock in range(BIDDERS + 1):
            (folder / f"clock-{clock:02}.ahj").write_bytes(journal(clock, digest, supply, 1, TOTAL))
        size = sum(file.stat().st_size for file in folder.iterdir())
        judged = min(used([str(PROGRAM), "judge", "auction.toml", ".", "2"], folder) for _ in range(3))
        stood = min(used([str(PROGRAM), "standing", "auction.toml", "."], folder) for _ in range(3))
        print(
            f"judge over {size / 1e6:.0f} MB: {judged[0]:.2f} s, {judged[1]:.0f} MiB; standing: {stood[0]:.2f} s, {stood[1]:.0f} MiB,"
            f" so {judged[0] / max(stood[0], 0.01):.1f} times  {judged[2]}; {stood[2]}"
        )


def main():
    if "--judge" in sys.argv:
        judging()
        return
    if "--no-build" not in sys.argv:
        build = ["rt", "run", "--", "fold", "1", "2", "5", "data/two-bidders.log"]
        subprocess.run(build, cwd=CRATE, check=True, capture_output=True)
    print(f"{'records':28} {'MB':>4} {'settle MB/s':>11} {'cksum MB/s':>12} {'MiB':>6}")
    for title, supply, most in [
        ("1 good, 1 bundle", [2], 1),
        ("6 goods, 1 bundle", [1] * 6, 1),
        ("6 goods, 7 bundles", [1] * 6, 7),
        ("3 goods, 28 bundles", [9, 9, 9], 28),
        ("6 goods, 1,500 bundles", [1, 3, 3, 3, 3, 3], 1_500),
    ]:
        with tempfile.TemporaryDirectory() as name:
            folder = Path(name)
            text = auction(supply)
            (folder / "auction.toml").write_bytes(text)
            digest = hashlib.sha256(text).digest()
            size = 0
            names = []
            for clock in range(BIDDERS + 1):
                file = journal(clock, digest, supply, most, TOTAL // (BIDDERS + 1))
                names.append(f"clock-{clock:02}.ahj")
                (folder / names[-1]).write_bytes(file)
                size += len(file)
            runs = [used([str(PROGRAM), "settle", "auction.toml", "."], folder) for _ in range(3)]
            reads = [used(["cksum", *names], folder) for _ in range(3)]
            seconds, memory, first = min(runs)
            print(
                f"{title:28} {size / 1e6:4.0f} {size / 1e6 / max(seconds, 0.01):11.0f} {size / 1e6 / max(min(reads)[0], 0.01):12.0f} {memory:6.0f}  {first}"
            )
    replay()


if __name__ == "__main__":
    main()
