#!/usr/bin/env python3
"""Runs `explain`, `float` or `judge` over made cases, and compares text and status with what model.py says.

    run.py COMMAND PROGRAM [--cases N] [--seed S]

PROGRAM is the built house_main. A third of the cases or more end in another way than 0: words that are no command, files that are absent, too
long or refused, journals that are cut or changed, an output that takes nothing. It prints how many cases ended with each status and with each
kind of line, and ends with status 1 where the two differ. Want of memory (status 1) is what bench/hostile runs.
"""
import argparse
import collections
import hashlib
import pathlib
import random
import re
import subprocess
import sys
import tempfile

sys.path.insert(0, str(pathlib.Path(__file__).resolve().parents[1] / "settle"))

import making  # noqa: E402
import model  # noqa: E402
from settle import OPEN_GATE, SHORTEST_JOURNAL, Auction, Clock, Ends, first_gate, payloads, read_clock, report_in, spaced  # noqa: E402

LONGEST_AUCTION = 65_536
LONGEST_VALUES = 1_048_576
MOST_BIDDERS = 12
GREATEST_PRICE = 10_000
MOST_BUNDLES = 24


class Case:
    """The words of a run, its folder, and the answer that is wanted: a status and lines, or a test of the lines."""

    def __init__(self, words, status, lines=(), test=None, full=False):
        self.words, self.status, self.lines, self.test, self.full = words, status, list(lines), test, full

    def is_met(self, status, out):
        if self.test is not None and status == 0:
            return self.status == 0 and out.endswith(b"\n") and self.test(out.decode().split("\n")[:-1])
        wanted = "".join(f"{line}\n" for line in self.lines).encode()
        return (status, out) == (self.status, b"" if self.full else wanted)


# Faults of an auction file, each by its number in the line of status 3.


def replaced(pattern, text):
    return lambda file: re.sub(pattern, text, file, count=1, flags=re.M)


def repeated_name(file):
    first, *others = re.findall(r'^\[\[bidders\]\]\nname = "(.*)"$', file, flags=re.M)
    return file + f'[[bidders]]\nname = "{first}"\ntoken = "{"0" * 64}"\n' if len(others) + 1 < MOST_BIDDERS else None


def too_many(file):
    more = (f'[[bidders]]\nname = "more-{n}"\ntoken = "{"0" * 64}"\n' for n in range(MOST_BIDDERS))
    return file + "".join(more)


AUCTION_FAULTS = {
    1: lambda file: file + "[[",
    2: replaced(r"^ceiling = .*\n", ""),
    3: replaced(r"^ceiling = .*$", 'ceiling = "ten"'),
    4: replaced(r"^supply = .*$", "supply = 0"),
    5: too_many,
    6: replaced(r"^token = .*$", 'token = "zz"'),
    7: replaced(r"^ceiling = .*\n", "ceiling = 1\n"),
    8: repeated_name,
    9: lambda file: "seats = 3\n" + file,
    10: replaced(r"^version = .*$", "version = 3"),
    11: replaced(r'^name = "good-0"$', 'name = "Good 0"'),
    12: replaced(r"^supply = .*$", "supply = 70000"),
    13: lambda file: replaced(r"^supply = (.*)$", r"supply = \1\nopening = 10000")(re.sub(r"^opening = .*\n", "", file, flags=re.M)) if "version = 2" in file else None,
}


def bad_auction(rng, path):
    """Spoils the auction file, and returns the number of its fault."""
    file = path.read_text()
    while True:
        number = rng.choice(list(AUCTION_FAULTS))
        spoiled = AUCTION_FAULTS[number](file)
        if spoiled not in (None, file):
            path.write_text(spoiled)
            return number


def no_auction(rng, path, words):
    """A case in which no auction is read."""
    kind = rng.randrange(3)
    if kind == 0:
        path.unlink()
        return Case(words, 4, ["read fault"])
    if kind == 1:
        path.write_text(path.read_text() + "#" * (LONGEST_AUCTION + 1 - path.stat().st_size))
        return Case(words, 14, ["too long auction"])
    return Case(words, 3, [f"bad auction {bad_auction(rng, path)}"])


# explain and judge, over journals.


def journals_case(rng, folder):
    making.make(rng, folder)
    return folder / "auction.toml", folder


def observations_of(folder, auction, bidder):
    """The bidder's reports, each with its clock and round, and the prices of that round."""
    found = []
    for number in range(auction.bidders + 1):
        path = folder / f"clock-{number:02}.ahj"
        file = path.read_bytes() if path.exists() else b""
        if len(file) < SHORTEST_JOURNAL or file[0] != OPEN_GATE:
            continue
        clock = Clock(number, auction)
        for _, payload in payloads(file, first_gate(file, number, auction)):
            by, round_number, demand = report_in(payload, auction)
            if by == bidder:
                found.append(((number, round_number), clock.prices, demand))
            assert clock.takes(by, round_number, demand)
    return found


def over_journals(rng, path, folder, words, done):
    """A case that reads all journals; `done` gives the case where they are sound."""
    auction = Auction(path)
    if rng.random() < 0.06:
        number = rng.randrange(auction.bidders + 1)
        (folder / f"clock-{number:02}.ahj").unlink(missing_ok=True)
        (folder / f"clock-{number:02}.ahj").mkdir()
        before = [clock for clock in range(number)]
        try:
            for clock in before:
                read_clock(folder, clock, auction)
        except Ends as end:
            return Case(words, end.status, [str(end)])
        return Case(words, 6, [f"disk fault clock {number}"])
    try:
        clocks = [read_clock(folder, number, auction) for number in range(auction.bidders + 1)]
    except Ends as end:
        return Case(words, end.status, [str(end)])
    case = done(auction, clocks)
    if rng.random() < 0.05:
        return Case(words, 5, full=True)
    return case


def explain(rng, folder):
    path, folder = journals_case(rng, folder)
    words = ["explain", path, folder]
    kind = rng.random()
    if kind < 0.05:
        return Case(rng.choice((["explain", path], [*words, "0"], ["explain", "--json", path, folder], ["explains", path, folder])), 2, ["usage"])
    if kind < 0.15:
        return no_auction(rng, path, words)
    return over_journals(rng, path, folder, words, lambda auction, clocks: Case(words, 0, model.explain(auction, clocks)))


def judge(rng, folder):
    path, folder = journals_case(rng, folder)
    bidders = Auction(path).bidders
    bidder = rng.randint(1, bidders)
    words = ["judge", path, folder, str(bidder)]
    kind = rng.random()
    if kind < 0.05:
        return Case(["judge", path, folder, *rng.choice(([], ["0"], ["13"], ["01"], ["+1"], ["1", "1"]))], 2, ["usage"])
    if kind < 0.15:
        return no_auction(rng, path, words)
    if kind < 0.22 and bidders < MOST_BIDDERS:
        other = rng.randint(bidders + 1, MOST_BIDDERS)
        return Case(["judge", path, folder, str(other)], 19, [f"no bidder {other}"])

    def done(auction, clocks):
        seen = observations_of(folder, auction, bidder)
        lines = model.judge(auction, seen, bidder)
        if lines is not None:
            return Case(words, 0, lines)
        return Case(words, 0, test=lambda lines: model.is_contradiction(auction, seen, bidder, lines))

    return over_journals(rng, path, folder, words, done)


# float, over a file of valuations.


class Values:
    """A bidder's valuation in one of the four forms: its text, and what each bundle is worth."""

    def __init__(self, rng, supply, ceiling):
        bundles, top = model.box(supply), ceiling - 1
        form = rng.choice(("marginal", "marginal", "unit", "unit", "capped", "capped", "table"))
        if form == "marginal":
            most = top // sum(supply)
            lists = [sorted((rng.randint(0, most) for _ in range(units)), reverse=True) for units in supply]
            self.text = f"lists = {lists}"
            self.worth = {b: sum(sum(entries[:q]) for entries, q in zip(lists, b)) for b in bundles}
        elif form == "unit":
            values = [rng.randint(0, top) for _ in supply]
            self.text = f"values = {values}"
            self.worth = {b: max([0, *(v for v, q in zip(values, b) if q)]) for b in bundles}
        elif form == "capped":
            cap = rng.randint(0, 3)
            values = [rng.randint(0, top // 3) for _ in supply]
            self.text = f"values = {values}\ncap = {cap}"
            self.worth = {b: sum(sorted((v for v, q in zip(values, b) for _ in range(q)), reverse=True)[:cap]) for b in bundles}
        else:
            values = [rng.randint(0, top) if any(b) else 0 for b in bundles]
            self.text = f"values = {values}"
            self.worth = dict(zip(bundles, values))
        self.text = f'[[valuations]]\nform = "{form}"\n{self.text}\n'


def values_fault(rng, file, auction):
    """A file of valuations with one fault in the first element, and the number of the fault."""
    top, first = auction.ceiling - 1, len(model.box(auction.supply))
    element = {
        1: "[[",
        2: "[[valuations]]\nvalues = [1]\n",
        3: "[[valuations]]\nform = 1\n",
        4: f'[[valuations]]\nform = "unit"\nvalues = {[top + 1] * len(auction.supply)}\n',
        5: f'[[valuations]]\nform = "unit"\nvalues = {[0] * (len(auction.supply) + 1)}\n',
        6: f'[[valuations]]\nform = "table"\nvalues = {[1] * first}\n',
        7: f'[[valuations]]\nform = "marginal"\nlists = {[[top] * units for units in auction.supply]}\n',
        9: '[[valuations]]\nform = "unit"\nworth = 1\n',
        10: '[[valuations]]\nform = "steps"\n',
    }
    number = rng.choice((8, *element))
    if number == 7 and (sum(auction.supply) < 2 or top < 1):
        number = 8
    if number == 8:
        return file + file, 8
    rest = "[[valuations]]" + "[[valuations]]".join(file.split("[[valuations]]")[2:]) if auction.bidders > 1 else ""
    return element[number] + rest, number


def float_(rng, folder):
    path, values_path = folder / "auction.toml", folder / "values.toml"
    supply = making.made_supply(rng)
    while len(model.box(supply)) > MOST_BUNDLES:
        supply = making.made_supply(rng)
    bidders, version = rng.randint(1, rng.choice((3, 5, MOST_BIDDERS))), rng.choice((1, 2))
    ceiling = rng.choice((5, 10, 20))
    making.write_auction(path, rng, supply, bidders, version, ceiling)
    auction = Auction(path)
    values = [Values(rng, supply, ceiling) for _ in range(bidders)]
    values_path.write_text("".join(value.text for value in values))
    start = tuple(rng.randint(opening, ceiling - 1) for opening in auction.opening)
    words = ["float", path, values_path, ",".join(map(str, start))]
    kind = rng.random()
    if kind < 0.04:
        wrong = rng.choice((["float", path, values_path], [*words, "1"], ["float", path, values_path, rng.choice(("", "1,", "01", "10001", "-1", "1,1,1,1,1,1,1"))]))
        return Case(wrong, 2, ["usage"])
    if kind < 0.12:
        return no_auction(rng, path, words)
    if kind < 0.16:
        found = rng.choice([count for count in range(1, 7) if count != len(supply)])
        return Case([*words[:3], ",".join(["1"] * found)], 24, [f"start count {found}"])
    if kind < 0.22:
        good = rng.randrange(len(supply))
        low = auction.opening[good] - 1
        value = low if low >= 0 and rng.random() < 0.5 else rng.randint(ceiling, min(ceiling + 5, GREATEST_PRICE))
        other = (*start[:good], value, *start[good + 1 :])
        return Case([*words[:3], ",".join(map(str, other))], 25, [f"start good {good} value {value}"])
    if kind < 0.24:
        values_path.unlink()
        return Case(words, 4, ["read fault"])
    if kind < 0.26:
        values_path.write_text(values_path.read_text() + "#" * (LONGEST_VALUES + 1 - values_path.stat().st_size))
        return Case(words, 14, ["too long values"])
    if kind < 0.34:
        file, number = values_fault(rng, values_path.read_text(), auction)
        values_path.write_text(file)
        return Case(words, 12, [f"bad values {number}"])
    bundles = model.box(supply)
    for bidder, value in enumerate(values, 1):
        triple = model.not_substitutes(value.worth, bundles)
        if triple:
            x, y, good = triple
            return Case(words, 13, [f"not substitutes bidder {bidder} x {spaced(x)} y {spaced(y)} good {good}"])
    if kind < 0.37:
        return Case(words, 5, full=True)
    worths = {bidder: value.worth for bidder, value in enumerate(values, 1)}
    return Case(words, 0, model.float_(auction, Clock, worths, start))


COMMANDS = {"explain": explain, "float": float_, "judge": judge}


def ran(program, case):
    words = [program.resolve(), *case.words]
    if case.full:
        with open("/dev/full", "wb") as full:
            return subprocess.run(words, stdout=full, stderr=subprocess.DEVNULL).returncode, b""
    run = subprocess.run(words, stdout=subprocess.PIPE, stderr=subprocess.DEVNULL)
    return run.returncode, run.stdout


def kinds_of(out):
    """The words of each line that are no numbers."""
    return {" ".join(word for word in line.split() if not word.lstrip("-").isdigit()) for line in out.decode(errors="replace").split("\n") if line}


def main():
    words = argparse.ArgumentParser()
    words.add_argument("command", choices=COMMANDS)
    words.add_argument("program", type=pathlib.Path)
    words.add_argument("--cases", type=int, default=10_000)
    words.add_argument("--seed", type=int, default=1)
    given = words.parse_args()
    ends, lines, different = collections.Counter(), collections.Counter(), 0
    for number in range(given.cases):
        with tempfile.TemporaryDirectory() as name:
            case = COMMANDS[given.command](random.Random(f"{given.command} {given.seed} {number}"), pathlib.Path(name))
            status, out = ran(given.program, case)
        ends[status] += 1
        lines.update(kinds_of(out))
        if not case.is_met(status, out):
            different += 1
            print(f"case {number}: {status} {out[:400]!r}, wanted {case.status} {case.lines[:6]}")
    print(f"{given.command}: cases {given.cases}, different {different}")
    print("by status", dict(sorted(ends.items())))
    print("lines", dict(lines.most_common()))
    sys.exit(1 if different else 0)


if __name__ == "__main__":
    main()
