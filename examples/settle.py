#!/usr/bin/env python3
"""Settles an auction from its file and its journals, with Python's standard library alone, written from docs/MECHANISM.md and docs/FORMATS.md.

    settle.py AUCTION JOURNALS [--check OUTCOME]

It prints the outcome as `house_main settle` does, and ends with the same line and status where there is none: a journal that is refused (8), or
a clock that runs (9), has no award (10) or is halted (11). With --check it compares the outcome with the file OUTCOME, and prints `equal`, or
the first line that differs and ends with status 1. It trusts the auction file: what no house would open is refused without a number (3).
"""
import argparse
import hashlib
import itertools
import pathlib
import struct
import sys
import tomllib

OPEN_GATE = 0xA5
HEADERS = {b"AHJ1": 1, b"AHJ2": 2}
SHORTEST_JOURNAL = 42
LONGEST_PAYLOAD = 32_768
LONGEST_JOURNAL = 67_108_864
OTHER_CLOCK, OTHER_AUCTION, DAMAGED, NO_REPORT, NOT_TAKEN, OTHER_VERSION, OTHER_OPENING = 1, 2, 3, 4, 6, 7, 8


class Ends(Exception):
    """The line of an end without an outcome, and its status."""

    def __init__(self, status, line):
        super().__init__(line)
        self.status = status


class Broken(Exception):
    """A journal is refused at a record, for a reason."""


class Auction:
    """What the auction file says, and its digest."""

    def __init__(self, path):
        text = path.read_bytes()
        try:
            file = tomllib.loads(text.decode())
            self.version = file["version"]
            self.ceiling = file["ceiling"]
            self.supply = tuple(good["supply"] for good in file["goods"])
            self.opening = tuple(good.get("opening", 0) for good in file["goods"])
            self.bidders = len(file["bidders"])
        except (ValueError, KeyError, TypeError) as fault:
            raise Ends(3, f"bad auction: {fault}") from fault
        self.digest = hashlib.sha256(text).digest()
        goods = range(len(self.supply))
        # Each set of goods by its number, whose binary digit k says whether good k is in it.
        self.sets = [tuple(k for k in goods if number >> k & 1) for number in range(1 << len(self.supply))]
        self.units = [quantity(self.supply, goods_of) for goods_of in self.sets]

    def members(self, clock):
        return [bidder for bidder in range(1, self.bidders + 1) if bidder != clock]


def quantity(bundle, goods):
    """How many units of these goods a bundle has."""
    return sum(bundle[k] for k in goods)


def report_in(payload, auction):
    """The bidder, the round and the demand of an entry, or None where it is no report of the auction."""
    if len(payload) < 8:
        return None
    bidder, number, goods, count = struct.unpack(">BIBH", payload[:8])
    if goods != len(auction.supply) or len(payload) != 8 + 2 * goods * count or count == 0 or not 1 <= bidder <= auction.bidders:
        return None
    numbers = struct.unpack(f">{goods * count}H", payload[8:])
    demand = [numbers[at : at + goods] for at in range(0, len(numbers), goods)]
    within = all(q <= s for bundle in demand for q, s in zip(bundle, auction.supply))
    ascending = all(one < next_one for one, next_one in itertools.pairwise(demand))
    return (bidder, number, demand) if within and ascending else None


def first_gate(file, clock, auction):
    """Where the gate of record 1 lies, after the header of this clock of the auction."""
    version = HEADERS.get(file[1:5])
    gate = 41
    if version == 2:
        gate = 43 + 4 * file[42] if len(file) > 42 and file[41] == 2 and 1 <= file[42] <= 6 else len(file)
    if version is None or gate >= len(file):
        raise Broken(0, DAMAGED)
    if struct.unpack(">I", file[5:9])[0] != clock:
        raise Broken(0, OTHER_CLOCK)
    if file[9:41] != auction.digest:
        raise Broken(0, OTHER_AUCTION)
    if version != auction.version:
        raise Broken(0, OTHER_VERSION)
    if version == 2 and struct.unpack(f">{file[42]}I", file[43:gate]) != auction.opening:
        raise Broken(0, OTHER_OPENING)
    return gate


def payloads(file, gate):
    """Each record's number from 1 on, and its payload, up to a closed gate."""
    for record in itertools.count(1):
        if file[gate] != OPEN_GATE:
            return
        at = gate + 5
        length = struct.unpack(">I", file[gate + 1 : at])[0] if at <= len(file) else LONGEST_JOURNAL
        gate = at + length
        if length > LONGEST_PAYLOAD or gate >= len(file) or gate + 1 > LONGEST_JOURNAL:
            raise Broken(record, DAMAGED)
        yield record, file[at:gate]


class Clock:
    """A clock, round by round: its prices, and what its members have reported in the round."""

    def __init__(self, number, auction):
        self.number, self.auction = number, auction
        self.members = auction.members(number)
        self.prices, self.round, self.steps = auction.opening, 1, 0
        self.demands, self.phase, self.halted_at = {}, "running", None
        # What each step counts against all members, and with each one left out.
        self.account = {left_out: 0 for left_out in [None, *self.members]}
        self.go_on()

    def takes(self, bidder, number, demand):
        """Takes a report that is of a member, of the round, and the first of its bidder there."""
        if self.phase != "running" or bidder not in self.members or number != self.round or bidder in self.demands:
            return False
        self.demands[bidder] = demand
        self.go_on()
        return True

    def go_on(self):
        """Once all have reported: the clock has ended, is halted, or makes a step and begins the next round."""
        if len(self.demands) < len(self.members):
            return
        least = {m: [min(quantity(bundle, goods) for bundle in demand) for goods in self.auction.sets] for m, demand in self.demands.items()}
        excess = [sum(of[number] for of in least.values()) - units for number, units in enumerate(self.auction.units)]
        # The greatest excess, by the fewest goods, and then by the smallest number.
        step = min(range(len(excess)), key=lambda number: (-excess[number], number.bit_count(), number))
        goods = self.auction.sets[step]
        at_ceiling = [k for k in goods if self.prices[k] >= self.auction.ceiling]
        if not goods:
            self.phase = "ended"
        elif at_ceiling:
            self.phase, self.halted_at = "halted", at_ceiling[0]
        else:
            for left_out in self.account:
                self.account[left_out] -= excess[step] - (least[left_out][step] if left_out else 0)
            self.prices = tuple(price + (k in goods) for k, price in enumerate(self.prices))
            self.round, self.steps, self.demands = self.round + 1, self.steps + 1, {}

    def clears(self, total):
        """Whether bundles that add up to this clear: within the supply, and all of it of each good above its opening."""
        each = zip(total, self.auction.supply, self.prices, self.auction.opening)
        return all(t == s if price > opening else t <= s for t, s, price, opening in each)

    def choice(self):
        """The first clearing choice, in the order of the lists, the smallest member first; None where there is none."""
        supply = self.auction.supply

        def added(one, other):
            return tuple(x + y for x, y in zip(one, other))

        # What the members from each place on can take together.
        tails = [{(0,) * len(supply)}]
        for member in reversed(self.members):
            sums = {added(bundle, rest) for bundle in self.demands[member] for rest in tails[-1]}
            tails.append({total for total in sums if all(t <= s for t, s in zip(total, supply))})
        taken, chosen = (0,) * len(supply), {}
        for member, rests in zip(self.members, reversed(tails[:-1])):
            can = (bundle for bundle in self.demands[member] if any(self.clears(added(added(taken, bundle), rest)) for rest in rests))
            bundle = next(can, None)
            if bundle is None:
                return None
            taken, chosen[member] = added(taken, bundle), bundle
        return chosen if self.clears(taken) else None


def read_clock(folder, number, auction):
    """The clock of a journal, or the record at which it is refused."""
    path = folder / f"clock-{number:02}.ahj"
    file = path.read_bytes() if path.exists() else b""
    clock = Clock(number, auction)
    if len(file) < SHORTEST_JOURNAL or file[0] != OPEN_GATE:
        return clock
    try:
        for record, payload in payloads(file, first_gate(file, number, auction)):
            report = report_in(payload, auction)
            if report is None:
                raise Broken(record, NO_REPORT)
            if not clock.takes(*report):
                raise Broken(record, NOT_TAKEN)
    except Broken as broken:
        record, fault = broken.args
        raise Ends(8, f"bad journal clock {number} record {record} fault {fault}") from broken
    return clock


def spaced(numbers):
    return " ".join(str(number) for number in numbers)


def settle(auction, clocks):
    """The lines of the outcome, or the end of the first clock that has none."""
    for clock in clocks:
        if clock.phase == "running":
            missing = next(member for member in clock.members if member not in clock.demands)
            raise Ends(9, f"open clock {clock.number} round {clock.round} missing {missing}")
    for clock in clocks:
        if clock.phase == "halted":
            raise Ends(11, f"halted clock {clock.number} good {clock.halted_at}")
    choices = [clock.choice() for clock in clocks]
    for clock, choice in zip(clocks, choices):
        if choice is None:
            raise Ends(10, f"no award clock {clock.number}")
    lines = [f"settled goods {len(auction.supply)} bidders {auction.bidders}", f"prices {spaced(clocks[0].prices)}"]
    if auction.version == 2:
        lines.append(f"opening {spaced(auction.opening)}")
    for bidder, award in choices[0].items():
        debit, credit = clocks[bidder].account[None], clocks[0].account[bidder]
        pays = sum(q * price for q, price in zip(award, clocks[0].prices)) + debit - credit
        lines.append(f"bidder {bidder} award {spaced(award)} debit {debit} credit {credit} pays {pays}")
    for clock, choice in zip(clocks, choices):
        lines.append(f"clock {clock.number} steps {clock.steps} prices {spaced(clock.prices)}")
        lines.extend(f"choice {clock.number} {member} {spaced(bundle)}" for member, bundle in choice.items())
    return lines


def compared(lines, other):
    """The first line in which an outcome differs from another text, or None."""
    for number, (own, its) in enumerate(itertools.zip_longest(lines, other.read_text().split("\n")[:-1]), 1):
        if own != its:
            return f"line {number}: settled {own!r}, but {other} has {its!r}"
    return None


def main():
    words = argparse.ArgumentParser(description=__doc__, formatter_class=argparse.RawDescriptionHelpFormatter)
    words.add_argument("auction", type=pathlib.Path)
    words.add_argument("journals", type=pathlib.Path)
    words.add_argument("--check", type=pathlib.Path, metavar="OUTCOME")
    given = words.parse_args()
    try:
        auction = Auction(given.auction)
        clocks = [read_clock(given.journals, number, auction) for number in range(auction.bidders + 1)]
        lines = settle(auction, clocks)
    except Ends as end:
        print(end)
        sys.exit(end.status)
    except OSError as fault:
        sys.exit(f"{fault.filename}: {fault.strerror}")
    if given.check is None:
        print("\n".join(lines))
        return
    other = compared(lines, given.check)
    print(other or "equal")
    sys.exit(1 if other else 0)


if __name__ == "__main__":
    main()
