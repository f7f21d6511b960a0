#!/usr/bin/env python3
"""Writes the journals of the auction in auction.toml, beside it: one clock with all three operators, and one without each.

In each round every member reports all of the numbers of licences that it would like best at the clock's price. The price rises by one
as long as the members together want more than there is, even if each takes the least that it would.
"""
import hashlib
import pathlib
import struct

HERE = pathlib.Path(__file__).parent
SUPPLY = 2
VALUES = {1: [0, 10, 14], 2: [0, 8, 11], 3: [0, 6, 7]}


def demand(bidder, price):
    """The numbers of licences with the greatest surplus at this price, ascending."""
    surplus = [value - price * units for units, value in enumerate(VALUES[bidder])]
    return [units for units in range(SUPPLY + 1) if surplus[units] == max(surplus)]


def payload(bidder, round_number, units):
    """An entry: the bidder, the round, one good, the number of bundles, and the bundles."""
    return struct.pack(f">BIBH{len(units)}H", bidder, round_number, 1, len(units), *units)


def reports(members):
    """What the members report, round by round, until the clock ends."""
    price, round_number = 0, 1
    while True:
        demands = [(bidder, demand(bidder, price)) for bidder in members]
        yield from (payload(bidder, round_number, units) for bidder, units in demands)
        if sum(units[0] for _, units in demands) <= SUPPLY:
            return
        price, round_number = price + 1, round_number + 1


def journal(clock, digest, payloads):
    """A journal of version 1: a gate, the header, and for each payload an open gate, its length and itself; then a closed gate."""
    file = b"\xa5AHJ1" + struct.pack(">I", clock) + digest
    for entry in payloads:
        file += b"\xa5" + struct.pack(">I", len(entry)) + entry
    return file + b"\0"


def main():
    digest = hashlib.sha256((HERE / "auction.toml").read_bytes()).digest()
    for clock in range(len(VALUES) + 1):
        members = [bidder for bidder in VALUES if bidder != clock]
        path = HERE / f"clock-{clock:02}.ahj"
        path.write_bytes(journal(clock, digest, reports(members)))


if __name__ == "__main__":
    main()
