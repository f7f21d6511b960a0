#!/usr/bin/env python3
"""Writes the journals of an auction whose bidders want what the valuations in values.toml say: a clock with all of them, one without each.

    journals.py [AUCTION [FOLDER]]

AUCTION is auction.toml beside this script unless it is given, and FOLDER the folder of the script. In each round every member of a clock
reports all bundles that it would like best at the clock's prices. Prices rise by one on the set of goods of which the members want most
beyond the supply, even if each takes the least of it that it would; where they want no more of any set than there is, the clock has ended.
"""
import hashlib
import itertools
import pathlib
import struct
import sys
import tomllib

HERE = pathlib.Path(__file__).parent


def best_quantities(worths, price):
    """All quantities of one good with the greatest surplus at this price."""
    surplus = list(itertools.accumulate((worth - price for worth in worths), initial=0))
    return [units for units, left in enumerate(surplus) if left == max(surplus)]


def demand(lists, prices):
    """All bundles with the greatest surplus, ascending: what a bundle is worth is the sum over its goods."""
    return list(itertools.product(*map(best_quantities, lists, prices)))


def least(bundles, goods):
    """The fewest units of these goods that one of the bundles has."""
    return min(sum(bundle[good] for good in goods) for bundle in bundles)


def step_set(supply, demands):
    """The goods whose prices rise: of all sets the greatest excess, then the fewest goods, then the smallest number."""
    goods = range(len(supply))
    sets = [tuple(good for good in goods if number >> good & 1) for number in range(2 ** len(supply))]
    excess = [sum(least(bundles, chosen) for bundles in demands) - sum(supply[good] for good in chosen) for chosen in sets]
    return sets[min(range(len(sets)), key=lambda number: (-excess[number], len(sets[number]), number))]


def entry(bidder, round_number, bundles):
    """The bidder, the round, the number of goods, the number of bundles, and the bundles."""
    quantities = [units for bundle in bundles for units in bundle]
    return struct.pack(f">BIBH{len(quantities)}H", bidder, round_number, len(bundles[0]), len(bundles), *quantities)


def reports(supply, opening, lists):
    """What the members report, round by round, until the clock ends. `lists` has the worths of each member by its number."""
    prices = list(opening)
    for round_number in itertools.count(1):
        demands = {bidder: demand(worths, prices) for bidder, worths in lists.items()}
        yield from (entry(bidder, round_number, bundles) for bidder, bundles in demands.items())
        rising = step_set(supply, demands.values())
        if not rising:
            return
        for good in rising:
            prices[good] += 1


def header(version, clock, digest, opening):
    """An open gate, the clock and the digest of the auction file; in version 2 the opening prices as well."""
    front = b"\xa5AHJ%d" % version + struct.pack(">I", clock) + digest
    return front + struct.pack(f">BB{len(opening)}I", 2, len(opening), *opening) if version == 2 else front


def journal(head, payloads):
    """After the header an open gate, a length and a payload for each report, and then a closed gate."""
    return head + b"".join(b"\xa5" + struct.pack(">I", len(payload)) + payload for payload in payloads) + b"\0"


def main():
    path = pathlib.Path(sys.argv[1]) if len(sys.argv) > 1 else HERE / "auction.toml"
    folder = pathlib.Path(sys.argv[2]) if len(sys.argv) > 2 else HERE
    file = path.read_bytes()
    auction, values = tomllib.loads(file.decode()), tomllib.loads((HERE / "values.toml").read_text())
    supply = [good["supply"] for good in auction["goods"]]
    opening = [good.get("opening", 0) for good in auction["goods"]]
    lists = {bidder: element["lists"] for bidder, element in enumerate(values["valuations"], 1)}
    digest = hashlib.sha256(file).digest()
    for clock in range(len(lists) + 1):
        members = {bidder: worths for bidder, worths in lists.items() if bidder != clock}
        bytes_of = journal(header(auction["version"], clock, digest, opening), reports(supply, opening, members))
        (folder / f"clock-{clock:02}.ahj").write_bytes(bytes_of)


if __name__ == "__main__":
    main()
