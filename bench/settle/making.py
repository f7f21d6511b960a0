"""Makes auctions with their journals: bidders want what a random valuation says, or report what they like."""
import hashlib
import pathlib
import struct
import sys

sys.path.insert(0, str(pathlib.Path(__file__).resolve().parents[2] / "examples"))

from settle import Auction, Clock  # noqa: E402

MOST_GOODS, MOST_BIDDERS, MOST_BUNDLES = 6, 12, 72


def box(supply):
    bundles = [()]
    for units in supply:
        bundles = [bundle + (q,) for bundle in bundles for q in range(units + 1)]
    return bundles


def made_supply(rng):
    """A unit of each good, and some more while there are few bundles."""
    supply = [1] * rng.randint(1, MOST_GOODS)
    for _ in range(rng.randint(0, 6)):
        good = rng.randrange(len(supply))
        supply[good] += 1
        if len(box(supply)) > MOST_BUNDLES:
            supply[good] -= 1
    return tuple(supply)


def write_auction(path, rng, supply, bidders, version, ceiling):
    lines = [f"version = {version}", f"ceiling = {ceiling}"]
    for good, units in enumerate(supply):
        lines += ["[[goods]]", f'name = "good-{good}"', f"supply = {units}"]
        if version == 2 and rng.random() < 0.7:
            lines.append(f"opening = {rng.randint(0, min(4, ceiling - 1))}")
    for bidder in range(1, bidders + 1):
        lines += ["[[bidders]]", f'name = "bidder-{bidder}"', f'token = "{hashlib.sha256(str(bidder).encode()).hexdigest()}"']
    path.write_text("\n".join(lines) + "\n")


def marginal(rng, supply, top):
    """Worths of units that do not rise: goods of strong substitutes."""
    lists = [sorted((rng.randint(0, top) for _ in range(units)), reverse=True) for units in supply]
    return lambda bundle: sum(sum(worths[:q]) for worths, q in zip(lists, bundle))


def table(rng, supply, top):
    """Any worths: goods that may be no substitutes."""
    worths = {bundle: rng.randint(0, top) if any(bundle) else 0 for bundle in box(supply)}
    return lambda bundle: worths[bundle]


def demand_of(worth, bundles, prices):
    surplus = [worth(bundle) - sum(q * p for q, p in zip(bundle, prices)) for bundle in bundles]
    most = max(surplus)
    return [bundle for bundle, of in zip(bundles, surplus) if of == most]


def entry(bidder, number, demand):
    numbers = [q for bundle in demand for q in bundle]
    return struct.pack(f">BIBH{len(numbers)}H", bidder, number, len(demand[0]), len(demand), *numbers)


def reports(rng, auction, number, wants, stop):
    """Entries of a clock that goes on until it has ended or is halted, or for so many reports."""
    clock, entries, bundles = Clock(number, auction), [], box(auction.supply)
    while clock.phase == "running" and len(entries) < stop:
        bidder = rng.choice([member for member in clock.members if member not in clock.demands])
        worth = wants[bidder]
        demand = demand_of(worth, bundles, clock.prices) if worth else sorted(rng.sample(bundles, rng.randint(1, min(3, len(bundles)))))
        entries.append(entry(bidder, clock.round, demand))
        assert clock.takes(bidder, clock.round, demand)
    return entries


def journal(auction, number, entries):
    file = b"\xa5AHJ" + str(auction.version).encode() + struct.pack(">I", number) + auction.digest
    if auction.version == 2:
        file += struct.pack(f">BB{len(auction.opening)}I", 2, len(auction.opening), *auction.opening)
    return file + b"".join(b"\xa5" + struct.pack(">I", len(payload)) + payload for payload in entries) + b"\0"


def harmed(rng, file, other):
    """A journal that is cut, that another hand changed, or that is another clock's."""
    kind = rng.randint(0, 2)
    if kind == 0:
        return file[: rng.randint(0, len(file))]
    return changed(rng, file)[0] if kind == 1 else other


def changed(rng, file):
    """The file with one byte that is another, often by a small number as between quantities, and the place of that byte."""
    at = rng.randrange(len(file))
    return file[:at] + bytes([file[at] ^ rng.choice((1, 2, 3, rng.randint(1, 255)))]) + file[at + 1 :], at


def make(rng, folder):
    """An auction with its journals in a folder."""
    supply, bidders, version = made_supply(rng), rng.randint(1, rng.choice((4, MOST_BIDDERS))), rng.choice((1, 2))
    top = rng.choice((3, 8, 15))
    write_auction(folder / "auction.toml", rng, supply, bidders, version, rng.choice((top + 2, top + 2, max(2, top // 2))))
    auction = Auction(folder / "auction.toml")
    form = rng.choice((marginal, marginal, table, None))
    wants = {bidder: form and form(rng, supply, top) for bidder in range(1, bidders + 1)}
    stop = rng.choice((10**9,) * 6 + (rng.randint(0, 20),))
    files = [journal(auction, number, reports(rng, auction, number, wants, stop)) for number in range(bidders + 1)]
    if rng.random() < 0.2:
        at = rng.randrange(len(files))
        files[at] = harmed(rng, files[at], rng.choice(files))
    for number, file in enumerate(files):
        if file or rng.random() < 0.5:
            (folder / f"clock-{number:02}.ahj").write_bytes(file)
    return auction
