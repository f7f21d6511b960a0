"""Auctions of twelve bidders, and logs of reports whose demands change from round to round, from fixed seeds."""
import hashlib
import random
import struct
from itertools import product

BIDDERS = 12
CEILING = 10_000


def box(supply):
    """All bundles within the supply, good 0 first."""
    return list(product(*(range(units + 1) for units in supply)))


def places_apart(supply):
    """How far apart in the box two bundles are that differ by a unit of a good."""
    apart = [1] * len(supply)
    for good in reversed(range(len(supply) - 1)):
        apart[good] = apart[good + 1] * (supply[good + 1] + 1)
    return apart


def with_slot(supply, worth, slot):
    """The worth of each bundle to a bidder who has a slot more, for one unit, that is worth so much by its good."""
    apart = places_apart(supply)
    return [
        max([worth[place]] + [worth[place - apart[good]] + slot[good] for good, units in enumerate(bundle) if units])
        for place, bundle in enumerate(box(supply))
    ]


def falling(draw, count, most):
    """So many numbers from 0 to the most, the greatest first."""
    return sorted((draw.randint(0, most) for _ in range(count)), reverse=True)


def families(draw, goods):
    """The goods in groups of one to three, and all of them."""
    order = list(range(goods))
    draw.shuffle(order)
    groups = []
    while order:
        size = draw.randint(1, 3)
        groups.append(order[:size])
        order = order[size:]
    return groups + [list(range(goods))]


def table(draw, supply, most, slots=None, spread=0.3):
    """Values of all bundles: concave in the units of each group of goods, then slots of one unit each, then concave in each good. Each of
    these keeps strong substitutes."""
    bundles = box(supply)
    goods = len(supply)
    groups = families(draw, goods)
    parts = [draw.uniform(0.5, 1) for _ in range(3)]
    by_group, by_slot, by_good = (int(most * part / sum(parts)) for part in parts)
    worth = [0] * len(bundles)
    for group in groups:
        units = sum(supply[good] for good in group)
        count = min(units, draw.randint(1, 6))
        steps = falling(draw, count, by_group // (len(groups) * count))
        worth = [old + sum(steps[: sum(bundle[good] for good in group)]) for old, bundle in zip(worth, bundles)]
    count = slots or draw.randint(1, min(8, sum(supply)))
    for _ in range(count):
        share = by_slot // count
        worth = with_slot(supply, worth, [draw.randint(int(share * (1 - spread)), share) for _ in supply])
    for good, units in enumerate(supply):
        count = min(units, draw.randint(1, 6))
        steps = falling(draw, count, by_good // (goods * count))
        worth = [old + sum(steps[: bundle[good]]) for old, bundle in zip(worth, bundles)]
    return worth


def valuation(draw, supply, form):
    """A valuation of one of the forms of a valuation file."""
    most = CEILING - 1
    if form == "unit":
        return {"form": form, "values": [draw.randint(0, most) for _ in supply]}
    if form == "capped":
        cap = draw.randint(1, min(4, sum(supply)))
        return {"form": form, "values": [draw.randint(0, most // cap) for _ in supply], "cap": cap}
    if form == "marginal":
        lists = []
        for units in supply:
            count = min(units, draw.randint(1, 6))
            lists.append(falling(draw, count, most // len(supply) // count) + [0] * (units - count))
        return {"form": form, "lists": lists}
    return {"form": form, "values": table(draw, supply, most)}


def mixed(draw):
    """Five goods, 512 bundles, valuations of all forms."""
    supply = [3, 3, 3, 3, 1]
    forms = ("unit", "capped", "marginal", "table")
    return supply, CEILING, [valuation(draw, supply, forms[bidder % 4]) for bidder in range(BIDDERS)]


def tables(draw):
    """Six goods, 2,048 bundles, twelve tables."""
    supply = [3, 3, 3, 3, 3, 1]
    return supply, CEILING, [{"form": "table", "values": table(draw, supply, CEILING - 1, 3, 0.5)} for _ in range(BIDDERS)]


def long(draw):
    """Five single units at high prices and 63 units of a cheap good: 9,664 rounds, in which demands change often."""
    supply = [1, 1, 1, 1, 1, 63]
    valuations = []
    for bidder in range(BIDDERS):
        form = ("table", "unit", "table", "capped")[bidder % 4]
        if form == "table":
            slots = [[draw.randint(8_500, 9_700) for _ in range(5)] + [draw.randint(0, 60)]]
            slots += [[0] * 5 + [draw.randint(1, 12)] for _ in range(draw.randint(4, 20))]
            worth = [0] * len(box(supply))
            for slot in slots:
                worth = with_slot(supply, worth, slot)
            valuations.append({"form": form, "values": worth})
            continue
        values = [draw.randint(8_500, 9_999) for _ in range(5)] + [draw.randint(0, 300)]
        valuations.append({"form": form, "values": values} | ({"cap": 1} if form == "capped" else {}))
    return supply, CEILING, valuations


def flat(rounds):
    """All want the one unit of good 0, and of the others whatever comes with it: each demand set has 1,024 bundles, and each round one."""

    def made(_draw):
        values = [{"form": "unit", "values": [rounds - 1 - bidder, 0, 0, 0, 0, 0]} for bidder in range(BIDDERS)]
        return [1, 3, 3, 3, 3, 3], rounds, values

    return made


# Each with the word of its seed.
AUCTIONS = {
    "mixed": ("t3", mixed),
    "tables": ("t4", tables),
    "long": ("t5", long),
    "flat1000": ("flat1000", flat(1_000)),
    "flat100": ("flat100", flat(100)),
}


def auction(name):
    """The supply, the ceiling and the valuations of an auction."""
    seed, made = AUCTIONS[name]
    return made(random.Random(f"baseline {seed}"))


def auction_file(supply, ceiling):
    goods = "".join(f'\n[[goods]]\nname = "g{good}"\nsupply = {units}\n' for good, units in enumerate(supply))
    token = "0123456789abcdef" * 4
    bidders = "".join(f'\n[[bidders]]\nname = "b{bidder}"\ntoken = "{token}"\n' for bidder in range(1, BIDDERS + 1))
    return f"version = 1\nceiling = {ceiling}\n{goods}{bidders}"


def values_file(valuations):
    rows = []
    for one in valuations:
        rows.append("[[valuations]]\n" + "".join(f'{key} = "{said}"\n' if key == "form" else f"{key} = {said}\n" for key, said in one.items()))
    return "\n".join(rows) + "\n"


def worth_of(supply, one):
    """The value of each bundle, in order."""
    if one["form"] == "table":
        return one["values"]
    if one["form"] == "marginal":
        return [sum(sum(row[:units]) for row, units in zip(one["lists"], bundle)) for bundle in box(supply)]
    if one["form"] == "unit":
        return [max([value for value, units in zip(one["values"], bundle) if units] or [0]) for bundle in box(supply)]
    best_first = sorted(range(len(supply)), key=lambda good: -one["values"][good])
    return [capped(one, best_first, bundle) for bundle in box(supply)]


def capped(one, best_first, bundle):
    """The worth of the best units of a bundle, as many as the cap."""
    left, worth = one["cap"], 0
    for good in best_first:
        taken = min(left, bundle[good])
        worth += taken * one["values"][good]
        left -= taken
    return worth


def numbers_file(supply, ceiling, valuations):
    """The same auction for ../trial/reference.rs."""
    rows = [f"{len(supply)} {' '.join(map(str, supply))} {BIDDERS} {ceiling}"]
    return "\n".join(rows + [" ".join(map(str, worth_of(supply, one))) for one in valuations]) + "\n"


# Logs: their supply, how many bundles a demand has, and their bytes at most.
LOGS = {
    "small": ([1] * 6, 1, 67_108_864),
    "mid": ([4, 3, 2], 28, 67_108_864),
    "big": ([3, 3, 3, 3, 3, 1], 1_500, 67_108_864),
}


def log(name):
    """Full rounds in which one good after another rises to the ceiling. Each demand has the one unit of the good alone, and beside it eight times
    other bundles with a unit of it, in turn, so that it differs from that of the round before."""
    supply, count, most = LOGS[name]
    draw = random.Random(name)
    written = bytearray()
    round_number = 0
    for good in range(len(supply)):
        alone = tuple(int(other == good) for other in range(len(supply)))
        others = [bundle for bundle in box(supply) if bundle[good] and bundle != alone]
        demands = [[demand(draw, alone, others, count) for _ in range(8)] for _ in range(BIDDERS)]
        for step in range(CEILING + (good == len(supply) - 1)):
            round_number += 1
            for bidder in range(1, BIDDERS + 1):
                payload = struct.pack(">BI", bidder, round_number) + demands[bidder - 1][(step * 7 + bidder) % 8]
                if len(written) + 4 + len(payload) > most:
                    return bytes(written)
                written += struct.pack(">I", len(payload)) + payload
    return bytes(written)


def demand(draw, alone, others, count):
    """The bytes of a demand."""
    bundles = sorted([alone] + draw.sample(others, min(len(others), count - 1)))
    return struct.pack(">BH", len(alone), len(bundles)) + b"".join(struct.pack(f">{len(bundle)}H", *bundle) for bundle in bundles)


def digest(parts):
    """The SHA-256 of some bytes one after another."""
    summed = hashlib.sha256()
    for part in parts:
        summed.update(part)
    return summed.hexdigest()
