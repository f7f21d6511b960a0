"""What `explain`, `float` and `judge` write, in Python's standard library alone, written from docs/MECHANISM.md and docs/FORMATS.md."""
import itertools
import pathlib
import sys

sys.path.insert(0, str(pathlib.Path(__file__).resolve().parents[2] / "examples"))

from settle import quantity, spaced  # noqa: E402


def box(supply):
    """All bundles within the supply, in the order of their indices."""
    return list(itertools.product(*(range(units + 1) for units in supply)))


def cost(prices, bundle):
    return sum(price * q for price, q in zip(prices, bundle))


def moved(bundle, less=None, more=None):
    """The bundle with a unit less of one good and a unit more of another."""
    return tuple(q - (k == less) + (k == more) for k, q in enumerate(bundle))


# explain: what each clock has come to.


def exchanges(demand, x, y, good):
    """Whether a unit of the good goes from x to y, alone or against another, so that both stay in the demand."""
    others = [None, *(other for other in range(len(x)) if y[other] > x[other])]
    return any(moved(x, good, other) in demand and moved(y, other, good) in demand for other in others)


def broken_triple(demand):
    """The first two bundles and the first good for which a demand lacks the exchange property, or None."""
    held = set(demand)
    triples = ((x, y, good) for x in demand for y in demand for good in range(len(x)) if x[good] > y[good])
    return next((triple for triple in triples if not exchanges(held, *triple)), None)


def fall_set(auction, prices, demands):
    """The set of risen goods that is most short of demand, by the fewest goods and then the smallest number; and its shortfall."""
    most = [sum(max(quantity(bundle, goods) for bundle in demand) for demand in demands) for goods in auction.sets]
    risen = [number for number, goods in enumerate(auction.sets) if all(prices[k] > auction.opening[k] for k in goods)]
    short = {number: auction.units[number] - most[number] for number in risen}
    number = min(risen, key=lambda number: (-short[number], number.bit_count(), number))
    return number, short[number]


def end_of(auction, clock):
    """What a clock has come to, in words."""
    if clock.phase != "ended":
        return clock.phase
    if clock.choice() is not None:
        return "ended award"
    number, short = fall_set(auction, clock.prices, [clock.demands[member] for member in clock.members])
    if short > 0:
        return f"ended overshoot {number} short {short}"
    for member in clock.members:
        triple = broken_triple(clock.demands[member])
        if triple:
            x, y, good = triple
            return f"ended broken {member} x {spaced(x)} y {spaced(y)} good {good}"
    raise AssertionError("a clock without an award overshoots or has a broken demand")


def explain(auction, clocks):
    return [f"clock {clock.number} {end_of(auction, clock)}" for clock in clocks]


# judge: whether some valuation explains all reports of a bidder.


def links_of(bundles, prices, demand):
    """Each bundle demanded, each other bundle, and how much more the other one is worth at most."""
    held = set(demand)
    for x in demand:
        for y in bundles:
            if y != x:
                yield x, y, cost(prices, y) - cost(prices, x) - (y not in held)


def least_weights(bundles, observations):
    """The least sum of a chain of links that ends in each bundle, or None where a cycle has a sum below 0."""
    least = dict.fromkeys(bundles, 0)
    links = [link for _, prices, demand in observations for link in links_of(bundles, prices, demand)]
    for _ in range(len(bundles) + 1):
        changed = False
        for x, y, weight in links:
            if least[x] + weight < least[y]:
                least[y], changed = least[x] + weight, True
        if not changed:
            return least
    return None


def judge(auction, observations, bidder):
    """The lines where the reports are rational, else None: then any cycle of links that is negative is right."""
    bundles = box(auction.supply)
    least = least_weights(bundles, observations)
    if least is None:
        return None
    values = [f"value {spaced(bundle)} {least[bundle] - least[bundles[0]]}" for bundle in bundles]
    return [f"rational bidder {bidder} bundles {len(bundles)}", *values]


def is_contradiction(auction, observations, bidder, lines):
    """Whether the lines tell a cycle of links with a sum below 0, no longer than the box, from its least link on."""
    bundles = box(auction.supply)
    index, goods = {bundle: at for at, bundle in enumerate(bundles)}, len(auction.supply)
    at = {name: (number, prices, demand) for number, (name, prices, demand) in enumerate(observations)}
    if not lines or lines[0] != f"irrational bidder {bidder} links {len(lines) - 1}" or not 1 <= len(lines) - 1 <= len(bundles):
        return False
    links, total = [], 0
    for words in (line.split(" ") for line in lines[1:]):
        if len(words) != 6 + 2 * goods or words[0::2][:2] != ["clock", "round"] or words[4] != "x" or words[5 + goods] != "y":
            return False
        x, y = tuple(map(int, words[5 : 5 + goods])), tuple(map(int, words[6 + goods :]))
        number, prices, demand = at.get((int(words[1]), int(words[3])), (0, (), ()))
        if x not in demand or y == x or y not in index:
            return False
        links.append((number, index[x], index[y]))
        total += cost(prices, y) - cost(prices, x) - (y not in demand)
    closed = all(links[at - 1][2] == links[at][1] for at in range(len(links)))
    return closed and total < 0 and links[0] == min(links)


# float: clocks that go up and then down, told by valuations.


def demand_of(worth, bundles, prices):
    surplus = {bundle: worth[bundle] - cost(prices, bundle) for bundle in bundles}
    most = max(surplus.values())
    return [bundle for bundle in bundles if surplus[bundle] == most]


def not_substitutes(worth, bundles):
    """The first two bundles and the first good of which no unit can go without loss, or None."""
    for x in bundles:
        for y in bundles:
            for good in range(len(x)):
                if x[good] > y[good]:
                    others = [None, *(other for other in range(len(x)) if y[other] > x[other])]
                    if all(worth[x] + worth[y] > worth[moved(x, good, other)] + worth[moved(y, other, good)] for other in others):
                        return x, y, good
    return None


class TwoWay:
    """A clock that goes up from the start prices, and then down, told what its members want."""

    def __init__(self, auction, number, start, worths):
        self.auction, self.number, self.prices = auction, number, start
        self.members = auction.members(number)
        self.ups = self.downs = 0
        self.sums = {left_out: 0 for left_out in [None, *self.members]}
        bundles, is_down = box(auction.supply), False
        while True:
            self.demands = {member: demand_of(worths[member], bundles, self.prices) for member in self.members}
            is_down = is_down or self.step_up() == 0
            if is_down and self.step_down() == 0:
                return

    def move(self, goods, by):
        self.prices = tuple(price + by * (k in goods) for k, price in enumerate(self.prices))

    def step_up(self):
        auction = self.auction
        least = {m: [min(quantity(bundle, goods) for bundle in demand) for goods in auction.sets] for m, demand in self.demands.items()}
        excess = [sum(of[number] for of in least.values()) - units for number, units in enumerate(auction.units)]
        step = min(range(len(excess)), key=lambda number: (-excess[number], number.bit_count(), number))
        if step:
            for left_out in self.sums:
                self.sums[left_out] -= excess[step] - (least[left_out][step] if left_out else 0)
            self.move(auction.sets[step], 1)
            self.ups += 1
        return step

    def step_down(self):
        step, _ = fall_set(self.auction, self.prices, list(self.demands.values()))
        if step:
            goods = self.auction.sets[step]
            most = {m: max(quantity(bundle, goods) for bundle in demand) for m, demand in self.demands.items()}
            for left_out in self.sums:
                self.sums[left_out] += sum(q for m, q in most.items() if m != left_out) - self.auction.units[step]
            self.move(goods, -1)
            self.downs += 1
        return step


def float_(auction, clock_class, worths, start):
    """The lines of the outcome; the choices are those that settle.py finds of clocks that stand so."""
    clocks, choices = [], []
    for number in range(auction.bidders + 1):
        clock = TwoWay(auction, number, start, worths)
        standing = clock_class(number, auction)
        standing.prices, standing.demands = clock.prices, clock.demands
        clocks.append(clock)
        choices.append(standing.choice())
    prices = clocks[0].prices
    lines = [f"floated goods {len(auction.supply)} bidders {auction.bidders} start {spaced(start)}", f"prices {spaced(prices)}"]
    for bidder, award in choices[0].items():
        debit, credit = clocks[bidder].sums[None], clocks[0].sums[bidder]
        lines.append(f"bidder {bidder} award {spaced(award)} debit {debit} credit {credit} pays {cost(prices, award) + debit - credit}")
    for clock, choice in zip(clocks, choices):
        lines.append(f"clock {clock.number} up {clock.ups} down {clock.downs} prices {spaced(clock.prices)}")
        lines.extend(f"choice {clock.number} {member} {spaced(bundle)}" for member, bundle in choice.items())
    return lines
