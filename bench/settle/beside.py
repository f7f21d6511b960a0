#!/usr/bin/env python3
"""Settles made auctions by the program and by examples/settle.py, and compares what both write and how they end.

    beside.py PROGRAM [--auctions N] [--seed S] [--page] [--plants]

PROGRAM is the built house_main, or `-` for none. With --page the script of examples/auction.html settles each auction too, in node. An
auction has one to six goods and one to twelve bidders, of either version; its bidders want what a random valuation says, or report what
they like. Some clocks stop early, some journals are cut, changed at a byte, or another clock's.

With --plants something is changed in each auction that has an outcome, and has to be told. It may be a number of the outcome's text: a
price, an award, a payment or a choice; then `settle.py --check`, and the page, have to name its line. Or it is a byte of a journal; then
the line of the end has to name that clock. A journal has no checksum, so a changed byte may leave a sound one, in which a bidder reports
something else, or whose last gate is closed in another way. Then all have to settle this one alike, and to name a line of the outcome of
before, or to find it equal; these are counted apart.

It prints how many of each kind came, and ends with status 1 where two differ or something that was changed is not told.
"""
import argparse
import collections
import dataclasses
import pathlib
import random
import subprocess
import sys
import tempfile

from making import MOST_BIDDERS, MOST_GOODS, changed, make

SETTLE = pathlib.Path(__file__).resolve().parents[2] / "examples" / "settle.py"
PAGE = pathlib.Path(__file__).resolve().parent / "page.js"
ENDS = {0: "settled", 3: "bad auction", 8: "damaged", 9: "open", 10: "without award", 11: "halted"}
NUMBERS = {"price": ("prices ", 1), "award": ("bidder ", 3), "payment": ("bidder ", -1), "choice": ("choice ", 3)}
PLANTS = ("journal", "journal", *NUMBERS)


def answers(commands):
    """The status and the text of each command; they run beside one another."""
    running = [subprocess.Popen(words, stdout=subprocess.PIPE, stderr=subprocess.DEVNULL) for words in commands]
    texts = [process.communicate()[0].decode() for process in running]
    return [(process.returncode, text) for process, text in zip(running, texts)]


@dataclasses.dataclass
class Settlers:
    """What settles an auction, the first one first: the words of each, and of those that compare an outcome."""

    all: list
    comparing: list

    def settled(self, files):
        return answers([*settler, *files] for settler in self.all)

    def compared(self, files, outcome):
        return answers([*settler, *files, "--check", outcome] for settler in self.comparing)


def settlers_of(given):
    comparing = [[sys.executable, SETTLE], *([["node", PAGE]] if given.page else [])]
    return Settlers(([] if given.program == "-" else [[pathlib.Path(given.program).resolve(), "settle"]]) + comparing, comparing)


def kinds_of(auction, status, text):
    """The kinds of this auction and its end that are counted."""
    yield f"version {auction.version}"
    yield f"goods {len(auction.supply)}"
    yield f"bidders {auction.bidders}"
    yield ENDS.get(status, f"status {status}")
    if any(auction.opening):
        yield "openings above 0"
    if status != 0:
        return
    rows = [line.split() for line in text.splitlines() if line.startswith("bidder ")]
    if any(int(row[-1]) < 0 for row in rows):
        yield "payments below 0"
    awards = [[int(q) for q in row[3 : row.index("debit")]] for row in rows]
    if any(sum(of_good) < units for of_good, units in zip(zip(*awards), auction.supply)):
        yield "unsold units"


def changed_number(rng, text, kind):
    """The text with one number of this kind changed, and the number of its line."""
    start, first = NUMBERS[kind]
    lines = text.splitlines()
    number = rng.choice([at for at, line in enumerate(lines) if line.startswith(start)])
    words = lines[number].split()
    last = words.index("debit") if kind == "award" else len(words)
    at = rng.randrange(first if first > 0 else last + first, last)
    words[at] = str(int(words[at]) + rng.choice((-1, 1)))
    lines[number] = " ".join(words)
    return "\n".join(lines) + "\n", number + 1


def plant_number(rng, settlers, files, text, kind):
    """Changes a number of the outcome. How it was told, or what was not."""
    other, line = changed_number(rng, text, kind)
    outcome = files[1] / "outcome.txt"
    outcome.write_text(other)
    found = settlers.compared(files, outcome)
    told = all(status == 1 and said.startswith(f"line {line}:") for status, said in found)
    return ("told" if told else "not told"), found


def plant_byte(rng, settlers, files, text):
    """Changes a byte of a journal. How it was told, or what was not."""
    journal = rng.choice([path for path in sorted(files[1].glob("clock-*.ahj")) if path.stat().st_size])
    clock = int(journal.stem[-2:])
    file, _ = changed(rng, journal.read_bytes())
    journal.write_bytes(file)
    found = settlers.settled(files)
    status, said = found[0]
    if any(one != found[0] for one in found):
        return "not told", found
    if status != 0:
        return (f"told, {ENDS[status]}" if f"clock {clock} " in f"{said.strip()} " else "not told"), found
    outcome = files[1] / "outcome.txt"
    outcome.write_text(text)
    found = settlers.compared(files, outcome)
    if said == text:
        return ("sound, the same outcome" if all(one == (0, "equal\n") for one in found) else "not told"), found
    return ("sound, another outcome" if all(one[0] == 1 and one[1].startswith("line ") for one in found) else "not told"), found


def plant(rng, settlers, files, text):
    """Changes something of a settled auction: its kind with how it was told, and what was found."""
    outcome = files[1] / "outcome.txt"
    outcome.write_text(text)
    before = settlers.compared(files, outcome)
    if any(one != (0, "equal\n") for one in before):
        return "none, not told", before
    kind = rng.choice(PLANTS)
    how, found = plant_byte(rng, settlers, files, text) if kind == "journal" else plant_number(rng, settlers, files, text, kind)
    return f"{kind}, {how}", found


def print_kinds(kinds):
    counts = {"version": 2, "goods": MOST_GOODS, "bidders": MOST_BIDDERS}
    names = [f"{kind} {number}" for kind, most in counts.items() for number in range(1, most + 1)]
    names += [*(name for status, name in ENDS.items() if status != 3), "openings above 0", "payments below 0", "unsold units"]
    for name in [*names, *sorted(set(kinds) - set(names))]:
        print(f"{name}: {kinds[name]}")


def main():
    words = argparse.ArgumentParser(description=__doc__, formatter_class=argparse.RawDescriptionHelpFormatter)
    words.add_argument("program")
    words.add_argument("--auctions", type=int, default=1_000)
    words.add_argument("--seed", type=int, default=1)
    words.add_argument("--page", action="store_true")
    words.add_argument("--plants", action="store_true")
    given = words.parse_args()
    settlers, kinds, plants, wrong = settlers_of(given), collections.Counter(), collections.Counter(), 0
    for number in range(given.auctions):
        with tempfile.TemporaryDirectory() as name:
            rng, folder = random.Random(f"{given.seed} {number}"), pathlib.Path(name)
            auction, files = make(rng, folder), [folder / "auction.toml", folder]
            found = settlers.settled(files)
            if any(one != found[0] for one in found):
                wrong += 1
                print(f"auction {number} differs: {found}")
            kinds.update(kinds_of(auction, *found[0]))
            if given.plants and found[0][0] == 0:
                how, found = plant(rng, settlers, files, found[0][1])
                plants[how] += 1
                if how.endswith("not told"):
                    wrong += 1
                    print(f"auction {number} {how}: {found}")
    print_kinds(kinds)
    for how, count in sorted(plants.items()):
        print(f"changed {how}: {count}")
    print(f"auctions {given.auctions}, by {len(settlers.all)} programs, changed {sum(plants.values())}, wrong {wrong}")
    sys.exit(1 if wrong else 0)


if __name__ == "__main__":
    main()
