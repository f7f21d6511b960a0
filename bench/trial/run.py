#!/usr/bin/env python3
"""Measures `trial` and `make` beside the same work in plain Rust (reference.rs), in processor time, and their peak memory.

Rows are `make 7`, and auctions of twelve bidders whose valuations stand in tables: random ones with strong substitutes over a box of 2,048
bundles, a price that rises for 9,700 rounds, and demand sets of a thousand bundles in as many rounds. Where glpsol and cbc are there, the
same auctions are settled as n + 1 integer programs each, as a user would do otherwise. Of each the least of five runs is taken, in turns.
After them stand the times by the clock with one worker and with four, which tell something only where four processors are idle. The program
is proved and built where it stands, by `rt run`; give --no-build to measure the program that was built before, --program FILE to measure
another one, and --programs to run the integer programs too, which take long. With --makes, bench/makes, which makes the market of 7 again and
again in one process, is proved and run beside the reference that does so too; --makes FILE takes it as it was built before.

With --workers only the times by the clock are taken, with one worker and with four in turns, the least of fifteen runs each, beside the load
average, the commit that the program is built from, and what four threads gain that only make passes over numbers (processors.rs).
"""
import hashlib
import os
import random
import resource
import shutil
import subprocess
import sys
import tempfile
import time
from itertools import product
from math import prod
from pathlib import Path

BIDDERS = 12
CEILING = 10_000
MAKES = 1_000
HERE = Path(__file__).resolve().parent
CRATE = HERE.parents[1] / "crates" / "house_main"
PROGRAM = CRATE / "out" / "house_main"
GIT = [["rev-parse", "--short", "HEAD"], ["status", "--porcelain", "--", "../../crates"]]


def box(supply):
    """All bundles within the supply, good 0 first."""
    return list(product(*(range(units + 1) for units in supply)))


def places(supply):
    """How far apart in the box two bundles are that differ by a unit of a good."""
    return [prod(units + 1 for units in supply[good + 1 :]) for good in range(len(supply))]


def assignment(supply, slots):
    """What each bundle is worth to a bidder who puts one unit into each slot, at the worth of the good there: the greatest sum. Such valuations,
    of an assignment market, have strong substitutes."""
    bundles, apart = box(supply), places(supply)
    worth = [0] * len(bundles)
    for slot in slots:
        before = worth[:]
        for place, bundle in enumerate(bundles):
            for good, quantity in enumerate(bundle):
                if quantity:
                    worth[place] = max(worth[place], before[place - apart[good]] + slot[good])
    return worth


def random_tables(supply, slots, most):
    draw = random.Random(1)
    return [assignment(supply, [[draw.randrange(most) for _ in supply] for _ in range(slots)]) for _ in range(BIDDERS)]


def rows():
    """The auctions by name: supply, and each bidder's value of each bundle."""
    wide = [3, 3, 3, 3, 3, 1]
    yield "random, 2,048 bundles", wide, random_tables(wide, 6, 1_600)
    yield "random, 3 goods, 1,000 bundles", [9, 9, 9], random_tables([9, 9, 9], 12, 800)
    first = [9_700 if bundle[0] else 0 for bundle in box(wide)]
    yield "9,700 rounds, demands of 1,536", wide, [first] * BIDDERS
    narrow = [1, 1]
    yield "9,700 rounds, demands of 2", narrow, [[9_700 if bundle[0] else 0 for bundle in box(narrow)]] * BIDDERS


def auction_file(supply):
    goods = "".join(f'[[goods]]\nname = "good-{good}"\nsupply = {units}\n' for good, units in enumerate(supply))
    token = hashlib.sha256(b"token").hexdigest()
    bidders = "".join(f'[[bidders]]\nname = "bidder-{bidder}"\ntoken = "{token}"\n' for bidder in range(1, BIDDERS + 1))
    return f"version = 1\nceiling = {CEILING}\n{goods}{bidders}"


def values_file(tables):
    return "".join(f'[[valuations]]\nform = "table"\nvalues = [{", ".join(map(str, table))}]\n' for table in tables)


def numbers_file(supply, tables):
    lines = [f"{len(supply)} {' '.join(map(str, supply))} {BIDDERS} {CEILING}"]
    return "\n".join(lines + [" ".join(map(str, table)) for table in tables]) + "\n"


def integer_program(supply, tables, members):
    """The greatest welfare of some members: one bundle for each, within the supply, in the LP format of CPLEX."""
    bundles = box(supply)
    wanted = [(j, x) for j in members for x in range(1, len(bundles)) if tables[j][x]]
    terms = [f"+ {tables[j][x]} z_{j}_{x}" for j, x in wanted]
    lines = ["Maximize", " welfare:", *("  " + " ".join(terms[at : at + 8]) for at in range(0, len(terms), 8)), "Subject To"]
    for j in members:
        held = [f"+ z_{j}_{x}" for k, x in wanted if k == j]
        lines += [f" one_{j}:", *("  " + " ".join(held[at : at + 12]) for at in range(0, len(held), 12)), "  <= 1"]
    for good, units in enumerate(supply):
        held = [f"+ {bundles[x][good]} z_{j}_{x}" for j, x in wanted if bundles[x][good]]
        lines += [f" good_{good}:", *("  " + " ".join(held[at : at + 8]) for at in range(0, len(held), 8)), f"  <= {units}"]
    return "\n".join([*lines, "Binary", *(f" z_{j}_{x}" for j, x in wanted), "End", ""])


def timed(words, folder):
    """The text, the processor seconds and the peak memory in MiB of one run."""
    ran = ["/usr/bin/time", "-f", "%U %S %M", "-o", "figures", *map(str, words)]
    done = subprocess.run(ran, cwd=folder, capture_output=True, text=True, check=False)
    user, system, kilobytes = (folder / "figures").read_text().split()[-3:]
    return done.stdout, float(user) + float(system), int(kilobytes) / 1024


def spent(words, folder):
    """The processor seconds of a short run, the mean of fifty: the system's words tell hundredths of one alone."""
    begun = resource.getrusage(resource.RUSAGE_CHILDREN)
    for _ in range(50):
        subprocess.run(list(map(str, words)), cwd=folder, stdout=subprocess.DEVNULL, check=False)
    ended = resource.getrusage(resource.RUSAGE_CHILDREN)
    return (ended.ru_utime - begun.ru_utime + ended.ru_stime - begun.ru_stime) / 50


def commit():
    """The commit of the tree, and whether files of its crates differ from it."""
    said = [subprocess.run(["git", *words], cwd=HERE, capture_output=True, text=True, check=False).stdout.strip() for words in GIT]
    return said[0] + (" and changes in crates" if said[1] else "")


def only_workers(program, folder):
    """Prints the seconds by the clock of each auction with one worker and with four."""
    print(f"program {program} of commit {commit()}; {os.cpu_count()} processors, load average {os.getloadavg()[0]:.2f}")
    spin = folder / "processors"
    subprocess.run(["rustc", "-O", "--edition", "2021", "-o", str(spin), str(HERE / "processors.rs")], check=True)
    ceiling = subprocess.run([spin], capture_output=True, text=True, check=True).stdout.strip()
    print(f"four threads that only make passes over numbers: {ceiling} times what one does")
    print(f"{'auction':34} {'1 worker ms':>11} {'4 workers ms':>12} {'faster':>6} {'load':>6}")
    for title, supply, tables in rows():
        (folder / "auction.toml").write_text(auction_file(supply))
        (folder / "values.toml").write_text(values_file(tables))
        best = {1: float("inf"), 4: float("inf")}
        for _ in range(15):
            for count in best:
                begun = time.perf_counter()
                ran = [program, "trial", "auction.toml", "values.toml", "--workers", str(count)]
                subprocess.run(ran, cwd=folder, stdout=subprocess.DEVNULL, check=True)
                best[count] = min(best[count], time.perf_counter() - begun)
        print(f"{title:34} {best[1] * 1000:11.1f} {best[4] * 1000:12.1f} {best[1] / best[4]:6.2f} {os.getloadavg()[0]:6.2f}")


def by_the_clock(words, folder):
    """The least seconds of five runs."""
    seconds = []
    for _ in range(5):
        begun = time.perf_counter()
        subprocess.run(list(map(str, words)), cwd=folder, stdout=subprocess.DEVNULL, check=False)
        seconds.append(time.perf_counter() - begun)
    return min(seconds)


def least(words_of, folder):
    """Of each kind of run the text, the least seconds and that run's memory. One that takes over five seconds is run once."""
    best = {}
    for _ in range(5):
        for kind, words in words_of.items():
            if kind in best and best[kind][1] > 5:
                continue
            text, seconds, memory = timed(words, folder)
            if kind not in best or seconds < best[kind][1]:
                best[kind] = (text, seconds, memory)
    return best


def solve(supply, tables, folder):
    """The processor seconds of glpsol and cbc for the programs of all bidders, and of all but each."""
    everyone = list(range(BIDDERS))
    figures = []
    for solver in ("glpsol", "cbc"):
        if not shutil.which(solver):
            figures.append("not there")
            continue
        seconds = 0
        for left_out in [None, *everyone]:
            (folder / "program.lp").write_text(integer_program(supply, tables, [j for j in everyone if j != left_out]))
            words = ["glpsol", "--lp", "program.lp"] if solver == "glpsol" else ["cbc", "program.lp", "solve", "quit"]
            seconds += timed(words, folder)[1]
        figures.append(f"{seconds:.2f} s")
    return figures


def word_behind(flag):
    """The word after a flag, if there is one that is no flag."""
    behind = sys.argv[sys.argv.index(flag) + 1 :][:1] if flag in sys.argv else []
    return behind[0] if behind and not behind[0].startswith("--") else None


def makes(plain, folder):
    """Prints the processor time of a make in a process of many, or the time by the clock where bench/makes is proved and run."""
    program = word_behind("--makes")
    if program:
        ours = min(timed([Path(program).resolve()], folder)[1] for _ in range(5)) / MAKES
        theirs = min(timed([plain, "make", "7", MAKES], folder)[1] for _ in range(5)) / MAKES
    else:
        said = subprocess.run([HERE.parent / "run", "makes"], capture_output=True, text=True, check=True).stdout
        ours = int(said.split()[-2]) / 1000 / MAKES
        theirs = by_the_clock([plain, "make", "7", MAKES], folder) / MAKES
    print(f"{'make 7, one of many':34} {ours * 1000:8.3f} {theirs * 1000:8.3f} {ours / theirs:6.2f}")


def main():
    program = Path(word_behind("--program") or PROGRAM).resolve()
    if "--no-build" not in sys.argv and program == PROGRAM:
        subprocess.run(["rt", "run", "--", "make", "7"], cwd=CRATE, check=True, capture_output=True)
    with tempfile.TemporaryDirectory() as name:
        folder = Path(name)
        if "--workers" in sys.argv:
            only_workers(program, folder)
            return
        plain = folder / "reference"
        subprocess.run(["rustc", "-O", "--edition", "2021", "-o", str(plain), str(HERE / "reference.rs")], check=True)
        print(
            f"{'auction':34} {'ours ms':>8} {'plain ms':>8} {'times':>6} {'MiB':>6} {'plain MiB':>9} {'rounds':>7} "
            f"{'1 worker ms':>11} {'4 workers ms':>12} {'faster':>6}"
        )
        both = {"ours": [program, "make", "7"], "plain": [plain, "make", "7"]}
        best = least(both, folder)
        same = best["ours"][0].split()[:12] == best["plain"][0].split()[:12]
        best = {kind: (best[kind][0], spent(words, folder), best[kind][2]) for kind, words in both.items()}
        report("make 7, a process", best, workers([program, "make", "7"], folder), same)
        if "--makes" in sys.argv:
            makes(plain, folder)
        for title, supply, tables in rows():
            (folder / "auction.toml").write_text(auction_file(supply))
            (folder / "values.toml").write_text(values_file(tables))
            (folder / "numbers").write_text(numbers_file(supply, tables))
            ours = [program, "trial", "auction.toml", "values.toml"]
            best = least({"ours": ours, "plain": [plain, "trial", "numbers"]}, folder)
            report(title, best, workers(ours, folder), same=best["ours"][0] == best["plain"][0])
            if "--programs" in sys.argv:
                glpsol, cbc = solve(supply, tables, folder)
                print(f"    as {BIDDERS + 1} integer programs: glpsol {glpsol}, cbc {cbc}")


def workers(words, folder):
    """The seconds by the clock with one worker and with four."""
    return [by_the_clock([*words, "--workers", count], folder) for count in (1, 4)]


def report(title, best, workers, same):
    """Prints a row."""
    ours, plain = best["ours"], best["plain"]
    one, four = workers
    rounds = next((line.split()[3] for line in plain[0].splitlines() if line.startswith("clock 0 ")), "")
    print(
        f"{title:34} {ours[1] * 1000:8.1f} {plain[1] * 1000:8.1f} {ours[1] / max(plain[1], 1e-3):6.2f} {ours[2]:6.0f} {plain[2]:9.0f} {rounds:>7} "
        f"{one * 1000:11.1f} {four * 1000:12.1f} {one / four:6.2f}{'' if same else '  TEXTS DIFFER'}"
    )


if __name__ == "__main__":
    main()
