#!/usr/bin/env python3
"""Shows examples/auction.html in a headless Chromium, takes pictures that are to be looked at, and checks what the page says.

    look.py FOLDER [--chromium PROGRAM] [--keep]

FOLDER gets the pictures: the two whole examples, light and dark, as on a phone and on paper; files that are dropped; an auction with
reserves; a house that runs, whose journals grow while the page looks; a damaged journal; and clocks of 9,700 and 60,001 rounds, of which it
prints how long the page takes to read and draw them. With --keep the pictures of docs/pictures are made anew. It ends with status 1 where
the page does not say what it should, or is wider than its window.
"""
import argparse
import contextlib
import functools
import http.server
import pathlib
import shutil
import subprocess
import sys
import tempfile
import threading

TOP = pathlib.Path(__file__).resolve().parents[2]
sys.path.insert(0, str(TOP / "bench" / "settle"))

from chromium import Chromium  # noqa: E402
from making import Auction, entry, journal, write_auction  # noqa: E402

EXAMPLES, PICTURES = TOP / "examples", TOP / "docs" / "pictures"
WIDE, NARROW = 1000, 390
SPACE = 16_384
RECORD_HEAD = 5


class Quiet(http.server.SimpleHTTPRequestHandler):
    def log_message(self, *_):
        pass


@contextlib.contextmanager
def served():
    """A folder with the page, and its address."""
    with tempfile.TemporaryDirectory() as name:
        shutil.copy(EXAMPLES / "auction.html", name)
        server = http.server.ThreadingHTTPServer(("127.0.0.1", 0), functools.partial(Quiet, directory=name))
        threading.Thread(target=server.serve_forever, daemon=True).start()
        yield pathlib.Path(name), f"http://127.0.0.1:{server.server_port}/auction.html"
        server.shutdown()


class Looks:
    """The pictures, and what the page said otherwise than it should."""

    def __init__(self, browser, folder):
        self.browser, self.folder, self.wrong = browser, folder, []

    def expect(self, name, true, what):
        if not true:
            self.wrong.append(f"{name}: {what}")
            print(f"{name}: {what}")

    def look(self, name, address, *words, width=WIDE, dark=False, before="true"):
        """Opens the page, takes a picture once it says the first of these words, and checks that it says them all."""
        self.browser.show(address, width, dark, phone=width == NARROW)
        self.browser.wait(f"document.body && document.body.innerText.includes({words[0]!r})")
        self.browser.value(before)
        self.take(name, *words)

    def take(self, name, *words):
        text = self.browser.value("document.body.innerText")
        for word in words:
            self.expect(name, word in text, f"does not say {word!r}")
        self.expect(name, self.browser.value("document.documentElement.scrollWidth <= innerWidth"), "is wider than its window")
        self.browser.picture(self.folder / f"{name}.png")


def copied(folder, example, auction="auction.toml"):
    """An example's auction file and journals in a folder; those of another file are made."""
    shutil.copy(EXAMPLES / example / auction, folder / "auction.toml")
    if auction == "auction.toml":
        for path in (EXAMPLES / example).glob("clock-*.ahj"):
            shutil.copy(path, folder)
    else:
        subprocess.run([sys.executable, EXAMPLES / example / "journals.py", folder / "auction.toml", folder], check=True)


def records(file):
    """The offsets of the gates of a journal of version 1 that ends with a closed gate."""
    gates = [41]
    while gates[-1] < len(file) - 1:
        gates.append(gates[-1] + RECORD_HEAD + int.from_bytes(file[gates[-1] + 1 : gates[-1] + RECORD_HEAD], "big"))
    return gates


def front(file, count):
    """The first so many records, with room laid after them, as a house does."""
    gates = records(file)
    return (file[: gates[min(count, len(gates) - 1)]] + b"\0").ljust(SPACE, b"\0")


def look_at_examples(looks, folder, address):
    copied(folder, "two-licences")
    looks.look("two-licences", address, "Outcome", "ended after 6 steps", "ada", "licence")
    looks.look("two-licences-dark", address, "Outcome", dark=True)
    looks.look("two-licences-phone", address, "Outcome", width=NARROW)


def look_at_spectrum(looks, folder, address):
    copied(folder, "spectrum")
    shutil.copy(EXAMPLES / "spectrum" / "outcome.txt", folder)
    looks.look("spectrum", address, "Outcome", "172", "equal", "ended after 62 steps")
    looks.browser.paper(looks.folder / "spectrum.pdf")
    looks.look("spectrum-dark", address, "Outcome", dark=True)
    looks.look("spectrum-phone", address, "Outcome", width=NARROW)
    looks.look("spectrum-phone-dark", address, "Outcome", width=NARROW, dark=True)
    opened = "document.querySelectorAll('details').forEach((box) => { box.open = true; }); new Promise((done) => setTimeout(done, 500))"
    looks.look("spectrum-open", address, "Outcome", "2 1 1 or 3 1 1", before=opened)
    looks.look("spectrum-open-phone", address, "Outcome", "2 1 1 or 3 1 1", width=NARROW, before=opened)
    (folder / "outcome.txt").write_text((folder / "outcome.txt").read_text().replace("pays 58", "pays 57"))
    looks.look("spectrum-other-outcome", address, "Outcome", "line 4", "pays 57")


def look_at_chosen_files(looks, folder, address):
    """A whole folder that is dropped: of its three files that end in .toml one is the journals' own."""
    shutil.copytree(EXAMPLES / "spectrum", folder / "given")
    names = sorted((path.name for path in (folder / "given").iterdir()), reverse=True)
    files = f"{names}.map(async (name) => new File([await (await fetch('given/' + name)).arrayBuffer()], name))"
    looks.browser.show(address, WIDE)
    looks.browser.wait("document.body && document.body.innerText.includes('No auction')")
    looks.browser.value(f"Promise.all({files}).then(keep)")
    looks.take("chosen", "Outcome", "172", "equal")


def look_at_reserves(looks, folder, address):
    copied(folder, "spectrum", "reserved.toml")
    looks.look("reserved", address, "Outcome", "184", "reserve")


def look_at_a_house(looks, folder, address):
    """Journals that stop within a round, and grow while the page looks: their files keep their length."""
    shutil.copy(EXAMPLES / "spectrum" / "auction.toml", folder)
    whole = {path.name: path.read_bytes() for path in sorted((EXAMPLES / "spectrum").glob("clock-*.ahj"))}

    def grow(count):
        for name, file in whole.items():
            (folder / "next").write_bytes(front(file, count))
            (folder / "next").rename(folder / name)

    grow(82)
    looks.look("house", address, "is open", "round 21", "missing: island-radio, upland-link")
    grow(121)
    looks.browser.wait("document.body.innerText.includes('round 31')")
    looks.take("house-later", "round 31")
    grow(10**6)
    looks.browser.wait("document.body.innerText.includes('Outcome')")
    looks.take("house-ended", "172")


def look_at_damage(looks, folder, address):
    copied(folder, "spectrum")
    path = folder / "clock-02.ahj"
    file = bytearray(path.read_bytes())
    file[records(file)[99] + 1] ^= 0x40
    path.write_bytes(file)
    looks.look("damaged", address, "refused", "clock 2", "record 100", "damaged")
    looks.look("damaged-phone-dark", address, "refused", width=NARROW, dark=True)


def long_clock(folder, goods, most, members):
    """All members want the one unit of the first good up to a price, then that of the second, and so on; then the first member has all."""
    write_auction(folder / "auction.toml", None, (1,) * goods, members, 1, 10_000)
    auction = Auction(folder / "auction.toml")
    wants = [[tuple(int(k == good) for k in range(goods))] for good in range(goods) for _ in range(most)]
    rounds = [(number, wanted, wanted) for number, wanted in enumerate(wants, 1)]
    rounds.append((len(wants) + 1, [(1,) * goods], [(0,) * goods]))
    entries = [entry(b, number, first if b == 1 else rest) for number, first, rest in rounds for b in range(1, members + 1)]
    (folder / "clock-00.ahj").write_bytes(journal(auction, 0, entries))
    for clock in range(1, members + 1):
        ends = [entry(b, 1, [(0,) * goods]) for b in range(1, members + 1) if b != clock]
        (folder / f"clock-{clock:02}.ahj").write_bytes(journal(auction, clock, ends))


def look_at_long_clocks(looks, folder, address):
    again = "(() => { const began = performance.now(); readAnew(); return performance.now() - began; })()"
    for goods, most, members, rounds in ((1, 9_699, 12, "9,700"), (6, 10_000, 2, "60,001")):
        long_clock(folder, goods, most, members)
        looks.look(f"long-{rounds.replace(',', '')}", address, "Outcome", f"ended after {goods * most} steps")
        taken = min(looks.browser.value(again) for _ in range(3))
        size = (folder / "clock-00.ahj").stat().st_size
        print(f"a clock of {rounds} rounds, {members} bidders, a journal of {size} bytes: read and drawn in {taken:.0f} ms")


def keep(looks, folder, address):
    """The pictures of the documents: the outcome and the clock of all bidders."""
    PICTURES.mkdir(exist_ok=True)
    copied(folder, "spectrum")
    for name, width, dark in (("spectrum.png", WIDE, False), ("spectrum-phone.png", NARROW, True)):
        looks.browser.show(address, width, dark, phone=width == NARROW)
        looks.browser.wait("document.body && document.body.innerText.includes('Outcome')")
        height = looks.browser.value("document.querySelector('.clock').getBoundingClientRect().bottom + scrollY + 8")
        looks.browser.picture(PICTURES / name, height)
        print(f"docs/pictures/{name}: {(PICTURES / name).stat().st_size} bytes")


SCENES = [look_at_examples, look_at_spectrum, look_at_chosen_files, look_at_reserves, look_at_a_house, look_at_damage, look_at_long_clocks]


def main():
    words = argparse.ArgumentParser(description=__doc__, formatter_class=argparse.RawDescriptionHelpFormatter)
    words.add_argument("folder", type=pathlib.Path)
    words.add_argument("--chromium", default="chromium")
    words.add_argument("--keep", action="store_true")
    given = words.parse_args()
    given.folder.mkdir(parents=True, exist_ok=True)
    with Chromium(given.chromium) as browser:
        looks = Looks(browser, given.folder)
        for scene in SCENES:
            with served() as (folder, address):
                scene(looks, folder, address)
        if given.keep:
            with served() as (folder, address):
                keep(looks, folder, address)
    print(f"pictures {len(list(given.folder.glob('*.png')))}, wrong {len(looks.wrong)}")
    sys.exit(1 if looks.wrong else 0)


if __name__ == "__main__":
    main()
