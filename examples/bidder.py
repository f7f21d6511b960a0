#!/usr/bin/env python3
"""A bidder, with Python's standard library alone, written from docs/FORMATS.md.

    bidder.py HOST PORT BIDDER TOKEN MARGINALS..
    bidder.py HOST PORT BIDDER TOKEN --ask

MARGINALS has the worth of the first, second, .. unit of one good, joined by commas and never rising, and there is one such word for each
good: `10,4` are a first unit worth 10 and a second one worth 4 more. The bidder reports all bundles that it likes best at the prices of
each round, of each clock but its own, until all have ended or halted. Then it prints how each clock ended, and quits. With --ask a person
says in each round what is reported. Where the bidder cannot go on it says why in one sentence; the status is 2 for its words, and 1 for
all else.
"""
import argparse
import itertools
import os
import socket
import struct
import sys
import time

HELLO, LOOK, REPORT, QUIT = 1, 2, 3, 4
WELCOME, PRICE, TAKEN, AGAIN, REFUSED, BYE = 17, 18, 19, 20, 21, 22
RUNNING, ENDED, HALTED = 0, 1, 2
BAD_DEMAND, CONFLICT, OVER = 5, 7, 8
GREATEST_QUANTITY, LONGEST_TOKEN = 65_535, 64
SHORTEST_PAUSE, LONGEST_PAUSE = 0.000_05, 0.005
REFUSALS = {
    1: "no hello came before; the program has to send one",
    2: "bidder {value} has another token, or there is no bidder {value}; check both and start again",
    3: "there is no clock {value}; the program may look at fewer",
    4: "clock {value} runs without this bidder; the program has to leave it out",
    6: "round {value} still runs; the program has to look again",
    7: "this bidder has another report in round {value} already; that one stands",
    8: "the clock is over since round {value}; look at how it ended",
    9: "the journal is full, and would have {value} bytes with this report; tell the auctioneer",
    10: "the disk of the house failed, so the report is in doubt; start again, and tell the auctioneer",
    11: "the house has no memory left; start again later",
    12: "there is no round 0; the program has to count from 1",
    13: "the session has a bidder already; the program may send one hello",
    14: "a frame of {value} bytes is too long; report fewer bundles",
    15: "there is no frame of kind {value}; the program has to send another",
    16: "a frame of kind {value} has another form; the program has to keep to it",
}
BAD_DEMANDS = {
    1: "a report has a bundle at least; one of nothing is `0` of each good",
    2: "bundle {place} of the report is not above the one before it; the program has to sort them",
    3: "bundle {place} of the report has more of a good than there is; want less of it",
    4: "the bundles have quantities of {value} goods; the auction has another number",
}
EXPLAINED = "Answer with all bundles that you like best, as in `2 1 0; 1 1 1`: quantities of each good, a semicolon between bundles."


class Refused(Exception):
    """What the house refused, in words."""

    def __init__(self, code, detail, value):
        meaning = (BAD_DEMANDS.get(detail) if code == BAD_DEMAND else REFUSALS.get(code)) or "docs/FORMATS.md does not have it"
        super().__init__(f"refused with code {code} detail {detail} value {value}: {meaning.format(value=value, place=value + 1)}")
        self.code = code


class House:
    """A session with a house: each frame that is sent has one reply."""

    def __init__(self, host, port):
        self.link = socket.create_connection((host, port))
        self.link.setsockopt(socket.IPPROTO_TCP, socket.TCP_NODELAY, 1)

    def take(self, count):
        taken = b""
        while len(taken) < count:
            piece = self.link.recv(count - len(taken))
            if not piece:
                sys.exit("the house hung up; start again when it is back")
            taken += piece
        return taken

    def ask(self, kind, payload, *replies):
        """The payload of the reply, which has to be of one of these kinds."""
        self.link.sendall(struct.pack(">IB", len(payload), kind) + payload)
        length, reply = struct.unpack(">IB", self.take(5))
        answer = self.take(length)
        if reply == REFUSED:
            raise Refused(*struct.unpack(">BBI", answer))
        if reply not in replies:
            sys.exit(f"a frame of kind {reply} came where it answers nothing; this is no house, or one of another format")
        return answer

    def look(self, clock):
        """The round, the phase, the good of a halted clock, and the prices."""
        answer = self.ask(LOOK, bytes([clock]), PRICE)
        _, number, phase, good, goods = struct.unpack(">BIBBB", answer[:8])
        return number, phase, good, struct.unpack(f">{goods}I", answer[8:])

    def report(self, clock, number, bundles):
        quantities = [quantity for bundle in bundles for quantity in bundle]
        head = struct.pack(">BIBH", clock, number, len(bundles[0]), len(bundles))
        self.ask(REPORT, head + struct.pack(f">{len(quantities)}H", *quantities), TAKEN, AGAIN)


def best_quantities(marginals, price):
    """All quantities of one good that leave the most, at a price a unit."""
    surplus = list(itertools.accumulate((worth - price for worth in marginals), initial=0))
    return [quantity for quantity, left in enumerate(surplus) if left == max(surplus)]


class Program:
    """Reports all bundles that leave the most. They come in ascending order, compared from the first good on."""

    def __init__(self, marginals):
        self.marginals = marginals

    def report(self, house, clock, number, prices):
        house.report(clock, number, list(itertools.product(*map(best_quantities, self.marginals, prices))))


def bundle_of(words, goods):
    """The bundle that these words say."""
    for word in words:
        if not (word.isascii() and word.isdigit() and int(word) <= GREATEST_QUANTITY):
            raise ValueError(f"`{word}` is no quantity from 0 to {GREATEST_QUANTITY}")
    if len(words) != goods:
        raise ValueError(f"`{' '.join(words)}` has {len(words)} quantities, and a bundle has {goods}")
    return tuple(int(word) for word in words)


class Person:
    """Reports what a person answers."""

    def __init__(self):
        print(EXPLAINED)

    def answer(self, goods):
        print("> ", end="", flush=True)
        line = sys.stdin.readline()
        if not line:
            sys.exit("the answers have come to their end")
        return sorted({bundle_of(bundle.split(), goods) for bundle in line.split(";")})

    def report(self, house, clock, number, prices):
        print("clock", clock, "round", number, "prices", *prices)
        while True:
            try:
                return house.report(clock, number, self.answer(len(prices)))
            except ValueError as fault:
                print(fault)
            except Refused as refused:
                if refused.code not in (BAD_DEMAND, CONFLICT, OVER):
                    raise
                print(refused)
                if refused.code != BAD_DEMAND:
                    return None


def play(house, bidder, clocks, wants):
    """Looks at all clocks but the bidder's own, and reports in each new round, until all have ended or halted."""
    open_clocks = [clock for clock in range(clocks) if clock != bidder]
    reported, pause = {}, SHORTEST_PAUSE
    while open_clocks:
        news = False
        for clock in list(open_clocks):
            number, phase, good, prices = house.look(clock)
            if phase == RUNNING and reported.get(clock) == number:
                continue
            news = True
            if phase == RUNNING:
                wants.report(house, clock, number, prices)
                reported[clock] = number
                continue
            end = ("ended",) if phase == ENDED else ("halted", good)
            print("clock", clock, "round", number, *end, "prices", *prices, flush=True)
            open_clocks.remove(clock)
        if news:
            pause = SHORTEST_PAUSE
        else:
            time.sleep(pause)
            pause = min(2 * pause, LONGEST_PAUSE)


class Words(argparse.ArgumentParser):
    def error(self, message):
        self.exit(2, f"{self.prog}: {message}; --help tells what they are\n")


def number_within(least, most):
    def number_of(word):
        if not (word.isascii() and word.isdigit() and least <= int(word) <= most):
            raise argparse.ArgumentTypeError(f"{word!r} is no number from {least} to {most}")
        return int(word)

    return number_of


def worths(word):
    units = word.split(",")
    if not all(worth.isascii() and worth.isdigit() for worth in units):
        raise argparse.ArgumentTypeError(f"{word!r} has to be numbers joined by commas")
    units = [int(worth) for worth in units]
    if units != sorted(units, reverse=True):
        raise argparse.ArgumentTypeError(f"the worths {word!r} rise")
    return units


def token_of(word):
    token = os.fsencode(word)
    if not 1 <= len(token) <= LONGEST_TOKEN:
        raise argparse.ArgumentTypeError(f"a token has 1 to {LONGEST_TOKEN} bytes")
    return token


def given_words():
    words = Words(description=__doc__, formatter_class=argparse.RawDescriptionHelpFormatter)
    words.add_argument("host")
    words.add_argument("port", type=number_within(1, 65_535))
    words.add_argument("bidder", type=number_within(1, 12))
    words.add_argument("token", type=token_of)
    words.add_argument("marginals", type=worths, nargs="*")
    words.add_argument("--ask", action="store_true")
    given = words.parse_args()
    if given.ask == bool(given.marginals):
        words.error("there has to be a word of marginals for each good, or --ask")
    return given


def bid(given):
    house = House(given.host, given.port)
    goods, clocks = house.ask(HELLO, bytes([given.bidder]) + given.token, WELCOME)
    if not given.ask and goods != len(given.marginals):
        sys.exit(f"the auction has {goods} goods, and there are marginals of {len(given.marginals)}")
    play(house, given.bidder, clocks, Person() if given.ask else Program(given.marginals))
    house.ask(QUIT, b"", BYE)


def main():
    given = given_words()
    try:
        bid(given)
    except Refused as refused:
        sys.exit(str(refused))
    except OSError as fault:
        sys.exit(f"{given.host}:{given.port}: {fault.strerror or fault}")
    except KeyboardInterrupt:
        sys.exit("stopped; what was taken stays, and the same words go on from there")


if __name__ == "__main__":
    main()
