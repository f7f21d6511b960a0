"""Three bidders that take their part in `examples/two-licences` one after another, in one thread, and go on after whatever the house does."""
import itertools
import socket
import struct

HELLO, LOOK, REPORT, QUIT = 1, 2, 3, 4
WELCOME, PRICE, TAKEN, AGAIN, REFUSED = 17, 18, 19, 20, 21
DISK_FAILED, NO_MEMORY = 10, 11
MARGINALS = {1: [10, 4], 2: [8, 3], 3: [6, 1]}
TOKENS = {1: b"reed-5102", 2: b"mole-3380", 3: b"kite-9046"}
CLOCKS = range(4)
# How often a frame is sent again that was answered by a fault, and a link dialled again that was hung up.
TRIES = 3


class HungUp(Exception):
    pass


class Link:
    def __init__(self, port):
        try:
            self.link = socket.create_connection(("127.0.0.1", port), timeout=1)
        except OSError as error:
            raise HungUp from error

    def take(self, count):
        taken = b""
        while len(taken) < count:
            try:
                piece = self.link.recv(count - len(taken))
            except OSError as error:
                raise HungUp from error
            if not piece:
                raise HungUp
            taken += piece
        return taken

    def ask(self, kind, payload=b""):
        try:
            self.link.sendall(struct.pack(">IB", len(payload), kind) + payload)
        except OSError as error:
            raise HungUp from error
        length, reply = struct.unpack(">IB", self.take(5))
        return reply, self.take(length)


class Bidder:
    """A bidder with one session at a time, which notes what the house acknowledged."""

    def __init__(self, number, port):
        self.number = number
        self.port = port
        self.link = None
        self.acknowledged = []
        self.codes = set()

    def asked(self, kind, payload):
        """The reply to a frame, over a new link where the old one is gone, and again where it was refused out of memory or a disk's fault."""
        for _ in range(TRIES):
            try:
                if self.link is None:
                    self.link = Link(self.port)
                    if self.link.ask(HELLO, bytes([self.number]) + TOKENS[self.number])[0] != WELCOME:
                        raise HungUp
                reply, answer = self.link.ask(kind, payload)
            except HungUp:
                self.link = None
                continue
            if reply != REFUSED or answer[0] not in (DISK_FAILED, NO_MEMORY):
                return reply, answer
            self.codes.add(answer[0])
        raise HungUp

    def look(self, clock):
        reply, answer = self.asked(LOOK, bytes([clock]))
        assert reply == PRICE, (reply, answer)
        _, number, phase, _, goods = struct.unpack(">BIBBB", answer[:8])
        return number, phase, struct.unpack(f">{goods}I", answer[8:])[0]

    def demand(self, price):
        left = list(itertools.accumulate((worth - price for worth in MARGINALS[self.number]), initial=0))
        return [units for units, surplus in enumerate(left) if surplus == max(left)]

    def report(self, clock):
        """Reports once in the present round of a clock, and tells whether it is still running."""
        number, phase, price = self.look(clock)
        if phase != 0:
            return False
        units = self.demand(price)
        head = struct.pack(">BIBH", clock, number, 1, len(units))
        reply, answer = self.asked(REPORT, head + struct.pack(f">{len(units)}H", *units))
        assert reply in (TAKEN, AGAIN), (reply, answer)
        self.acknowledged.append((clock, self.number, number))
        return True

    def leave(self):
        """Quits, and takes the other sessions that its door waits for."""
        for _ in range(TRIES):
            try:
                self.link = self.link or Link(self.port)
                self.link.ask(QUIT)
            except HungUp:
                pass
            self.link = None


def play(port):
    """All clocks to their ends, or as far as the house goes. Returns what was acknowledged, and the codes of the refusals."""
    bidders = [Bidder(number, port) for number in MARGINALS]
    try:
        for clock in CLOCKS:
            members = [bidder for bidder in bidders if bidder.number != clock]
            while all([bidder.report(clock) for bidder in members]):
                pass
    except HungUp:
        pass
    for bidder in bidders:
        bidder.leave()
    return [entry for bidder in bidders for entry in bidder.acknowledged], set().union(*(bidder.codes for bidder in bidders))
