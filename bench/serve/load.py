"""Bidders for the benchmarks of `serve`: an auction file, sessions over TCP, and journals read back, all by docs/FORMATS.md."""
import hashlib
import socket
import struct
import time
from pathlib import Path

BIDDERS = 12
SUPPLY = 12
CEILING = 10_000
HELLO, LOOK, REPORT, QUIT = 1, 2, 3, 4
WELCOME, PRICE, TAKEN, AGAIN, REFUSED, BYE = 17, 18, 19, 20, 21, 22
EARLY = 6
DISK_FAILED = 10


def token_of(bidder):
    return f"token-{bidder}"


def write_auction(path, supply=(SUPPLY,)):
    lines = ["version = 1", f"ceiling = {CEILING}"]
    for good, units in enumerate(supply):
        lines += ["[[goods]]", f'name = "licence-{good}"', f"supply = {units}"]
    for bidder in range(1, BIDDERS + 1):
        digest = hashlib.sha256(token_of(bidder).encode()).hexdigest()
        lines += ["[[bidders]]", f'name = "bidder-{bidder}"', f'token = "{digest}"']
    path.write_text("\n".join(lines) + "\n")


def report_payload(number):
    """A report of the one bundle of all units, which keeps a clock running for some thousand rounds."""
    return struct.pack(">IBHH", number, 1, 1, SUPPLY)


class Session:
    def __init__(self, port, bidder, wait=0.0):
        end = time.monotonic() + wait
        while True:
            try:
                self.link = socket.create_connection(("127.0.0.1", port))
                break
            except OSError:
                if time.monotonic() >= end:
                    raise
                time.sleep(0.002)
        self.link.setsockopt(socket.IPPROTO_TCP, socket.TCP_NODELAY, 1)
        self.kept = b""
        kind, _ = self.ask(HELLO, bytes([bidder]) + token_of(bidder).encode())
        assert kind == WELCOME, kind

    def take(self, count):
        while len(self.kept) < count:
            piece = self.link.recv(65_536)
            if not piece:
                raise ConnectionError("hung up")
            self.kept += piece
        taken, self.kept = self.kept[:count], self.kept[count:]
        return taken

    def ask(self, kind, payload=b""):
        self.link.sendall(struct.pack(">IB", len(payload), kind) + payload)
        length, reply = struct.unpack(">IB", self.take(5))
        return reply, self.take(length)

    def round_of(self, clock):
        kind, answer = self.ask(LOOK, bytes([clock]))
        assert kind == PRICE, (kind, answer)
        return struct.unpack(">I", answer[1:5])[0]

    def report(self, clock, number):
        return self.ask(REPORT, bytes([clock]) + report_payload(number))

    def quit(self):
        self.ask(QUIT)
        self.link.close()


def entries(path):
    """The bidder and the round of each record of a journal of version 1."""
    data = path.read_bytes()
    if len(data) < 42 or data[0] != 0xA5:
        return []
    found, gate = [], 41
    while data[gate] == 0xA5:
        length = struct.unpack(">I", data[gate + 1 : gate + 5])[0]
        bidder, number = struct.unpack(">BI", data[gate + 5 : gate + 10])
        found.append((bidder, number))
        gate += 5 + length
    return found


def journal(folder, clock):
    return Path(folder) / f"clock-{clock:02}.ahj"
