#!/usr/bin/env python3
"""A million looks through one session of a real house: its resident memory before and after, and the looks a second.

    looks.py PROGRAM [LOOKS]

PROGRAM is the built house_main. The looks are pipelined: a thread sends them in pieces of 10,000 while the answers are read. Each answer is compared
with the first, since nobody reports meanwhile. It ends with status 1 where an answer differs or memory grew by more than 1 MiB.
"""
import struct
import subprocess
import sys
import tempfile
import threading
import time
from pathlib import Path

from load import LOOK, Session, write_auction

PORT = 27_324
PIECE = 10_000


def resident(house):
    """In KiB."""
    return int(Path(f"/proc/{house.pid}/status").read_text().split("VmRSS:")[1].split()[0])


def look_all(session, count):
    """Sends so many looks at clock 0, and answers whether all answers are those of the first one."""
    look = struct.pack(">IBB", 1, LOOK, 0)
    session.link.sendall(look)
    length = struct.unpack(">I", session.take(4))[0]
    first = struct.pack(">I", length) + session.take(1 + length)

    def send():
        for at in range(0, count, PIECE):
            session.link.sendall(look * min(PIECE, count - at))

    sender = threading.Thread(target=send)
    sender.start()
    same = True
    for at in range(0, count, PIECE):
        answers = min(PIECE, count - at)
        same = session.take(answers * len(first)) == first * answers and same
    sender.join()
    return same


def main():
    program = str(Path(sys.argv[1]).resolve())
    count = int(sys.argv[2]) if len(sys.argv) > 2 else 1_000_000
    with tempfile.TemporaryDirectory() as name:
        folder = Path(name)
        (folder / "journals").mkdir()
        write_auction(folder / "auction.toml")
        words = [program, "serve", "auction.toml", "journals", f"127.0.0.1:{PORT}", "--doors", "4"]
        house = subprocess.Popen(words, cwd=folder, stdout=subprocess.DEVNULL)
        session = Session(PORT, 1, wait=10.0)
        before = resident(house)
        begun = time.perf_counter()
        same = look_all(session, count)
        seconds = time.perf_counter() - begun
        after = resident(house)
        session.quit()
        house.kill()
        house.wait()
    print(f"looks {count} a second {count / seconds:.0f} resident before {before} KiB after {after} KiB, answers {'the same' if same else 'DIFFER'}")
    sys.exit(0 if same and after - before <= 1_024 else 1)


if __name__ == "__main__":
    main()
