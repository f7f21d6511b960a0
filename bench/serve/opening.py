#!/usr/bin/env python3
"""How long a house takes to open over the thirteen clocks of the largest terms, and what memory it has then.

    opening.py PROGRAM [RUNS]

PROGRAM is the built house_main. The terms are twelve bidders, a ceiling of 10,000 and six goods whose box has 2,048 bundles. The time goes from the start
of the process, the reading of the auction file included, to the first answered hello, and beside it stands the processor's time when all doors are
open, which tells more where the machine is busy; memory is looked at then. A house is opened over an empty folder, and again over the journals that
were made then, with one door and with thirteen. Of each the least and the greatest of the runs is printed.
"""
import subprocess
import sys
import tempfile
import time
from pathlib import Path

from load import BIDDERS, Session, write_auction

PORT = 27_323
LARGEST = (3, 3, 3, 3, 3, 1)


def opened(program, folder, doors):
    """The seconds to the first answered hello, those of the processor, and the resident memory, its peak, and the virtual memory in MiB."""
    words = [program, "serve", "auction.toml", "journals", f"127.0.0.1:{PORT}", "--doors", str(doors)]
    begun = time.perf_counter()
    house = subprocess.Popen(words, cwd=folder, stdout=subprocess.DEVNULL)
    session = Session(PORT, 1, wait=10.0)
    seconds = time.perf_counter() - begun
    # Until each door has its thread.
    while len(list(Path(f"/proc/{house.pid}/task").iterdir())) < doors:
        time.sleep(0.01)
    status = Path(f"/proc/{house.pid}/status").read_text()
    spent = sum(int((task / "schedstat").read_text().split()[0]) for task in Path(f"/proc/{house.pid}/task").iterdir()) / 1e9
    session.link.close()
    house.kill()
    house.wait()
    return (seconds, spent, *(int(status.split(f"{key}:")[1].split()[0]) / 1024 for key in ("VmRSS", "VmHWM", "VmSize")))


def report(title, runs):
    columns = [(min(column), max(column)) for column in zip(*runs)]
    seconds, spent, resident, peak, virtual = columns
    print(
        f"{title:28} {seconds[0]:7.4f} {seconds[1]:7.4f} s   processor {spent[0]:7.4f} {spent[1]:7.4f} s   resident {resident[0]:6.1f} {resident[1]:6.1f} MiB   "
        f"peak {peak[0]:6.1f} {peak[1]:6.1f} MiB   virtual {virtual[0]:7.0f} {virtual[1]:7.0f} MiB"
    )


def main():
    program = str(Path(sys.argv[1]).resolve())
    count = int(sys.argv[2]) if len(sys.argv) > 2 else 5
    for doors in (1, BIDDERS + 1):
        first, again = [], []
        for _ in range(count):
            with tempfile.TemporaryDirectory() as name:
                folder = Path(name)
                (folder / "journals").mkdir()
                write_auction(folder / "auction.toml", LARGEST)
                first.append(opened(program, folder, doors))
                again.append(opened(program, folder, doors))
        report(f"doors {doors}, empty folder", first)
        report(f"doors {doors}, journals there", again)


if __name__ == "__main__":
    main()
