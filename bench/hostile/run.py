#!/usr/bin/env python3
"""Lets each call of the program on memory, on files and on sockets fail in turn, and looks at the answers.

    run.py PROGRAM [ROW..]

PROGRAM is the built house_main. For each row, and for each number up to the count of calls that the row makes, the row is run in a folder of its
own with the call of that number failing. Where an allocation fails, the answer is status 1 and nothing, or the row's own; where another
call does, it is the line of the status by the call that failed, or the row's own. Then the row is run once more in the same folder with
nothing failing, and gives its own answer. In `serve` each report that was acknowledged has to be in its journal just once. A line
is printed for each row and kind; the script ends with status 1 where an answer was another one, a row fails by itself, or no call was seen, as of a
program whose allocator does not ask the C library.
"""
import collections
import shutil
import struct
import subprocess
import sys
import tempfile
import time
from pathlib import Path

from bidders import NO_MEMORY, play

HERE = Path(__file__).resolve().parent
EXAMPLES = HERE.parent.parent / "examples"
PORT = 27_411
KINDS = ("memory", "files", "net")
LINES = {1: (b"",), 4: (b"read fault\n",), 6: tuple(b"disk fault clock %d\n" % clock for clock in range(4)), 7: (b"net fault\n",)}
# The status of a program that does not have the row's words.
USAGE = 2
STATUSES = {"memory": (1,), "files": (4, 5, 6), "net": (7,)}

ROWS = {
    "fold": ["fold", "2", "3", "100", "three-bidders.log"],
    "check": ["check", "auction.toml"],
    "standing": ["standing", "auction.toml", "."],
    "explain": ["explain", "auction.toml", "."],
    "judge": ["judge", "auction.toml", ".", "1"],
    "settle": ["settle", "auction.toml", "."],
    "settle --json": ["settle", "auction.toml", ".", "--json"],
    "trial": ["trial", "auction.toml", "values.toml"],
    "trial --workers 4": ["trial", "auction.toml", "values.toml", "--workers", "4"],
    "float": ["float", "auction.toml", "values.toml", "10"],
    "migrate": ["migrate", "auction.toml", ".", "second.toml", "moved"],
    "serve": ["serve", "auction.toml", "served", f"127.0.0.1:{PORT}", "--doors", "3", "--sessions", "3"],
}


def build_shim(folder):
    shim = folder / "failing_calls.so"
    subprocess.run(["gcc", "-shared", "-fPIC", "-O2", "-o", shim, HERE / "failing_calls.c", "-ldl"], check=True)
    return shim


def fill(folder):
    for file in (EXAMPLES / "two-licences").iterdir():
        if file.suffix in (".toml", ".ahj"):
            shutil.copy(file, folder)
    shutil.copy(EXAMPLES / "three-bidders.log", folder)
    text = (folder / "auction.toml").read_text()
    (folder / "second.toml").write_text(text.replace("version = 1", "version = 2"))
    (folder / "moved").mkdir()
    (folder / "served").mkdir()


class Answer:
    def __init__(self, status, text, calls, acknowledged=(), codes=frozenset()):
        self.status = status
        self.text = text
        self.calls = calls
        self.acknowledged = acknowledged
        self.codes = codes


def run(program, shim, words, folder, kind="memory", number=0):
    """Runs the program in the folder with this call failing, and plays the bidders where it serves."""
    counted = folder / "count"
    counted.write_bytes(bytes(8))
    env = {"LD_PRELOAD": str(shim), "FAILING_KIND": kind, "FAILING_NUMBER": str(number), "FAILING_COUNT": str(counted)}
    process = subprocess.Popen([program, *words], cwd=folder, env=env, stdout=subprocess.PIPE)
    acknowledged, codes = (), frozenset()
    if words[0] == "serve":
        await_doors(process)
        acknowledged, codes = play(PORT)
    try:
        text, _ = process.communicate(timeout=20)
    except subprocess.TimeoutExpired:
        process.kill()
        text, _ = process.communicate()
        return Answer(-1, text, struct.unpack("=Q", counted.read_bytes())[0], acknowledged, codes)
    return Answer(process.returncode, text, struct.unpack("=Q", counted.read_bytes())[0], acknowledged, codes)


def await_doors(process):
    """Waits until the house listens or has ended."""
    port = f":{PORT:04X} "
    while process.poll() is None:
        if any(port in line and line.split()[3] == "0A" for line in Path("/proc/net/tcp").read_text().splitlines()[1:]):
            return
        time.sleep(0.001)


def entries(path):
    """The bidder and the round of each record of a journal of version 1."""
    data = path.read_bytes() if path.exists() else b""
    found = []
    if len(data) < 42 or data[0] != 0xA5:
        return found
    place = 41
    while data[place] == 0xA5:
        size = struct.unpack(">I", data[place + 1 : place + 5])[0]
        bidder, number = struct.unpack(">BI", data[place + 5 : place + 10])
        found.append((bidder, number))
        place += 5 + size
    return found


def are_kept(folder, acknowledged):
    """Each acknowledged report is in its journal, and none is there twice."""
    journals = {clock: entries(folder / "served" / f"clock-{clock:02}.ahj") for clock in range(4)}
    twice = any(len(found) != len(set(found)) for found in journals.values())
    return not twice and all((bidder, number) in journals[clock] for clock, bidder, number in acknowledged)


def is_right(row, kind, answer, own, folder):
    if row == "serve" and not are_kept(folder, answer.acknowledged):
        return False
    if answer.status == own.status:
        return row == "serve" or answer.text == own.text
    if answer.status == 5 and kind == "files":
        return own.text.startswith(answer.text)
    return answer.status in STATUSES[kind] and answer.text in LINES[answer.status]


def judge(program, shim, row, kind):
    words = ROWS[row]
    with tempfile.TemporaryDirectory() as name:
        folder = Path(name)
        fill(folder)
        own = run(program, shim, words, folder, kind)
    if own.status == USAGE:
        return None
    if own.status != 0:
        print(f"{row}, {kind}: where nothing fails, status {own.status}", flush=True)
        return 1
    if own.calls == 0:
        print(f"{row}, {kind}: no call was seen", flush=True)
        return 1
    seen = collections.Counter()
    wrong = []
    for number in range(1, own.calls + 1):
        with tempfile.TemporaryDirectory() as name:
            folder = Path(name)
            fill(folder)
            answer = run(program, shim, words, folder, kind, number)
            again = run(program, shim, words, folder, kind)
            right = is_right(row, kind, answer, own, folder) and again.status == 0 and (row == "serve" or again.text == own.text)
        seen["own answer" if answer.status == 0 else f"status {answer.status}"] += 1
        if NO_MEMORY in answer.codes:
            seen["code 11"] += 1
        if not right:
            wrong.append((number, answer.status, answer.text, again.status))
    told = ", ".join(f"{what} {count}" for what, count in sorted(seen.items()))
    print(f"{row}, {kind}: {own.calls} calls; {told or 'none to fail'}; wrong {len(wrong)}", *wrong[:3], flush=True)
    return len(wrong)


def main():
    program = Path(sys.argv[1]).resolve()
    rows = sys.argv[2:] or list(ROWS)
    wrong = 0
    with tempfile.TemporaryDirectory() as name:
        shim = build_shim(Path(name))
        for row in rows:
            for kind in KINDS:
                if kind == "net" and row != "serve":
                    continue
                found = judge(program, shim, row, kind)
                if found is None:
                    print(f"{row}: this program does not have it", flush=True)
                    break
                wrong += found
    sys.exit(1 if wrong else 0)


if __name__ == "__main__":
    main()
