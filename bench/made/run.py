#!/usr/bin/env python3
"""Measures the commands over files that are made here from fixed seeds, in processor time: `run.py PROGRAM [OLD]`.

Rows are `trial` of four auctions, `fold` of logs whose demands change each round and of logs that repeat them, and `settle` and `standing` over the
journals of such auctions, which the plain trial (../trial/reference.rs) writes. Each row has the SHA-256 of its files, the milliseconds of the
processor in the middle of five runs, and the peak memory. With OLD, another program takes turns with it, and has to print the same. --rows KIND
takes only the rows of `trial`, of `fold`, or of `settle` with `standing`; --files FOLDER leaves the last files there.
"""
import importlib.util
import os
import subprocess
import sys
import tempfile
from pathlib import Path
from statistics import median

import auctions

HERE = Path(__file__).resolve().parent
RUNS = 5


def word_after(flag):
    return sys.argv[sys.argv.index(flag) + 1] if flag in sys.argv else None


def repeating_logs():
    """The logs of ../fold/run.py, in which demands repeat: their names, supply and bytes."""
    spec = importlib.util.spec_from_file_location("fold_run", HERE.parent / "fold" / "run.py")
    fold = importlib.util.module_from_spec(spec)
    spec.loader.exec_module(fold)
    yield from fold.logs()


def used(words, folder):
    """The text, the processor's milliseconds and the peak memory in MiB of one run, which `time` starts: a child of this process would count
    its memory too."""
    with open(folder / "said", "wb") as said:
        child = subprocess.Popen(["/usr/bin/time", "-q", "-f", "%M", "-o", "peak", *words], cwd=folder, stdout=said, stderr=subprocess.DEVNULL)
        _, status, usage = os.wait4(child.pid, 0)
        child.returncode = os.waitstatus_to_exitcode(status)
    return (folder / "said").read_bytes(), 1000 * (usage.ru_utime + usage.ru_stime), int((folder / "peak").read_text()) / 1024


def row(name, files, words, programs, folder):
    """Runs the programs in turns, and prints what they took."""
    times = {program: [] for program in programs}
    memory, texts = {}, set()
    for _ in range(RUNS):
        for program in programs:
            text, milliseconds, most = used([program, *words], folder)
            times[program].append(milliseconds)
            memory[program] = most
            texts.add(text)
    figures = "".join(f" {median(times[program]):9.1f} {memory[program]:6.1f}" for program in programs)
    times_faster = f" {median(times[programs[1]]) / median(times[programs[0]]):6.2f}" if len(programs) > 1 else ""
    digest = auctions.digest(Path(folder / file).read_bytes() for file in files)
    print(f"{name:46} {digest[:16]}{figures}{times_faster}{'' if len(texts) == 1 else '  TEXTS DIFFER'}", flush=True)


def write_auction(name, folder):
    """Writes an auction, its values, and the same as numbers."""
    supply, ceiling, valuations = auctions.auction(name)
    (folder / "auction.toml").write_text(auctions.auction_file(supply, ceiling))
    (folder / "values.toml").write_text(auctions.values_file(valuations))
    (folder / "numbers").write_text(auctions.numbers_file(supply, ceiling, valuations))


def trials(programs, folder):
    for name in ("mixed", "tables", "long", "flat1000"):
        write_auction(name, folder)
        row(f"trial {name}", ["auction.toml", "values.toml"], ["trial", "auction.toml", "values.toml"], programs, folder)


def folds(programs, folder):
    logs = [(f"fold {name}", supply, lambda name=name: auctions.log(name)) for name, (supply, _, _) in auctions.LOGS.items()]
    logs += [(f"fold repeating, {title}", supply, lambda made=made: made) for title, supply, made in repeating_logs()]
    for name, supply, made in logs:
        (folder / "log").write_bytes(made())
        words = ["fold", ",".join(map(str, supply)), str(auctions.BIDDERS), str(auctions.CEILING), "log"]
        row(name, ["log"], words, programs, folder)


def journals(programs, folder):
    plain = folder / "plain"
    subprocess.run(["rustc", "-O", "--edition", "2021", "-o", plain, HERE.parent / "trial" / "reference.rs"], check=True)
    for name in ("mixed", "tables", "long", "flat100"):
        write_auction(name, folder)
        digest = auctions.digest([(folder / "auction.toml").read_bytes()])
        subprocess.run([plain, "journals", "numbers", ".", digest], cwd=folder, check=True)
        files = ["auction.toml"] + [f"clock-{clock:02}.ahj" for clock in range(auctions.BIDDERS + 1)]
        for command in ("settle", "standing"):
            row(f"{command} {name}", files, [command, "auction.toml", "."], programs, folder)


def main():
    kept = word_after("--files")
    named = {kept, word_after("--rows")}
    programs = [str(Path(word).resolve()) for word in sys.argv[1:] if not word.startswith("--") and word not in named]
    only = word_after("--rows")
    print(f"{'row':46} {'SHA-256':16}" + "".join(f" {'ms':>9} {'MiB':>6}" for _ in programs) + ("  times" if len(programs) > 1 else ""))
    with tempfile.TemporaryDirectory() as name:
        folder = Path(kept or name)
        folder.mkdir(exist_ok=True)
        for kind, made in {"trial": trials, "fold": folds, "settle": journals}.items():
            if only in (None, kind):
                made(programs, folder)


if __name__ == "__main__":
    main()
