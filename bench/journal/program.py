"""Where the built program is, and how it is run."""
import os
import pathlib
import subprocess


def find():
    """The program that build.sh left."""
    out = pathlib.Path(os.environ.get("TMPDIR", "/tmp")) / "journal_bench" / "crates" / "journal_bench" / "out"
    found = [p for p in out.rglob("journal_bench*") if p.is_file() and os.access(p, os.X_OK)]
    if not found:
        raise SystemExit("run build.sh first")
    return max(found, key=lambda p: p.stat().st_mtime)


def run(*words):
    """What the program prints."""
    words = [str(word) for word in (find(), *words)]
    return subprocess.run(words, check=True, capture_output=True, text=True).stdout


def microseconds(text):
    words = text.split()
    return int(words[words.index("microseconds") + 1])
