#!/usr/bin/env python3
"""MB/s of a scan over journals of 64 MiB, by the length of their payloads."""
import pathlib
import resource
import struct
import sys

import program

LIMIT = 67_108_864


def write_journal(path, size):
    record = b"\xa5" + struct.pack(">I", size) + bytes(size)
    count = (LIMIT - 42) // len(record)
    with path.open("wb") as file:
        file.write(b"\xa5AHJ1" + struct.pack(">I", 0) + bytes([7] * 32))
        for _ in range(count):
            file.write(record)
        file.write(b"\0")
    return count


def main():
    folder = pathlib.Path(sys.argv[1] if len(sys.argv) > 1 else "/tmp")
    path = folder / "bench.journal"
    for size in (32768, 1024, 64, 16):
        count = write_journal(path, size)
        taken = sorted(program.microseconds(program.run("scan", path)) for _ in range(5))[2]
        peak = resource.getrusage(resource.RUSAGE_CHILDREN).ru_maxrss / 1024
        print(f"payloads of {size} bytes: {count} records, {path.stat().st_size / taken:.0f} MB/s, peak memory so far {peak:.0f} MiB")
    path.unlink()


main()
