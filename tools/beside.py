#!/usr/bin/env python3
"""Tells how long the works of `mea_bench_shared` take, beside a program that does the same works under the same names.

    tools/beside.py PROGRAM OTHER [TIMES [WORK ..]]      as: tools/beside.py crates/mea_bench_shared/out/mea_bench_shared REFERENCE

Both run in turn, TIMES times (30), each time with so few rounds that a run takes some milliseconds; the least counts. A run so
short is mostly not broken off by others, so this serves on a machine that does other things too. It prints a line for each work:
the nanoseconds of a round in PROGRAM and in OTHER, and the ratio. WORK, a name of the report, is done alone. It ends with 2 where
a program gave no number.
"""
import re
import subprocess
import sys

# The works that have a row in docs/BENCHMARKS.md, with the rounds of a run.
WORKS = {
    "permit": 20000,
    "lock": 20000,
    "lock between two threads": 5000,
    "message from one thread": 3000,
    "message from four threads": 3000,
    "message heard by one of a hundred": 5000,
    "oneshot": 20000,
    "permit between two tasks": 5000,
    "message between two tasks": 20000,
    "read lock of four threads": 1000,
    "turn of two threads": 1000,
    "latch awaited by one of a hundred": 5000,
    "admission of one of a hundred keys": 2000,
    "call shared by one of eight": 5000,
    "call of a map of a hundred keys": 20000,
    "wait that is given up": 5000,
    "wait at a condition variable that tells all": 5000,
    "wait for a message that all hear": 5000,
}


def round_of(program, work, rounds):
    """The nanoseconds of a round, as the program prints them."""
    said = subprocess.run([program, str(rounds), work], capture_output=True, text=True, check=False).stdout
    found = re.match(re.escape(work) + r" (\d+) ns", said)
    if not found:
        print(f"{program} gave no number for: {work}", file=sys.stderr)
        sys.exit(2)
    return int(found[1])


def main(words):
    if len(words) < 2:
        print(__doc__, file=sys.stderr)
        sys.exit(2)
    programs, times = words[:2], int(words[2]) if len(words) > 2 else 30
    for work, rounds in WORKS.items():
        if words[3:] and work not in words[3:]:
            continue
        least = [min(pair) for pair in zip(*([round_of(it, work, rounds) for it in programs] for _ in range(times)))]
        print(f"{work:45} {least[0]:6} {least[1]:6} {least[0] / max(least[1], 1):6.2f}", flush=True)


if __name__ == "__main__":
    main(sys.argv[1:])
