#!/usr/bin/env python3
"""Counts what programs take of a line, of a waiter or of a round: instructions, those that are locked, and misses of caches.

    tools/counts.py lines SCRIPT PROGRAM ..       a line of a script
    tools/counts.py waiters FAMILY PROGRAM ..     a waiter of the script that tools/scale.py has of a family, with 100000
    tools/counts.py rounds WORK PROGRAM ..        a round of `PROGRAM ROUNDS WORK`: what 6000 rounds take more than 3000

It prints a line for each program: instructions; those that are locked; accesses of data that the first cache lacks, and that the second
lacks; instructions that the first cache lacks; and the program. valgrind plays the caches: 32 KB of data and 32 KB of instructions, and
behind them 1 MB. It needs valgrind and objdump, and ends with 2 where a program did not run.
"""
import collections
import os
import re
import subprocess
import sys
import tempfile

sys.dont_write_bytecode = True
sys.path.insert(0, os.path.dirname(os.path.abspath(__file__)))
from scale import FAMILIES

CACHES = ["--I1=32768,8,64", "--D1=32768,8,64", "--LL=1048576,16,64"]
TOOL = ["valgrind", "--tool=callgrind", "--cache-sim=yes", *CACHES, "--dump-instr=yes", "--fair-sched=yes"]

# Where callgrind's file has what is printed: instructions, misses of data in the first and in the second cache, and of instructions.
PLACES = ((0,), (4, 5), (7, 8), (3,))

# Where the instruction of a line of callgrind's file stands, and what it cost.
COSTS = re.compile(r"(0x[0-9a-f]+|[+-]\d+|\*) (?:[+-]?\d+|\*) (\d.*)")

# An instruction that is locked, as objdump writes it: an exchange with memory is so by itself.
LOCKED = re.compile(r"\s+([0-9a-f]+):\s+(?:lock |xchg .*\[)")


def counted(words, given):
    """By object and address, the counts of a run in the order of callgrind's file."""
    with tempfile.TemporaryDirectory() as room:
        file = f"{room}/out"
        run = [*TOOL, f"--callgrind-out-file={file}", *words]
        ended = subprocess.run(run, input=given, stdout=subprocess.DEVNULL, stderr=subprocess.DEVNULL, check=False)
        if ended.returncode > 1 or not os.path.exists(file):
            print(f"{words[0]} did not run", file=sys.stderr)
            sys.exit(2)
        with open(file, encoding="utf-8", errors="replace") as it:
            return costs_in(it)


def costs_in(lines):
    """The same of callgrind's lines. A line after `calls=` has what was called, which counts where it stands."""
    costs, names, thing, address, called = collections.Counter(), {}, None, 0, False
    for line in lines:
        named = re.match(r"(c?ob)=\((\d+)\)(?: (.*))?", line)
        if named:
            names.setdefault(named[2], named[3])
            thing = names[named[2]] if named[1] == "ob" else thing
        elif line.startswith("calls="):
            called = True
        elif found := COSTS.match(line):
            address = int(found[1], 16) if found[1][0] == "0" else address + int(found[1].replace("*", "0"))
            if not called:
                for place, cost in enumerate(found[2].split()):
                    costs[thing, address, place] += int(cost)
            called = False
    return costs


def locked_in(thing):
    """The addresses of an object's locked instructions."""
    if not thing or not os.path.exists(thing):
        return set()
    text = subprocess.run(["objdump", "-d", "--no-show-raw-insn", "-M", "intel", thing], capture_output=True, text=True, check=True).stdout
    return {int(found[1], 16) for found in map(LOCKED.match, text.split("\n")) if found}


def each(program, runs, units):
    """What a unit costs, in the order in which it is printed."""
    costs = collections.Counter()
    for sign, words, given in runs:
        for key, cost in counted([program, *words], given).items():
            costs[key] += sign * cost
    locked = {thing: locked_in(thing) for thing in {thing for thing, _, _ in costs}}
    sums = [sum(cost for (_, _, at), cost in costs.items() if at in places) for places in PLACES]
    sums.insert(1, sum(cost for (thing, address, at), cost in costs.items() if not at and address in locked[thing]))
    return [total / units for total in sums]


def runs_of(kind, name):
    """The runs, each with whether it is added or subtracted, its words and what it is given; and how many units that is."""
    if kind == "lines":
        with open(name, "rb") as it:
            script = it.read()
        return [(1, ["play"], script)], script.count(b"\n")
    if kind == "waiters":
        part, lines = next((part, lines) for family, part, lines in FAMILIES if family == name)
        count = int(100000 * part)
        return [(1, ["play"], ("\n".join(lines(count)) + "\n").encode())], count
    return [(1, ["6000", name], b""), (-1, ["3000", name], b"")], 3000


def main(words):
    if len(words) < 3 or words[0] not in ("lines", "waiters", "rounds"):
        print(__doc__, file=sys.stderr)
        sys.exit(2)
    runs, units = runs_of(*words[:2])
    for program in words[2:]:
        took = each(program, runs, units)
        print("{:8.0f} {:6.1f} {:6.1f} {:6.1f} {:6.1f}  {}".format(*took, program), flush=True)


if __name__ == "__main__":
    main(sys.argv[1:])
