#!/usr/bin/env python3
"""Plays each script of `stage_table` with each of its allocations refused in turn, by refuse.sh.

    tools/refuse_stages.py PROGRAM      as: tools/refuse_stages.py crates/mea_play/out/mea_play

PROGRAM plays a script from standard input, under the word `play`. The scripts and their texts are those of
crates/mea_rows/src/stage_table.rt. Each is played once with ample memory, and has to write the text of its row; then refuse.sh
plays it with each allocation refused. A line is printed for each script, with what it begins with, and a last one for all. It
ends with 1 where a script wrote another text, or a run ended otherwise than refuse.sh allows, and with 2 where the table was not read.
"""
import os
import re
import subprocess
import sys
import tempfile

HERE = os.path.dirname(os.path.abspath(__file__))
TABLE = os.path.join(HERE, "..", "crates", "mea_rows", "src", "stage_table.rt")
ROW = re.compile(r'^    \(\n        "([^"\\]*)",\n        "([^"\\]*)",\n    \),$', re.M)
TOLD = re.compile(r"(\d+) allocations: (\d+) runs ended for want of memory, (\d+) as with ample memory, (\d+) otherwise")


def rows():
    """Pairs of a script and its text, each line with its end."""
    with open(TABLE) as it:
        text = it.read()
    found = ROW.findall(text)
    if not found or len(found) != len(re.findall(r"^    \($", text, re.M)):
        print(f"{TABLE}: {len(found)} rows were read, and there are others", file=sys.stderr)
        sys.exit(2)
    return [tuple(part.replace("/", "\n") + "\n" for part in row) for row in found]


def is_played(program, script, text):
    """Whether the program writes that text where memory is ample."""
    with open(script, "rb") as it:
        run = subprocess.run([program, "play"], stdin=it, capture_output=True, timeout=60)
    return run.returncode == 0 and run.stdout == text.encode()


def refused(program, script):
    """What refuse.sh counted: allocations, and runs that ended short, whole and otherwise; and all that it wrote."""
    run = subprocess.run([os.path.join(HERE, "refuse.sh"), script, program, "play"], capture_output=True, text=True)
    told = TOLD.search(run.stdout)
    counts = [int(number) for number in told.groups()] if told else [0, 0, 0, 1]
    return counts, run.stdout + run.stderr


def main(words):
    if len(words) != 1:
        sys.exit(__doc__)
    program, sums, wrong = os.path.abspath(words[0]), [0, 0, 0, 0], 0
    table = rows()
    for script, text in table:
        with tempfile.NamedTemporaryFile("w") as it:
            it.write(script)
            it.flush()
            ample = is_played(program, it.name, text)
            counts, told = refused(program, it.name)
        first = ", ".join(script.split("\n")[:3])
        print(f"{first}: {counts[0]} allocations, {counts[1]} runs short, {counts[2]} whole, {counts[3]} otherwise", flush=True)
        if not ample:
            print("  with ample memory it wrote another text")
        if counts[3] or not counts[0]:
            print(told)
        wrong += not ample or counts[3] > 0 or counts[0] == 0
        sums = [one + other for one, other in zip(sums, counts)]
    print(f"{len(table)} scripts, {sums[0]} allocations: {sums[1]} runs ended for want of memory, {sums[2]} with the whole text, {sums[3]} otherwise")
    return 1 if wrong else 0


if __name__ == "__main__":
    sys.exit(main(sys.argv[1:]))
