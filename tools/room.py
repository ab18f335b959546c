#!/usr/bin/env python3
"""Tells how much memory an object of each family takes that was made and used once, with its name and account in its hall.

    tools/room.py PROGRAM [N]      as: tools/room.py crates/mea_play/out/mea_play

PROGRAM plays a script from standard input, under the word `play`. It plays one of N objects and one of 2N, where N is 50000 if
nothing else is said; what the second takes more, over N, is an object's. It ends with 2 where a script was not played to its end.
"""
import sys
import tempfile

sys.dont_write_bytecode = True
from scale import run_once  # noqa: E402

# Each family with the lines that make an object and use it once. {0} is the object's line, and {1}, {2} are those after it.
OBJECTS = (
    ("semaphore, a permit taken", ("new 1", "try {0} 1")),
    ("barrier of one, passed", ("bar.new 1", "bar.wait {0}", "bar.poll {1} 5")),
    ("latch, one waits", ("lat.new 1", "lat.wait {0}", "lat.poll {1} 5")),
    ("wait group, one waits", ("wg.new", "wg.clone {0}", "wg.into {0}", "wg.poll {2} 5")),
    ("shutdown, one waits", ("sd.new", "sd.is {0}", "sd.poll {1} 5")),
    ("mutex, locked", ("mx.new 5", "mx.try {0}")),
    ("reader-writer lock, read", ("rw.new 5", "rw.tryr {0}")),
    ("condition variable and mutex, one waits", ("mx.new 5", "cv.new", "mx.try {0}", "cv.wait {1} {2}", "cv.poll {3} 5")),
    ("bounded channel, a message", ("mb.new 1", "mb.try {0} 5")),
    ("unbounded channel, a message", ("mu.new", "mu.send {0} 5")),
    ("oneshot, a message", ("os.new", "os.send {0} 5")),
    ("broadcast of one, a message", ("bc.new 1", "bc.send {0} 5")),
    ("box", ("ab.new 5", "ab.swap {0} 6")),
    ("call that runs once, one calls", ("on.new", "on.call {0}", "on.poll {1} 5")),
    ("cell, one computes", ("oc.new", "oc.init {0}", "oc.poll {1} 5")),
    ("map, one key computed", ("om.new", "om.compute {0} 5", "om.settle {1} 5", "om.poll {1} 5")),
    ("group, one key asked for", ("sf.new", "sf.work {0} 5", "sf.poll {1} 5")),
    ("admission, a permit taken", ("fs.new 1", "fs.try {0} 5")),
)


def script_of(lines, count):
    """The lines of so many objects."""
    made = []
    for _ in range(count):
        name = len(made)
        made += [line.format(*range(name, name + len(lines))) for line in lines]
    return "\n".join(made) + "\n"


def memory_of(program, lines, count):
    """The most kilobytes that a script of so many objects takes."""
    with tempfile.NamedTemporaryFile("w") as script:
        script.write(script_of(lines, count))
        script.flush()
        status, _, most = run_once(program, script.name)
    if status:
        print(f"the script of {lines[0]} was not played to its end", file=sys.stderr)
        sys.exit(2)
    return most


def main(words):
    if not 1 <= len(words) <= 2:
        sys.exit(__doc__)
    count = int(words[1]) if len(words) > 1 else 50000
    print("| an object | bytes |\n|---|---|")
    for name, lines in OBJECTS:
        more = memory_of(words[0], lines, 2 * count) - memory_of(words[0], lines, count)
        print(f"| {name} | {more * 1024 // count:,} |")
    return 0


if __name__ == "__main__":
    sys.exit(main(sys.argv[1:]))
