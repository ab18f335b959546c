#!/usr/bin/env python3
"""Plays a script of each family at n, 2n and 4n waiters, and tells whether time and memory grow in proportion.

    tools/scale.py PROGRAM [PICTURE [N [TIMES]]]      as: tools/scale.py crates/mea_play/out/mea_play docs/pictures/scale.svg

PROGRAM plays a script from standard input, under the word `play`. N is 100000 where nothing else is said. Each script is played
TIMES times (3), and the least counts: seconds of a processor, and the most memory that the process had. The table goes to
standard output, and a picture of it to PICTURE, where one is named. It ends with 1 where four times the waiters took more than
five times the memory, or each doubling more than two and a half times the seconds: one alone may be a busy machine, and what grows
as n to the power of one and a half does so in both. It ends with 2 where a script was not played to its end. It reads /proc, and so
works on Linux alone.
"""
import os
import subprocess
import sys
import tempfile
import time

# A script has at most so many bytes.
MOST_BYTES = 16777216


def queued(first, make, poll, last):
    """Lines that begin with `first`; then each waiter is made and polled, and is named by the line that made it; then `last`."""

    def lines(count):
        made = list(first)
        for number in range(count):
            name = len(made)
            made += [make.format(number), *(line.format(name) for line in poll)]
        return made + [line.format(count) for line in last]

    return lines


def chained(first, make, poll, last):
    """The same, where the second line of a waiter names the first, and is what its third polls."""

    def lines(count):
        made = list(first)
        for _ in range(count):
            name = len(made)
            made += [make, poll[0].format(name), poll[1].format(name + 1)]
        return made + list(last)

    return lines


def twice(first, each, then):
    """Lines that begin with `first`; then one line so many times, and another as many times."""

    def lines(count):
        made = list(first) + [each] * count
        return made + [then.format(len(first) + number) for number in range(count)]

    return lines


def with_ends(lines, end):
    """The same script, and at its end every second waiter is ended, where it stands in the queue."""

    def longer(count):
        made = lines(count)
        return made + [end.format(2 + 2 * number) for number in range(0, count, 2)]

    return longer


def sends(count):
    """Sends that wait for a place, and as many receipts."""
    made = ["mb.new 1", "mb.try 0 5"]
    for _ in range(count):
        made += ["mb.send 0 5", f"mb.poll {len(made)} 0"]
    return made + ["mb.tryr 0"] * count


# Each family with its script; of those whose lines are long a part of N is played.
FAMILIES = (
    ("semaphore", 1, queued(["new 0"], "acq 0 1", ["poll {} 0"], ["release 0 {}"])),
    ("barrier", 1, lambda count: queued([f"bar.new {count}"], "bar.wait 0", ["bar.poll {} 0"], [])(count)),
    ("latch", 1, queued(["lat.new 1"], "lat.wait 0", ["lat.poll {} 0"], ["lat.down 0"])),
    ("wait group", 1, queued(["wg.new", "wg.clone 0", "wg.into 0"], "wg.copy 2", ["wg.poll {} 0"], ["wg.end 1"])),
    ("shutdown", 1, queued(["sd.new"], "sd.is 0", ["sd.poll {} 0"], ["sd.signal 0"])),
    ("mutex, half of them end", 1, with_ends(queued(["mx.new 0", "mx.try 0"], "mx.lock 0", ["mx.poll {} 0"], []), "mx.end {}")),
    ("reader-writer lock", 1, queued(["rw.new 0", "rw.tryw 0"], "rw.read 0", ["rw.poll {} 0"], ["rw.end 1"])),
    ("condition variable", 0.9, chained(["mx.new 0", "cv.new"], "mx.try 0", ["cv.wait 1 {}", "cv.poll {} 0"], ["cv.all 1"])),
    ("bounded channel", 1, sends),
    ("unbounded channel", 1, twice(["mu.new"], "mu.send 0 5", "mu.tryr 0")),
    ("oneshot", 1, chained([], "os.new", ["os.into {}", "os.poll {} 0"], [])),
    ("broadcast", 0.9, chained(["bc.new 1"], "bc.sub 0", ["bc.recv {}", "bc.poll {} 0"], ["bc.send 0 5"])),
    ("boxes", 1, twice([], "ab.new 5", "ab.swap {} 6")),
    ("call that runs once", 1, queued(["on.new", "on.call 0", "on.poll 1 0"], "on.wait 0", ["on.poll {} 0"], ["on.settle 1", "on.poll 1 0"])),
    ("cell", 1, queued(["oc.new"], "oc.init 0", ["oc.poll {} 0"], ["oc.settle 1 5", "oc.poll 1 0"])),
    ("map, a key each", 1, queued(["om.new"], "om.compute 0 {}", ["om.poll {} 0"], [])),
    ("group, one key", 1, queued(["sf.new"], "sf.work 0 7", ["sf.poll {} 0"], ["sf.settle 1 5", "sf.poll 1 0"])),
    ("admission, a key each", 1, queued(["fs.new 1", "fs.try 0 0"], "fs.acq 0 {}", ["fs.poll {} 0"], ["fs.end 1"])),
)


def most_memory(process):
    """The most kilobytes that a process had so far; 0 once it has ended."""
    with open(f"/proc/{process}/status") as it:
        return max((int(line.split()[1]) for line in it if line.startswith("VmHWM")), default=0)


def run_once(program, script):
    """The status of a run, its seconds of a processor, and the most kilobytes that it had.

    The memory is looked at every two milliseconds, since what the system tells at the end counts this process too.
    """
    most, gone = 0, 0
    with open(script, "rb") as it:
        run = subprocess.Popen([program, "play"], stdin=it, stdout=subprocess.DEVNULL)
    while not gone:
        most = max(most, most_memory(run.pid))
        time.sleep(0.002)
        gone, status, used = os.wait4(run.pid, os.WNOHANG)
    run.returncode = os.waitstatus_to_exitcode(status)
    return run.returncode, used.ru_utime + used.ru_stime, most


def played(program, script, times):
    """The least seconds of a processor, and of memory in MB, of so many runs; none where a run did not end well."""
    runs = [run_once(program, script) for _ in range(times)]
    if any(status for status, _, _ in runs):
        return None
    return min(seconds for _, seconds, _ in runs), min(most for _, _, most in runs) / 1024


def measured(program, count, times):
    """Of each family its name, its number of waiters at n, and the figures at n, 2n and 4n."""
    rows = []
    for name, part, lines in FAMILIES:
        least, figures = int(count * part), []
        for factor in (1, 2, 4):
            text = "\n".join(lines(least * factor)) + "\n"
            if len(text) > MOST_BYTES:
                sys.exit(f"{name}: {len(text)} bytes at {least * factor} waiters are more than a script may have")
            with tempfile.NamedTemporaryFile("w") as script:
                script.write(text)
                script.flush()
                figures.append(played(program, script.name, times))
            if figures[-1] is None:
                print(f"{name}: the script of {least * factor} waiters was not played to its end", file=sys.stderr)
                sys.exit(2)
        rows.append((name, least, figures))
    return rows


def table(rows):
    """The lines of the table."""
    lines = ["| family | n | n | 2n | 4n |", "|---|---|---|---|---|"]
    for name, least, figures in rows:
        cells = (f"{seconds:.2f} s, {memory:.0f} MB" for seconds, memory in figures)
        lines.append(f"| {name} | {least:,} | " + " | ".join(cells) + " |")
    return lines


def panel(row, left, top, width, height):
    """One family: time and memory against n, each as a part of the greater of itself and four times its first figure."""
    name, least, figures = row
    parts = [f'<text class="name" x="{left}" y="{top - 8}">{name}</text>']
    parts.append(f'<rect class="field" x="{left}" y="{top}" width="{width}" height="{height}"/>')
    parts.append(f'<line class="even" x1="{left}" y1="{top + height}" x2="{left + width}" y2="{top}"/>')
    for which, kind in ((0, "time"), (1, "memory")):
        most = max(figures[2][which], 4 * figures[0][which])
        spots = [(left + width * factor / 4, top + height - height * figure[which] / most) for factor, figure in zip((1, 2, 4), figures)]
        parts.append(f'<polyline class="{kind}" points="' + " ".join(f"{x:.1f},{y:.1f}" for x, y in spots) + '"/>')
        parts += [f'<circle class="{kind}" cx="{x:.1f}" cy="{y:.1f}" r="3"/>' for x, y in spots]
    text = f"{4 * least:,}: {figures[2][0]:.2f} s, {figures[2][1]:.0f} MB"
    parts.append(f'<text class="figure" x="{left}" y="{top + height + 15}">{text}</text>')
    return parts


STYLE = """    text { font-family: sans-serif; fill: #1b2733; }
    .name { font-size: 13px; font-weight: 600; }
    .figure { font-size: 11px; fill: #4a5560; }
    .field { fill: #f5f7f9; stroke: #c3ccd5; }
    .even { stroke: #9aa6b2; stroke-dasharray: 4 3; }
    polyline { fill: none; stroke-width: 2; }
    polyline.time { stroke: #2f6fae; }
    circle.time { fill: #2f6fae; }
    polyline.memory { stroke: #c8761d; }
    circle.memory { fill: #c8761d; }"""


def picture(rows):
    """All families, five in a row, as an SVG."""
    across, width, height, step = 5, 170, 90, 150
    down = -(-len(rows) // across)
    size = (across * (width + 20) + 20, down * step + 70)
    parts = [
        f'<svg xmlns="http://www.w3.org/2000/svg" viewBox="0 0 {size[0]} {size[1]}" width="{size[0]}" height="{size[1]}" role="img" aria-label="Time and memory against the number of waiters">',
        "  <title>Time and memory against the number of waiters, by family</title>",
        f"  <style>\n{STYLE}\n  </style>",
        f'  <rect x="0" y="0" width="{size[0]}" height="{size[1]}" fill="#ffffff"/>',
        '  <text class="figure" x="20" y="22">Blue is time and orange is memory at n, 2n and 4n waiters. On the dashed line four times as many cost four times as much.</text>',
    ]
    for number, row in enumerate(rows):
        left, top = 20 + (number % across) * (width + 20), 60 + (number // across) * step
        parts += ["  " + part for part in panel(row, left, top, width, height)]
    return "\n".join([*parts, "</svg>", ""])


def grows(figures):
    """Whether a family's figures at n, 2n and 4n grow faster than n. A hundredth of a second, and a megabyte, are what a process costs
    without a script."""
    one, two, four = figures
    doublings = ((one[0], two[0]), (two[0], four[0]))
    return four[1] > 5 * (one[1] + 1) or all(after > 2.5 * (before + 0.01) for before, after in doublings)


def main(words):
    if not 1 <= len(words) <= 4:
        sys.exit(__doc__)
    count = int(words[2]) if len(words) > 2 else 100000
    times = int(words[3]) if len(words) > 3 else 3
    rows = measured(words[0], count, times)
    print("\n".join(table(rows)))
    if len(words) > 1:
        with open(words[1], "w") as it:
            it.write(picture(rows))
    over = [name for name, _, figures in rows if grows(figures)]
    for name in over:
        print(f"{name}: time or memory grew faster than the number of waiters", file=sys.stderr)
    return 1 if over else 0


if __name__ == "__main__":
    sys.exit(main(sys.argv[1:]))
