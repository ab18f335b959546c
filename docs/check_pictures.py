#!/usr/bin/env python3
"""Checks the pictures of docs/pictures against what mea_draw_pictures writes, and its cases against examples/. Ends with 1 where they
differ. With --write it writes the pictures anew, from the text that the gate compares."""
import os
import re
import sys

TOP = os.path.join(os.path.dirname(os.path.abspath(__file__)), "..")


def read(path):
    with open(os.path.join(TOP, path), encoding="utf-8") as file:
        return file.read()


def cases(text, mark):
    """The pictures among the cases of a text, by name."""
    found = re.split(rf"^{mark}(picture|marks) (\w+)\n", text, flags=re.M)
    return {name: body for kind, name, body in zip(found[1::3], found[2::3], found[3::3]) if kind == "picture"}


def main():
    wrong = []
    for name, picture in cases(read("crates/mea_draw_pictures/stdout"), "").items():
        path = f"docs/pictures/{name}.svg"
        if "--write" in sys.argv[1:]:
            with open(os.path.join(TOP, path), "w", encoding="utf-8") as file:
                file.write(picture)
        if read(path) != picture:
            wrong.append(f"{path} is not what mea_draw_pictures draws")
    for name, lines in cases(read("crates/mea_draw_pictures/stdin"), "#").items():
        script = [line.split("\t")[0] for line in lines.splitlines()]
        replies = [line.split("\t")[1] for line in lines.splitlines()]
        if read(f"examples/{name}.txt").splitlines() != script or read(f"examples/{name}.out").splitlines()[:-1] != replies:
            wrong.append(f"examples/{name} is not that of mea_draw_pictures")
    print("\n".join(wrong) if wrong else "the pictures are those that are drawn")
    return 1 if wrong else 0


sys.exit(main())
