#!/usr/bin/env python3
"""Checks the tables of docs/SCRIPT.md against the spellings of `mea_lines`: each word of a script stands in one row, with as
many numbers as it has, and the page has no other. Ends with 1 where that is not so."""
import pathlib
import re
import sys

TOP = pathlib.Path(__file__).resolve().parent.parent
NUMBERS = {"Bare": 0, "One": 1, "Two": 2, "Three": 3}
# Words that end a text, and are no lines.
ENDINGS = {"done", "bad", "long", "stop"}


def spelled():
    """The words of scripts, each with how many numbers follow it."""
    found = {}
    for path in (TOP / "crates" / "mea_lines" / "specs").glob("*Spelling.antt"):
        for word, numbers in re.findall(r'\(codes "([\w.]+)", (Bare|One|Two|Three)', path.read_text()):
            found[word] = NUMBERS[numbers]
    return found


def told():
    """The words in the first cells of the page's tables, each with the letters behind it, in a list for each row."""
    found = {}
    for line in (TOP / "docs" / "SCRIPT.md").read_text().splitlines():
        if line.startswith("| `"):
            for word, letters in re.findall(r"`([a-z][\w.]*)((?: [a-z])*)`", line.split("|")[1]):
                found.setdefault(word, []).append(len(letters.split()))
    return found


def main():
    words, rows, faults = spelled(), told(), []
    for word in sorted(words.keys() | (rows.keys() - ENDINGS)):
        if word not in rows:
            faults.append(f"docs/SCRIPT.md: no row has {word}")
        elif word not in words:
            faults.append(f"docs/SCRIPT.md: {word} is no word of a script")
        elif rows[word] != [words[word]]:
            faults.append(f"docs/SCRIPT.md: {word} has {words[word]} numbers, in one row")
    print("\n".join(faults) if faults else f"the page has the {len(words)} words of scripts")
    return 1 if faults else 0


if __name__ == "__main__":
    sys.exit(main())
