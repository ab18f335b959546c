#!/usr/bin/env python3
"""Checks the pages: long sentences, long table cells, dead links, and names that the code does not have.

    python3 docs/check_pages.py [PAGE ..]      all pages, or those named

It tells of each page
  * a sentence of more than 40 words, and a table cell of more than 30;
  * a link to a file or a heading that is not there;
  * of a table with the columns `clause` and `crate`: a clause that does not stand on its call in that crate,
    where a cell reads "`clause`, `clause` of `call`; `call`". A call with no clause before it is to be there;
  * a crate that is not there, but on the page of changes, and a test that a crate of tests does not have, where a
    page reads "`mea_x_tests` `module`, `module::test`". A name with three underscores and more is to stand in some crate;
  * a file that a crate does not have, where a page reads "mea_run `src/machine.rt`", "mea_sem_model `specs/Step`" or
    "`machine.rt` of `mea_run`", and a word that does not stand in it, where it reads "`poured` in mea_sem_core `specs/Core`".

It ends with 1 where it has told of something.
"""

import functools
import pathlib
import re
import sys

TOP = pathlib.Path(__file__).resolve().parent.parent
MOST_WORDS = 40
MOST_IN_A_CELL = 30

CALL = re.compile(r"\s*(?:pub(?:\([a-z ]+\))? )?(?:const |unsafe )*fn (\w+)")
OWNER = re.compile(r"\s*(?:pub(?:\([a-z ]+\))? )?(?:unsafe )?(impl|trait|struct|enum)\b(.*)")
CLAUSE = re.compile(r"\s*ensures (\w+)\b")
SAID_NOTHING = re.compile(r"\s*ensures \{")
CRATE = re.compile(r"`(mea_[a-z]{2}\w*|mea)`")
TESTS = re.compile(r"`(mea_(?:\w+_)?tests|mea_rows)`((?:,? `(?!mea_)[\w:]+`)+)")
FILE = re.compile(r"(?:`(\w+)` in )?`?(mea_[a-z]{2}\w*)`?\s`((?:src|specs|proofs)/[\w/]+(?:\.rt)?)`")
FILE_OF = re.compile(r"`([\w/]+\.rt)` of `(mea_[a-z]{2}\w*)`")
LONG_NAME = re.compile(r"`((?!mea_)[a-z]\w*(?:_\w+){3,})`")


def owner_of(kind, rest):
    """The type that an `impl` is for, or the name of what is declared."""
    if kind == "impl":
        rest = rest.replace("->", "")
        while "<" in rest and ">" in rest:
            shorter = re.sub(r"<[^<>]*>", "", rest)
            if shorter == rest:
                break
            rest = shorter
        rest = rest.split(" where")[0].split(" for ")[-1]
    found = re.search(r"[A-Z]\w*", rest)
    return found.group(0) if found else ""


def calls_of(crate):
    """For each call of a crate, as `call` and as `Type::call`, the names of its clauses."""
    calls = {}
    for path in sorted((TOP / "crates" / crate / "src").rglob("*.rt")):
        owner, call, indent = "", None, 0
        lines = path.read_text().splitlines()
        for at, line in enumerate(lines):
            depth = len(line) - len(line.lstrip())
            found = OWNER.match(line)
            if found:
                head = " ".join(lines[at : at + 12]).split("{")[0]
                owner, indent = owner_of(*OWNER.match(head).groups()), depth
                calls.setdefault(owner, set())
            elif line.startswith("}") and depth <= indent:
                owner = ""
            found = CALL.match(line)
            if found:
                call = found.group(1)
                calls.setdefault(call, set())
                calls.setdefault(f"{owner}::{call}", set())
            found = CLAUSE.match(line)
            if found and call:
                calls[call].add(found.group(1))
                calls[f"{owner}::{call}"].add(found.group(1))
            elif SAID_NOTHING.match(line) and call:
                calls[call].add("ensures")
                calls[f"{owner}::{call}"].add("ensures")
    return calls


def blocks(text):
    """The paragraphs, list items and headings of a page, each with its line, without code and tables."""
    block, start, fenced = [], 0, False
    for number, line in enumerate(text.splitlines(), 1):
        if line.strip().startswith("```"):
            fenced = not fenced
            line = ""
        plain = "" if fenced or line.startswith(("    ", "|", "<")) and not block else line
        begins = re.match(r"\s*([*-]|\d+\.) |#", plain)
        if (not plain.strip() or begins) and block:
            yield start, " ".join(block)
            block = []
        if plain.strip():
            if not block:
                start = number
            block.append(re.sub(r"^\s*([*-]|\d+\.) |^#+ ", "", plain).strip())
    if block:
        yield start, " ".join(block)


def words(text):
    text = re.sub(r"\]\([^)]*\)", "]", text)
    return len([word for word in text.split() if re.search(r"\w", word)])


def sentences(block):
    return re.split(r"(?<=[.?!])\**\s+(?=[\"*`\[(A-Z0-9])", block)


def cells(line):
    return [cell.strip() for cell in line.strip().strip("|").split("|")]


def tables(text):
    """Each table of a page: the cells of its head, and its rows with their lines."""
    head, rows = None, []
    for number, line in enumerate(text.splitlines() + [""], 1):
        if line.startswith("|"):
            if head is None:
                head = cells(line)
            elif not re.fullmatch(r"[|:\- ]+", line):
                rows.append((number, cells(line)))
        elif head is not None:
            yield head, rows
            head, rows = None, []


def headings(path):
    found = set()
    for line in path.read_text().splitlines():
        if line.startswith("#"):
            name = re.sub(r"[^\w\- ]", "", line.lstrip("#").strip().lower())
            found.add(name.replace(" ", "-"))
    return found


def names(text):
    return re.findall(r"`([\w:]+)`", text)


def clause_faults(head, rows, known):
    if "clause" not in head or "crate" not in head:
        return
    clause_at, crate_at = head.index("clause"), head.index("crate")
    for number, row in rows:
        if len(row) != len(head):
            yield number, f"a row of {len(row)} cells where the head has {len(head)}"
            continue
        parts = row[clause_at].split(";")
        groups = row[crate_at].split(";")
        for index, part in enumerate(parts):
            group = groups[min(index, len(groups) - 1)]
            asked, _, called = part.partition(" of `")
            clauses, calls = (names(asked), names("`" + called)) if called else ([], names(part))
            for crate in names(group):
                if crate not in known:
                    there = (TOP / "crates" / crate / "src").is_dir()
                    known[crate] = calls_of(crate) if there else None
                if known[crate] is None:
                    yield number, f"no crate {crate}"
                    continue
                for call in calls:
                    if call not in known[crate]:
                        yield number, f"{crate} has no {call}"
                        continue
                    for clause in clauses:
                        if clause not in known[crate][call]:
                            yield number, f"{crate}: {call} has no clause {clause}"


def words_of(crate):
    """The words of a crate's sources, and the names of its files and folders."""
    found = set()
    for path in (TOP / "crates" / crate).rglob("*"):
        if path.suffix in (".rt", ".antt", ".edit") and "out" not in path.parts:
            found.update(re.findall(r"\w+", path.read_text()), path.with_suffix("").parts)
    return found


@functools.cache
def tests_of(crate):
    """The names of a crate's files, folders and functions."""
    found = set()
    for path in (TOP / "crates" / crate / "src").rglob("*.rt"):
        found.update(re.findall(r"\bfn (\w+)", path.read_text()), path.with_suffix("").parts)
    return found


def name_faults(line, said, tells_changes):
    """What a line names and no crate has. `said` keeps the words of the crates, by crate, and of all under the name of none."""
    if not said:
        for folder in (TOP / "crates").iterdir():
            said[folder.name] = words_of(folder.name)
        said[""] = set().union(*said.values())
    for crate in CRATE.findall(line):
        if crate not in said and not tells_changes:
            yield f"no crate {crate}"
    for crate, tests in TESTS.findall(line):
        for test in names(tests):
            if not set(test.split("::")) <= tests_of(crate):
                yield f"{crate} has no {test}"
    for name in LONG_NAME.findall(line):
        if name not in said[""]:
            yield f"no crate has {name}"


def files_of(crate, name):
    """The files of a crate that a page means by a path or by a name alone. A folder stands for all that is in it."""
    folder = TOP / "crates" / crate
    found = [folder / name, folder / f"{name}.rt", folder / f"{name}.antt"] if "/" in name else folder.glob(f"src/**/{name}")
    there = [path for path in found if path.exists()]
    return [one for path in there for one in (path.rglob("*.*") if path.is_dir() else [path])]


def file_faults(text):
    """The files that a page names and a crate lacks, and the words that do not stand in them. `x` in a name stands for many."""
    said = [(found.start(), found[2], found[3], found[1]) for found in FILE.finditer(text)]
    said += [(found.start(), found[2], found[1], None) for found in FILE_OF.finditer(text)]
    for at, crate, name, word in said:
        if re.search(r"/(x_|X[A-Z])", name) or not (TOP / "crates" / crate).is_dir():
            continue
        number, files = text.count("\n", 0, at) + 1, files_of(crate, name)
        if not files:
            yield number, f"{crate} has no {name}"
        elif word and not any(re.search(rf"\b{word}\b", file.read_text()) for file in files):
            yield number, f"{word} does not stand in {crate} {name}"


def faults(path, known, said):
    text = path.read_text()
    yield from file_faults(text)
    for number, block in blocks(text):
        for sentence in sentences(block):
            if words(sentence) > MOST_WORDS:
                yield number, f"a sentence of {words(sentence)} words: {sentence[:60]}"
    for head, rows in tables(text):
        for number, row in rows:
            for cell in row:
                if words(cell) > MOST_IN_A_CELL:
                    yield number, f"a cell of {words(cell)} words: {cell[:60]}"
        yield from clause_faults(head, rows, known)
    for number, line in enumerate(text.splitlines(), 1):
        for fault in name_faults(line, said, path.name == "CHANGELOG.md"):
            yield number, fault
        for target in re.findall(r"\]\(([^)]+)\)", line):
            if re.match(r"[a-z]+:", target):
                continue
            place, _, heading = target.partition("#")
            page = (path.parent / place).resolve() if place else path
            if not page.exists():
                yield number, f"a link to {target}, which is not there"
            elif heading and heading not in headings(page):
                yield number, f"a link to the heading {target}, which is not there"


def main():
    asked = [pathlib.Path(name).resolve() for name in sys.argv[1:]]
    pages = asked or [*TOP.glob("*.md"), *(TOP / "docs").glob("*.md"), *(TOP / "examples").glob("*.md")]
    told, known, said = 0, {}, {}
    for path in sorted(pages):
        for number, fault in faults(path, known, said):
            print(f"{path.relative_to(TOP)}:{number}: {fault}")
            told += 1
    return 1 if told else 0


if __name__ == "__main__":
    sys.exit(main())
