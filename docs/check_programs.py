#!/usr/bin/env python3
"""Checks the programs of the pages for users against the crates that the gate proves and runs.

Each item of a block `rust` stands word for word in one source of its test crates, and that source imports what the
`use` lines of the block do. Of what it imports beside, the block uses nothing: who copies the block has all that it imports. A block `antt` is a file of specs/. A block `rust,ignore` is a fragment and stands nowhere else. A line of a block
that names crates, as `mea_wait: mea_base`, is that of crates.txt. Each test of mea_uses stands in a page. Ends with 1
where one of these does not hold. With --write it writes the lines that name crates anew, before it looks.
"""
import os
import re
import sys

TOP = os.path.join(os.path.dirname(os.path.abspath(__file__)), "..")
PAGES = {
    "docs/USING.md": ["crates/mea_uses", "crates/mea_recorded_tests"],
    "docs/EXECUTORS.md": ["crates/mea_uses", "crates/mea_futures_tests"],
    "crates/mea/CALLING.md": ["crates/mea_uses"],
    "crates/mea_futures/CALLING.md": ["crates/mea_uses"],
}


def read(path):
    with open(os.path.join(TOP, path), encoding="utf-8") as file:
        return file.read()


def files(folder, ending):
    found = []
    for root, folders, names in os.walk(os.path.join(TOP, folder)):
        if "out" in folders:
            folders.remove("out")
        found += [os.path.relpath(os.path.join(root, name), TOP) for name in names if name.endswith(ending)]
    return sorted(found)


def blocks(page):
    """The fenced blocks of a page: the number of the first line, the word at the fence, and the text."""
    found, at, word, lines = [], 0, None, []
    for number, line in enumerate(read(page).split("\n"), 1):
        if line.startswith("```"):
            if word is None:
                at, word, lines = number, line[3:].strip(), []
            else:
                found.append((at, word, "\n".join(lines) + "\n"))
                word = None
        elif word is not None:
            lines.append(line)
    if word is not None:
        raise SystemExit(f"{page}:{at}: a block without an end")
    return found


def names_of(tree, before=""):
    """The names that the tree of one `use` brings in, each with its path."""
    tree = tree.strip()
    if "{" not in tree:
        return [before + tree]
    head, inner = tree.split("{", 1)
    inner, found, depth, part = inner.rsplit("}", 1)[0], [], 0, ""
    for sign in inner + ",":
        depth += (sign == "{") - (sign == "}")
        if sign == "," and depth == 0:
            if part.strip():
                found += names_of(part, before + head.strip())
            part = ""
        else:
            part += sign
    return found


USE = re.compile(r"^(ghost )?use ([^;]+);\n", re.M)


def split(text):
    """What a text imports, and the text without its imports at the left edge."""
    imports = {(use.group(1) or "") + name for use in USE.finditer(text) for name in names_of(use.group(2))}
    return imports, USE.sub("", text).strip("\n")


def uses(program, name):
    """Whether a text has the last word of an imported name, or the signs of an imported operator."""
    word = name.split(" as ")[-1].split("::")[-1].split(".")[-1]
    if "◌" in word:
        return any(sign in program for sign in word.split("◌") if sign)
    return re.search(rf"(?<![\w.:]){re.escape(word)}(?!\w)", program) is not None


def crate_lines():
    return {line.split(":")[0].split()[0]: line for line in read("crates.txt").split("\n") if ":" in line}


def main():
    faults, shown = [], ""
    lines = crate_lines()
    if "--write" in sys.argv[1:]:
        for page in PAGES:
            text = read(page)
            text = re.sub(r"(?m)^    (mea\w*)( [^:\n]*)?:.*$", lambda line: "    " + lines.get(line.group(1), line.group(0).strip()), text)
            with open(os.path.join(TOP, page), "w", encoding="utf-8") as file:
                file.write(text)
    for page, crates in PAGES.items():
        sources = {path: split(read(path)) for crate in crates for path in files(crate + "/src", ".rt")}
        specs = {path: read(path) for crate in crates for path in files(crate + "/specs", ".antt")}
        for at, word, text in blocks(page):
            if word == "antt":
                if text not in specs.values():
                    faults.append(f"{page}:{at}: no file of specs/ is this block")
            elif word == "rust":
                imports, program = split(text)
                pieces = re.split(r"\n\n(?=\S)", program)
                homes = [path for path, (_, source) in sources.items() if all(piece in source for piece in pieces)]
                if not homes:
                    faults.append(f"{page}:{at}: no source has this program")
                elif not any(imports <= sources[path][0] for path in homes):
                    faults.append(f"{page}:{at}: {homes[0]} lacks {sorted(imports - sources[homes[0]][0])}")
                else:
                    home = next(path for path in homes if imports <= sources[path][0])
                    lacks = sorted(name for name in sources[home][0] - imports if uses(program, name))
                    if lacks:
                        faults.append(f"{page}:{at}: the block uses {lacks} and does not import it")
                shown += program
        for number, line in enumerate(read(page).split("\n"), 1):
            match = re.match(r"    (mea\w*)( [^:]*)?:", line)
            if match and line.strip() != lines.get(match.group(1)):
                faults.append(f"{page}:{number}: crates.txt has {lines.get(match.group(1))}")
    for path in files("crates/mea_uses/src", ".rt"):
        for test in re.findall(r"#\[test\]\nfn (\w+)", read(path)):
            if f"fn {test}(" not in shown:
                faults.append(f"{path}: no page shows {test}")
    print("\n".join(faults) if faults else "the pages and the programs are the same")
    return 1 if faults else 0


sys.exit(main())
