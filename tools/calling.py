#!/usr/bin/env python3
"""Writes the quotes of crates/mea/CALLING.md and crates/mea_futures/CALLING.md: the public calls of each type, with
their contracts and what their doc comments say, as they stand in the sources. All from the line '## Contracts' on is
written anew. With --check nothing is written, and the status is 1 where a page differs from the sources.

    tools/calling.py CRATE ..      prints the same of any crate, as of a core or a hall, and writes nothing
"""
import os
import re
import sys

TOP = os.path.join(os.path.dirname(os.path.abspath(__file__)), "..", "crates")

# The pages: for each module its crate, its own file, and the files and folders below it.
PAGES = {
    "mea": [
        ("mea::semaphore", "mea_sync", "semaphore.rt", ["semaphore"]),
        ("mea::mutex", "mea_sync", "mutex.rt", ["mutex", "mapped.rt"]),
        ("mea::rwlock", "mea_sync", "rwlock.rt", ["rwlock", "mapped.rt"]),
        ("mea::condvar", "mea_sync", "condvar.rt", ["condvar"]),
        ("mea::barrier", "mea_link", "barrier.rt", []),
        ("mea::latch", "mea_link", "latch.rt", []),
        ("mea::waitgroup", "mea_link", "waitgroup.rt", []),
        ("mea::shutdown", "mea_link", "shutdown.rt", ["shutdown"]),
        ("mea::mpsc", "mea_link", "mpsc.rt", ["mpsc"]),
        ("mea::broadcast::overflow", "mea_link", "broadcast/overflow.rt", []),
        ("mea::oneshot", "mea_shot", "lib.rt", ["."]),
        ("mea::once", "mea_keep", "once.rt", ["once", "keyed", "keyed.rt"]),
        ("mea::singleflight", "mea_keep", "singleflight.rt", []),
        ("mea::admission", "mea", "admission.rt", ["admission"]),
        ("mea::atomicbox", "mea", "atomicbox.rt", ["atomicbox"]),
        ("mea", "mea_wait", "lib.rt", ["."]),
    ],
    "mea_futures": [("mea_futures", "mea_futures", "lib.rt", ["."])],
}
MARK = "## Contracts\n"
HEAD = """
These are quoted from the sources by `tools/calling.py`: a call, its clauses, and behind `///` what its doc comment says. A name in a
clause that is no parameter comes from the `ghost use` lines of the quoted file. `impl` tells the bounds of what follows, or which trait a
type meets: `End` has `end`, `Waits` and `Future` have `poll`.
"""
ITEM = re.compile(r"pub (?:ghost )?(fn|struct|enum|trait|type|use) ")


def read(path):
    with open(path, encoding="utf-8") as file:
        return file.read()


def below(folder, own, parts):
    """The files of a module, its own first."""
    found = [os.path.join(folder, own)]
    for part in parts:
        path = os.path.join(folder, part)
        if part.endswith(".rt"):
            found.append(path)
            continue
        for root, _, names in sorted(os.walk(path)):
            found += [os.path.join(root, name) for name in sorted(names) if name.endswith(".rt")]
    return list(dict.fromkeys(found))


def items(text):
    """The items at the left edge of a file: the lines of each, its doc comment and attributes before it."""
    found, item = [], []
    for line in text.split("\n"):
        if item and line and not line[0].isspace() and line[0] not in ")}>{" and not line.startswith(("where", "///", "#[")):
            if not all(one.startswith(("///", "#[", "//")) for one in item if one):
                found.append(item)
                item = []
        item.append(line)
        if line in ("}", "};") or (line[:1] not in (" ", "") and line.endswith((";", "{}"))):
            found.append(item)
            item = []
    return found


def doc(lines):
    return " ".join(line.strip()[3:].strip() for line in lines if line.strip().startswith("///"))


def squeeze(text):
    text = re.sub(r"\s+", " ", text).strip()
    return re.sub(r",? ([)\]>])", r"\1", re.sub(r"([(\[<]) ", r"\1", text)).rstrip(" ,")


def signature(lines):
    """The head of a function up to its clauses, and the clauses."""
    head, clauses, depth = [], [], 0
    for line in lines:
        word = line.strip()
        if clauses and depth > 0:
            clauses[-1] += " " + word
        elif re.match(r"(requires|ensures)\b", word):
            clauses.append(word)
        elif clauses or word == "{":
            break
        else:
            head.append(word)
            if word.endswith(("{", ";")) or word.endswith("}"):
                break
            continue
        depth = clauses[-1].count("{") - clauses[-1].count("}")
        if depth == 0 and word.endswith(";"):
            break
    text = squeeze(" ".join(head))
    text = re.sub(r" ?\{[^{}]*\}?$|;$", "", text).rstrip(" ,")
    quoted = []
    for clause in clauses:
        before, rest = clause.rstrip(";").split("{", 1)
        quoted.append(f"{before.strip()}: {re.sub(chr(92) + 's+', ' ', rest.rsplit('}', 1)[0]).strip()}")
    return text, quoted


def told(head, clauses, said):
    lines = [head] + ["  " + clause for clause in clauses]
    if said:
        lines.append("  /// " + said)
    return lines


def variants(lines):
    """The variants of an enum."""
    return [line.strip().rstrip(",") for line in lines if re.match(r"    [A-Z]", line)]


def ghosts(lines):
    """What an impl says of the predicates of its trait."""
    return ["  " + line.strip() for line in lines if re.match(r"    ghost \w+ = ", line)]


def methods(lines, owner, is_trait):
    """The calls inside an impl or a trait."""
    out, at = [], 0
    while at < len(lines):
        if lines[at].startswith("    ") and re.match(r"    (pub |final )?fn \w", lines[at]):
            is_shown = is_trait or lines[at].startswith("    pub fn")
            start = at
            before = start - 1
            while before >= 0 and lines[before].strip().startswith(("///", "#[")):
                before -= 1
            head, clauses = signature(lines[start:])
            if is_shown:
                head = re.sub(r"^(pub |final )?fn ", f"fn {owner}::", head)
                out += told(head, clauses, doc(lines[before + 1 : start]))
        at += 1
    return out


def given_again(text):
    """The names that a file brings in for others."""
    names = set()
    for use in re.finditer(r"^pub use ([^;]+);", text, re.M):
        names |= set(re.findall(r"\b[a-z]*[A-Z]\w*|\b\w+(?=\s*[,}])|\b\w+$", use.group(1)))
    return names


def module(folder, own, parts, wanted=None):
    """What the public items of a module are, as lines."""
    out, seen = [], set()
    files = below(folder, own, parts)
    names = given_again(read(files[0])) if wanted is None else wanted
    for path in files:
        is_own = path == files[0] and wanted is None
        for lines in items(read(path)):
            start = next((n for n, line in enumerate(lines) if line and not line.startswith(("///", "//", "#[", "#!"))), None)
            if start is None:
                continue
            first = lines[start]
            said = doc(lines[:start])
            if first.startswith("pub fn "):
                head, clauses = signature(lines[start:])
                name = re.match(r"pub fn (\w+)", first).group(1)
                if is_own or name in names:
                    out += [""] + told(head[4:], clauses, said)
                continue
            match = re.match(r"pub (struct|enum|trait|type) (\w+)", first)
            if match and (is_own or match.group(2) in names):
                seen.add(match.group(2))
                head = squeeze(" ".join(lines[start:]) if match.group(1) == "type" else first)
                head = re.sub(r"\s*[{;(].*$", "", head) if match.group(1) != "type" else head.rstrip(";")
                derives = re.findall(r"#\[derive\(([^)]*)\)\]", "\n".join(lines[:start]))
                if match.group(1) == "enum":
                    head += " { " + ", ".join(variants(lines[start + 1 :])) + " }"
                made = f"  derives {squeeze(', '.join(derives))}" if derives else ""
                out += [""] + [head[4:]] + ([made] if made else []) + (["  /// " + said] if said else [])
                if match.group(1) == "trait":
                    out += methods(lines[start + 1 :], match.group(2), True)
                continue
            if first.startswith("impl"):
                text = " ".join(lines[start:])
                head = squeeze(text[: text.index("{")])
                target = head.split(" for ")[-1] if " for " in head else re.sub(r"^impl(<.*?>)? (?=[A-Z])", "", strip_generics(head))
                name = re.match(r"(?:&'?\w* ?)?(\w+)", target.strip())
                if not name or not (name.group(1) in names or is_own or name.group(1) in seen):
                    continue
                if " for " in head:
                    if re.search(r"\b(End|Waits<|Future|Stream|Sink<|Drop|Deref|DerefMut|Display|Error|From<|Init<|Claim<|Claiming<)", head.split(" for ")[0]):
                        out += ["", head] + ghosts(lines[start + 1 :])
                    continue
                shown = methods(lines[start + 1 :], name.group(1), False)
                if shown:
                    out += ["", head] + shown
    return renamed(out, read(files[0])) if wanted is None else out


def renamed(lines, text):
    """The lines with the names under which a file gives items of others again."""
    for name, other in re.findall(r"(\w+) as (\w+)", " ".join(re.findall(r"^pub use [^;]+;", text, re.M))):
        lines = [re.sub(rf"\b{name}\b", other, line) for line in lines]
    return lines


def strip_generics(head):
    """An impl's head without the parameters right behind its word."""
    if not head.startswith("impl<"):
        return head
    depth = 0
    for at, sign in enumerate(head):
        if sign == "<":
            depth += 1
        elif sign == ">" and head[at - 1] != "-":
            depth -= 1
            if depth == 0:
                return "impl" + head[at + 1 :]
    return head


def shared(crate, own, wanted=None):
    """What a file gives again of other crates, from their sources: all, or the names that are wanted."""
    out = []
    for use in re.finditer(r"^pub use (mea_\w+)::\{?([^};]*)\}?;", read(os.path.join(TOP, crate, "src", own)), re.M):
        names = set(re.findall(r"\b[A-Z]\w*", use.group(2)))
        names = names if wanted is None else names & wanted
        if names:
            out += module(os.path.join(TOP, use.group(1), "src"), "lib.rt", ["."], names) + shared(use.group(1), "lib.rt", names)
    return renamed(out, read(os.path.join(TOP, crate, "src", own)))


def page(crate):
    out = [MARK.strip(), HEAD.strip("\n")]
    for path, source, own, parts in PAGES[crate]:
        lines = shared("mea", "lib.rt") if path == "mea" else module(os.path.join(TOP, source, "src"), own, parts) + shared(source, own)
        out += ["", f"### `{path}`", "", "```text"] + "\n".join(lines).strip("\n").split("\n") + ["```"]
    return "\n".join(out) + "\n"


def of_crate(crate):
    """The public calls of a crate, as lines."""
    return module(os.path.join(TOP, crate, "src"), "lib.rt", ["."]) + shared(crate, "lib.rt")


def main():
    status = 0
    crates = [word for word in sys.argv[1:] if not word.startswith("-")]
    for crate in crates:
        if not os.path.isfile(os.path.join(TOP, crate, "src", "lib.rt")):
            print(f"calling.py: there is no crate {crate} with calls", file=sys.stderr)
            return 1
        print("\n".join([f"# {crate}"] + of_crate(crate)))
    if crates:
        return 0
    for crate in PAGES:
        path = os.path.join(TOP, crate, "CALLING.md")
        now = read(path)
        want = now.split(MARK)[0] + page(crate)
        if now == want:
            continue
        if "--check" in sys.argv[1:]:
            print(f"crates/{crate}/CALLING.md differs from the sources: run tools/calling.py")
            status = 1
        else:
            with open(path, "w", encoding="utf-8") as file:
                file.write(want)
    return status


if __name__ == "__main__":
    sys.exit(main())
