#!/usr/bin/env python3
"""Checks docs/SURFACE.md against the sources, in both ways: each path of its second column is a public item of its
module, or a call of a type there, and each public item of a module of `mea` has a row, or a name in the list at the end.
Ends with 1 where one does not, and where a row has no answer.
"""
import os
import re
import sys

HERE = os.path.dirname(os.path.abspath(__file__))
sys.path.insert(0, os.path.join(HERE, "..", "tools"))
sys.dont_write_bytecode = True
import calling


def surface():
    """Of each module its items, each with the calls of its type: an alias has those of the type that it stands for."""
    modules, module = {}, None
    aliases = []
    for line in calling.page("mea").split("\n"):
        heading = re.match(r"### `([\w:]+)`", line)
        item = re.match(r"(struct|enum|trait|type) (\w+)", line)
        call = re.match(r"fn (?:(\w+)::)?(\w+)", line)
        if heading:
            module = modules.setdefault(heading.group(1), {})
        elif item and module is not None:
            module.setdefault(item.group(2), set())
            if item.group(1) == "type":
                aliases.append((module, item.group(2), re.search(r"= (?:\w+::)*(\w+)", line).group(1)))
        elif call and module is not None:
            module.setdefault(call.group(1) or call.group(2), set())
            if call.group(1):
                module[call.group(1)].add(call.group(2))
    for module, name, target in aliases + aliases:
        module[name] |= module.get(target, modules["mea"].get(target, set()))
    return modules


def main():
    with open(os.path.join(HERE, "SURFACE.md"), encoding="utf-8") as file:
        text = file.read()
    modules, faults, told = surface(), [], set()
    for number, line in enumerate(text.split("\n"), 1):
        if not line.startswith("|"):
            continue
        if "| – |" in line:
            faults.append(f"{number}: a row has no answer")
        for path in re.findall(r"mea::[\w:]+", line.split("|")[2]):
            module = max((name for name in modules if path.startswith(name + "::")), key=len)
            name, *call = path[len(module) + 2 :].split("::")
            told.add((module, name))
            known = modules[module].get(name)
            if known is None or len(call) > 1 or (call and call[0] not in known):
                faults.append(f"{number}: {path} is not there")
    told |= {("mea", name) for name in re.findall(r"`(\w+)`", text.split("## What is here beside")[1])}
    for module, names in modules.items():
        faults += [f"{module}::{name} has no row" for name in sorted(names) if (module, name) not in told]
    print("\n".join(f"docs/SURFACE.md: {fault}" for fault in faults) if faults else "the table and the sources agree")
    return 1 if faults else 0


sys.exit(main())
