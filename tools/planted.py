#!/usr/bin/env python3
"""Makes the tables of docs/PLANTED.md: each must-fail edit, and the promise that refused it.

    rt ci 2>&1 | python3 tools/planted.py

It reads the lines in which the gate tells why an edit was refused, and prints a table for each crate.
"""
import glob
import os
import re
import sys

LINE = re.compile(r"must-fail (\w+)/(\w+)\.edit: refused, as it must be: (.*)")
PROOF = re.compile(r"(?:note: )?\./proofs/(\S+?)/(?:Answers|Invariants|Proof)\.antt:\d+:\d+: \S+ `([\w+-]+)`")
LEMMA = re.compile(r"(?:note: )?\./proofs/(\w+)\.antt:\d+:\d+: \S+ `([\w+-]+)`")
SOURCE = re.compile(r"(?:note: )?(src/\S+?\.rt):(\d+):\d+: (.*)")
GOAL = re.compile(r"\(`([\w+-]+)`\)")


def function_at(path, line):
    """The function in which a line of a source file stands, with its type where it has one."""
    name, owner = "", ""
    for number, text in enumerate(open(path, encoding="utf-8"), 1):
        impl = re.match(r"impl\b(?:<.*?>)? (?:([\w:]+)(?:<.*?>)? for )?([\w&]+)", text)
        if impl:
            owner = f"{impl[1].split('::')[-1]} of {impl[2]}" if impl[1] else impl[2]
        if re.match(r"(pub )?(trait|struct|enum|fn|mod|use)\b", text):
            owner = ""
        found = re.match(r"\s*(?:pub(?:\(crate\))? )?(?:final )?(?:const )?fn (\w+)", text)
        if found:
            name = f"{found[1]}, {owner}" if owner and text[0] == " " else found[1]
        if number >= line and name:
            return name
    return name


def promise(goal):
    """What a goal's name says was not kept, in words."""
    clause = re.search(r"-clause-(\w+)", goal)
    if goal.startswith("returns"):
        return f"its promise `{clause[1]}`" if clause else "its promise"
    if "preserved" in goal or goal.endswith("-init"):
        return "the invariant of its loop"
    if goal.endswith("requires"):
        return f"what a call in it asks (`{goal.rsplit('-', 1)[0]}`)"
    if goal.startswith(("overflow", "bounds", "slice_bounds", "range")):
        return "that no sum overflows and no index is out of range"
    if goal.startswith("invariant_of"):
        return "the invariant of a type"
    return f"`{goal}`"


def refused_by(crate, told):
    proof = PROOF.search(told)
    if proof:
        path = proof[1].split("/")
        return f"`{path[-1].lstrip('+')}`, {path[-2]}: {promise(proof[2])}" if len(path) > 2 and path[-2][0].isupper() else f"`{path[-1].lstrip('+')}`: {promise(proof[2])}"
    lemma = LEMMA.search(told)
    if lemma:
        return f"the lemma `{lemma[2]}` on its definition"
    source = SOURCE.search(told)
    if source:
        goal = GOAL.search(source[3])
        function = function_at(f"crates/{crate}/{source[1]}", int(source[2]))
        name, _, owner = function.partition(", ")
        where = f"`{name}`, {owner}" if owner else f"`{name}`"
        if "impl" in source[3] or "law" in source[3]:
            return f"{where}: a law of its trait"
        return f"{where}: {promise(goal[1]) if goal else 'its promise'}"
    return told[:80]


tables = {}
for text in sys.stdin:
    found = LINE.search(text)
    if found and os.path.exists(f"crates/{found[1]}/must-fail/{found[2]}.edit"):
        tables.setdefault(found[1], {})[found[2]] = refused_by(found[1], found[3])
crates = [line.split(":")[0] for line in open("crates.txt") if ":" in line and line[0] != "#"]
for crate in crates:
    edits = sorted(os.path.basename(e)[:-5] for e in glob.glob(f"crates/{crate}/must-fail/*.edit"))
    if not edits:
        continue
    print(f"## `{crate}`: {len(edits)}\n\n| bug | refused by |\n|---|---|")
    for edit in edits:
        print(f"| {edit.replace('_', ' ')} | {tables.get(crate, {}).get(edit, '?')} |")
    print()
