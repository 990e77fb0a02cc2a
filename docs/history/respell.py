#!/usr/bin/env python3
"""Brings the names that this repository's specs/ and proofs/ define to the spelling of today's library.

Run once, at the top of the repository, right after the kit's own port script:

    python3 tools/respell.py

A word is in snake case (`most-steps` becomes `most_steps`), a type or a fact in camel case (`Leads-on` becomes
`LeadsOn`). Only names that a file of specs/ or proofs/ declares are turned, and local names that stand beside them;
names of a library, names that Rattle makes (the goals and steps in the folder of a function's proof) and everything
in src/ but its clauses stay. Names that would fall together with another are printed, and then nothing is written.
"""
import glob
import re
import sys

NAME = re.compile(r"(?<![\w'-])([A-Za-z_][\w']*(?:-[\w']+)+)(?![\w'-])")
WORD = re.compile(r"(?<![\w'-])([A-Za-z_][\w'-]*)")
DECLARED = re.compile(r"\s*(?:abbrev |unfoldable )?(?:pub )?(?:abbrev |unfoldable )?([A-Za-z_][\w'-]*)\s*:(?!:)")
TYPE = re.compile(r"\s*(?:pub )?(?:data|record) ([A-Za-z_][\w'-]*)")
LOCAL = re.compile(r"(?:\blet |\bopen |[({]|\bλ )((?:[\w'-]+ )*[\w'-]+)(?= (?:=|:)|\.)")
OF_A_FUNCTION = re.compile(r"/proofs/.*/(?:Answers|Invariants|Choices|Proof)\.antt$")


def antt_files():
    return sorted(glob.glob("crates/*/specs/**/*.antt", recursive=True) + glob.glob("crates/*/proofs/**/*.antt", recursive=True))


def goals_of(text):
    """The names that a function's proof file answers: Rattle makes these."""
    return set(re.findall(r"\b(?:goal|given)\.([\w'-]+)", text)) | {g.split("·")[0] for g in re.findall(r"\b(?:goal|given)\.([\w'·-]+)", text)}


def imported(text):
    """The names that a file takes from a library."""
    names = set()
    for path, items in re.findall(r"(?m)^use (\S+?)\.\{(.*)\}", text):
        if not re.match(r"Rattle\.(?:%s)\." % "|".join(CRATES), path):
            names |= {n.strip().split(" as ")[0] for n in items.split(",")}
    return names


def collect(files):
    names = set()
    foreign = set()
    for f in files:
        text = open(f, encoding="utf-8").read()
        goals = goals_of(text) if OF_A_FUNCTION.search(f) else set()
        foreign |= imported(text)
        for line in text.splitlines():
            if line.strip().startswith("--") or line.startswith("use "):
                continue
            found = [m.group(1) for m in (DECLARED.match(line), TYPE.match(line)) if m]
            for m in LOCAL.finditer(line):
                found += m.group(1).split()
            names |= {n for n in found if NAME.fullmatch(n) and n not in goals}
    for f in files + SOURCES:
        for items in re.findall(r"(?m)^(?:ghost )?use \S+?\.\{(.*)\}", open(f, encoding="utf-8").read()):
            names |= {n.split(" as ")[1].strip() for n in items.split(",") if " as " in n and NAME.fullmatch(n.split(" as ")[1].strip())}
    generated = set()
    for f in files:
        if OF_A_FUNCTION.search(f):
            generated |= goals_of(open(f, encoding="utf-8").read())
    return names - foreign - generated


# `NoConnection` is a refusal of the search
APART = {"No-connection": "HasNoConnection"}


def respelled(name):
    if name in APART:
        return APART[name]
    if name[0].isupper():
        return "".join(p[0].upper() + p[1:] for p in name.split("-"))
    return name.replace("-", "_")


def turn(text, names, clauses_only=False):
    def one(m):
        return respelled(m.group(1)) if m.group(1) in names else m.group(1)

    out = []
    for line in text.splitlines(keepends=True):
        mark = "//" if clauses_only else "--"
        if line.strip().startswith(mark):
            # prose: only a name between backticks is meant as one
            line = re.sub(r"`[^`]*`", lambda m: NAME.sub(one, m.group(0)), line)
        else:
            line = NAME.sub(one, line)
        out.append(line)
    return "".join(out)


def clashes(text, names):
    """Names of a file that are two before and would be one after."""
    text = re.sub(r"(?m)^\s*(?:--|//).*$", "", text)
    # a function of src/ is not a name of a clause, and a path of modules is not a name of a proof
    text = re.sub(r"\bfn \w+|\.?\b\w+\(|(?m:^use .*\.(?:Goals|Given) as \w+$)|(?m:^(?:pub )?use .*;$)|\bmod \w+;", "", text)
    words = set(WORD.findall(text))
    return sorted(n for n in names & words if respelled(n) in words)


CRATES = sorted(line.split(":")[0].split()[0] for line in open("crates.txt") if ":" in line and not line.startswith("#"))
FILES = antt_files()
SOURCES = sorted(glob.glob("crates/*/src/**/*.rt", recursive=True))
NAMES = collect(FILES)
together = {}
for n in NAMES:
    together.setdefault(respelled(n), set()).add(n)
bad = [sorted(v) for v in together.values() if len(v) > 1]
for f in FILES + SOURCES:
    bad += [(f, n) for n in clashes(open(f, encoding="utf-8").read(), NAMES)]
for b in bad:
    print("fall together:", b)
if bad and "--anyway" not in sys.argv:
    sys.exit(1)
for f in FILES + SOURCES:
    old = open(f, encoding="utf-8").read()
    new = turn(old, NAMES, f.endswith(".rt"))
    if new != old:
        open(f, "w", encoding="utf-8").write(new)
print(len(NAMES), "names respelled")
if "--list" in sys.argv:
    for n in sorted(NAMES):
        print(n, respelled(n))
