#!/usr/bin/env python3
"""Lists the definitions that the contract of a public call rests on, in an order in which they can be read.

    python3 tools/reading_order.py                                   # of `search`
    python3 tools/reading_order.py crates/text/src/reading.rt read   # of other calls of a file
    python3 tools/reading_order.py --group TITLE FILE:NAME,NAME ..   # in groups: each lists what those before it have not
    python3 tools/reading_order.py --page                            # the groups of docs/PROMISES.md, which are `GROUPS` below
    python3 tools/reading_order.py --write                           # puts these into the page
    python3 tools/reading_order.py --check                           # fails where the page has something else

`--names` tells which definitions of a file, too. It begins with the words of the call's clauses, and the types and traits
that its head names, and goes on with what each definition cites. The libraries of the kit are not followed. A NAME may also
be a ghost member of an `impl`. What cannot be found is told on standard error; then it fails, and writes nothing.
"""
import argparse
import functools
import os
import re
import sys

os.chdir(os.path.join(os.path.dirname(os.path.abspath(__file__)), ".."))
PAGE, BEGIN, END = "docs/PROMISES.md", "<!-- reading order: made by tools/reading_order.py -->", "<!-- end of the reading order -->"
GROUPS = [
    ("The line that is sold: `search`", "crates/search/src/lib.rt:search"),
    ("What always holds, of a book and of connections", "crates/book/src/histories.rt:every_history_holds", "crates/connection/src/whole.rt:every_connection_is_whole"),
    ("The three tariffs", "crates/tariff/src/minutes.rt:new,total_of,output", "crates/tariff/src/fares.rt:total_of,output", "crates/tariff/src/waits.rt:total_of,output"),
    ("The three calendars, and dates", "crates/calendar/src/weekly.rt:runs", "crates/calendar/src/dated.rt:new,runs",
     "crates/calendar/src/exceptions/layer.rt:new,note,runs", "crates/calendar/src/date.rt:of,written,day,output", "crates/calendar/src/weekday.rt:of,output"),
    ("The journeys at the edges", "crates/connection/src/edges.rt:edge_journeys_hold", "crates/search/src/edges.rt:edge_journeys_are_answered"),
    ("The text", "crates/text/src/reading.rt:read", "crates/text/src/writing.rt:write"),
    ("Refusals by their numbers and words", *(f"crates/{crate}/src/refusal.rt:number,output" for crate in ("tariff", "calendar", "book", "search", "text")),
     "crates/text/src/fault.rt:number,layer,output"),
    ("The desk", "crates/desk/src/question.rt:asked_by", "crates/desk/src/input.rt:next_line,asked_if_any", "crates/desk/src/rows.rt:date_row,exception_row", "crates/desk/src/leg.rt:leg_of",
     "crates/desk/src/report.rt:output", "crates/desk/src/command.rt:command_of,output"),
]
CRATES = [line.split(":")[0] for line in open("crates.txt", encoding="utf-8") if ":" in line]
NAME = r"[^\W\dλ][\w'-]*"
WORD = re.compile(rf"(?<![\w'.])({NAME}(?:::\w+)*)(?:\.({NAME}))?")
BUILT_IN = set("_ Type Unit tt omega record data pub abbrev unfoldable module elim as let in if then else where".split())
BINDERS = re.compile(rf"λ ((?:{NAME} ?)+)|[({{ ]((?:{NAME} )+):|let ({NAME})|([^|\[↦]*)↦|^ *{NAME} ([^=\n]*) =(?= |$)", re.M)
STARTS = re.compile(rf"(?:abbrev |unfoldable |pub |record |data )*({NAME})")
TYPE = re.compile(r"(?:pub(?:\(crate\))? )?(?:struct|enum|trait|type) (\w+)")
IMPORT = re.compile(r"^ *(?:ghost )?use ([\w-]+(?:\.[\w-]+)+)(?:\.\{([^}]*)\})?(?: as (\w+))?;?$", re.M)
USE = re.compile(r"^ *(?:pub )?use (\w+(?:::\w+)*)(?:::\{([^}]*)\})?(?: as (\w+))?;$", re.M)
troubles = {}  # what could not be found, in the order in which it was met


class Part:
    """A definition, or the declaration of a type: how far in it begins, its lines, and its text without comments."""
    def __init__(self, indent, modules=()):
        self.indent = indent
        self.lines = {line for module in modules for line in module.lines}
        self.text = "".join(module.text for module in modules)


@functools.lru_cache(maxsize=None)
class File:
    """What a file defines, by name; its constructors, each with the name of its data; and what each imported word leads to."""
    def __init__(self, path):
        text = open(path, encoding="utf-8").read()
        self.path, self.crate, self.is_source, self.lines = path, path.split("/")[1], path.endswith(".rt"), text.splitlines()
        self.code = [re.sub(r"(^|\s)(--|//).*", "", re.sub(r'"[^"]*"', "", line)).rstrip() for line in self.lines]
        self.parts, self.inner, self.imports = {}, {}, {}
        for pattern, leads_to in ((IMPORT, defined), (USE, self.declared)):
            for path, names, alias in pattern.findall(text):
                for name, _, other in (name.strip().partition(" as ") for name in names.split(",")):
                    self.imports.setdefault(other or name or alias or re.split(r"\W", path)[-1], functools.partial(leads_to, path, name))
        (self.read_source if self.is_source else self.read_specs)()

    def read_specs(self):
        """A line that is not further in than a definition begins the next, or goes on with one that has its name."""
        modules, above, part = [], [], None
        for number, (line, code) in enumerate(zip(self.lines, self.code)):
            if not code:
                above = above + [number] if line else []  # a comment belongs to what stands right below it
                continue
            indent = len(line) - len(line.lstrip())
            start = STARTS.match(code.strip()) if not part or indent <= part.indent else None
            if start:
                modules = [module for module in modules if module.indent < indent]
                is_other = start[1] in ("use", "module", "mod")
                part = Part(indent, modules) if is_other else self.parts.setdefault(start[1], Part(indent, modules))
            part.lines.update(above, [number])
            part.text += f"{code}\n"
            above = []
            if start and start[1] == "module":
                modules, part = modules + [part], None
        for name, part in self.parts.items():
            if re.search(r"^ *(pub )?data ", part.text, re.M):
                self.inner.update(dict.fromkeys(re.findall(rf"^ +({NAME}) :", part.text, re.M), name))

    def read_source(self):
        for first, line in enumerate(self.code):
            if TYPE.match(line):
                last = first if line.endswith((";", "}")) else self.code.index("}", first)
                part = self.parts[TYPE.match(line)[1]] = Part(0)
                part.text = "\n".join(self.code[first:last + 1])
                while first and self.lines[first - 1].startswith(("// ", "#[")):
                    first -= 1
                part.lines = {number for number in range(first, last + 1) if self.lines[number]}

    def contracts(self, name):
        """The head and the clauses of each function of that name, or the ghost member, behind the head of its `impl`."""
        for first, line in enumerate(self.code):
            if re.search(rf"\bfn {name}\b|\bghost {name} =", line):
                last = next(n for n in range(first, len(self.code)) if self.code[n].endswith(("{", "{}", ";")))
                heads = [head for head in self.code[:first] if head.startswith("impl")] if line[0] == " " else []
                yield "\n".join(heads[-1:]) + re.sub(r"\b(fn|ghost|requires|ensures) \w+", "", "\n".join(self.code[first:last + 1]))

    def declared(self, path, name="", after=""):
        """The type or trait, as (file, name), to which a path of the program leads; nothing in a library."""
        first, *path = path.split("::") + ([name] if name else [])
        crate = first if first in CRATES else self.crate
        path = path if first in ("crate", crate) else [first, *path]
        file = f"crates/{crate}/src/{'/'.join(path[:-1]) or 'lib'}.rt"
        return (file, path[-1]) if path and os.path.exists(file) and path[-1] in File(file).parts else None

    def find(self, word, after, bound):
        """What a word of this file stands for; `after` is what is taken of it behind a dot."""
        if word in self.parts or word in self.inner:
            return self.path, word
        if word in self.imports:
            return self.imports[word](after=after)
        if not (self.is_source or word in bound or word in BUILT_IN):
            troubles[f"{self.path}: `{word}` is neither defined nor imported"] = True
        return self.declared(word) if "::" in word else None

    def cited(self, text):
        """What a definition cites. A word that it binds counts too where it has the name of a definition: none has so far."""
        text = re.sub(rf"([{{;]\s*){NAME} =(?!=)", r"\1", text)  # without the fields of records
        bound = {word for found in BINDERS.findall(text) for word in re.findall(NAME, " ".join(found))}
        fields = set(re.findall(r"(\w+):(?!:)", text)) if self.is_source else set()
        found = []
        for file, name in filter(None, (self.find(word, after, bound) for word, after in WORD.findall(text) if word not in fields)):
            if os.path.exists(file) and (name in File(file).parts or name in File(file).inner):
                found.append((file, File(file).inner.get(name, name)))
            else:
                troubles[f"{self.path}: `{name}` is not in {file}"] = True
        return list(dict.fromkeys(found))


def defined(path, name="", after=""):
    """The definition, or the type, as (file, name), to which a path of definitions leads; nothing in a library."""
    kit, crate, folder, *path = path.removesuffix(".TheVariants").split(".") + ["", ""]
    path = [step for step in path if step]
    if kit != "Rattle" or crate not in CRATES or folder != "specs":
        return None
    if path[0] == "declared":
        return f"crates/{crate}/src/{'/'.join(path[1:-1]) or 'lib'}.rt", path[-1]
    return f"crates/{crate}/specs/{'/'.join(path)}.antt", name or after


def follow(roots, reached):
    """Adds what the roots cite, and what that cites, and so on, to what is reached: {(file, name): what it cites}."""
    ahead = []
    for path, name in ((root.split(":")[0], name) for root in roots for name in root.split(":")[-1].split(",")):
        contracts = list(File(path).contracts(name)) if os.path.exists(path) else []
        ahead += [where for text in contracts for where in File(path).cited(text)]
        if not contracts:
            troubles[f"{path}: no function or ghost member is called `{name}`"] = True
    while ahead:
        file, name = where = ahead.pop()
        if where not in reached:
            reached[where] = File(file).cited(File(file).parts[name].text)
            ahead += reached[where]


def in_order(reached):
    """The files, lowest crate first, and in a crate each behind those that it needs."""
    needed, order = {}, []
    for (file, _), cites in reached.items():
        needed.setdefault(file, set()).update({other for other, _ in cites} - {file})

    def visit(file):
        for other in sorted(needed.pop(file, ())):
            visit(other)
        order.append(file)
    while needed:
        visit(min(needed))
    return sorted(dict.fromkeys(order), key=lambda file: CRATES.index(File(file).crate))


def summed(rows):
    files = len({row[0] for row in rows})
    return f"{sum(row[1] for row in rows)} lines in {files} file{'s' if files != 1 else ''}"


def told(groups, has_names):
    """The groups as Markdown."""
    reached, before, sums = {}, set(), ([], [])
    for title, *roots in groups:
        follow(roots, reached)
        kinds = ([], [])
        for path in in_order(reached):
            file = File(path)
            lines, known = ({line for name, part in file.parts.items() if (path, name) in some for line in part.lines} for some in (reached, before))
            new = [f"`{name}`" for name in file.parts if (path, name) in reached.keys() - before]
            left = [f"`{name}`" for name in file.parts if (path, name) not in reached]
            names = ", ".join(new) if file.is_source or len(left) >= len(new) else f"all but {', '.join(left)}" if left else "all" if len(new) == len(file.parts) else "the rest"
            if new:
                kinds[file.is_source].append((path, len(lines - known), len(file.lines), names))
        before = set(reached)
        rows = [f"| `{path[7:]}` | {new} of {size} |" + (f" {names} |" if has_names else "") for path, new, size, names in kinds[0]]
        types = [f"`{path[7:]}`" + (f" ({names})" if has_names else "") for path, _, _, names in kinds[1]]
        yield f"### {title}\n"
        yield "\n".join(["| file | lines |" + " definitions |" * has_names, "|---|---|" + "---|" * has_names, *rows, ""])
        yield f"{summed(kinds[0])}." + (f" Types, {summed(kinds[1])}: {'; '.join(types)}." if types else "") + "\n"
        sums = [so_far + kind for so_far, kind in zip(sums, kinds)]
    yield f"Together {summed(sums[0])}, and {summed(sums[1])} of types.\n"


def main():
    parser = argparse.ArgumentParser(description=__doc__, formatter_class=argparse.RawDescriptionHelpFormatter)
    parser.add_argument("file", nargs="?")
    parser.add_argument("calls", nargs="*")
    parser.add_argument("--group", nargs="+", action="append", default=[])
    for option in ("--names", "--page", "--write", "--check"):
        parser.add_argument(option, action="store_true")
    asked = parser.parse_args()
    if asked.file and not asked.calls:
        parser.error(f"which calls of {asked.file}?")
    groups = [(f"`{name}`", f"{asked.file}:{name}") for name in asked.calls] + asked.group or GROUPS[:1]
    is_page = asked.page or asked.write or asked.check
    text = "\n".join(told(GROUPS if is_page else groups, asked.names or is_page))
    if troubles:
        sys.exit("\n".join(troubles))
    if not asked.write and not asked.check:
        sys.exit(print(text))
    page = open(PAGE, encoding="utf-8").read()
    made = re.sub(f"{BEGIN}\n.*?{END}", lambda _: f"{BEGIN}\n\n{text}\n{END}", page, flags=re.S)
    if BEGIN not in page or END not in page:
        sys.exit(f"{PAGE}: no lines {BEGIN} and {END}")
    if asked.check and made != page:
        sys.exit(f"{PAGE} has another list; python3 tools/reading_order.py --write puts this one there")
    if asked.write:
        open(PAGE, "w", encoding="utf-8").write(made)


if __name__ == "__main__":
    main()
