"""Compares the program with an implementation of the rules that is independent of it.

The files of this folder are written from docs/RULES.md alone, in another language and
without a look at the program's sources, so that a mistake in one is not likely to be
in the other. They make small random timetables, list every connection of a query by
the definition, and compare the cheapest with what the program answers. And they
damage texts, read them by the rules, and compare the verdict.

    python3 compare/compare.py [--program PATH] [--timetables N] [--texts N] [--seed S]

The same numbers give the same timetables and texts. Each difference is printed, and
the files that show it are kept in the folder differences next to this file. The
status is 1 if there was a difference. Nothing but Python 3 is needed.
"""

import sys

sys.dont_write_bytecode = True

import argparse
import tempfile
import time
from collections import Counter
from pathlib import Path
from random import Random

import damage
import random_timetables
import reader
import rules
from program import answers_of, call, heading_of, ride_of

HERE = Path(__file__).resolve().parent
PROGRAM = HERE.parent / "crates" / "pazhenool" / "out" / "pazhenool"
KEPT = HERE / "differences"
MOST_WAYS = 20_000
SECONDS_BETWEEN_LINES = 10


class Comparison:
    """What has been compared so far, and how to do it for one timetable or one text."""

    def __init__(self, program, seed, folder):
        self.program = program
        self.seed = seed
        self.folder = Path(folder)
        self.counts = Counter()
        self.differences = 0

    def put(self, files):
        """Makes these the only files in the folder."""
        for old in self.folder.iterdir():
            old.unlink()
        for name, content in files.items():
            (self.folder / name).write_bytes(content)

    def differ(self, name, words, said):
        """Tells a difference and keeps the files that show it."""
        self.differences += 1
        kept = KEPT / f"seed-{self.seed}-{name}"
        kept.mkdir(parents=True, exist_ok=True)
        for file in self.folder.iterdir():
            (kept / file.name).write_bytes(file.read_bytes())
        (kept / "said.txt").write_bytes(said.out + said.err)
        with open(kept / "difference.txt", "a") as told:
            told.write(words + "\n")
        print(f"difference, see {kept}: {words}", flush=True)

    # Timetables

    def timetable(self, at):
        """Asks the program the queries of a random timetable and compares each answer."""
        name = f"timetable-{at}"
        case = random_timetables.random_case(Random(f"{self.seed} timetable {at}"))
        self.counts["timetables"] += 1
        words = ["search", "timetable.txt"]
        files = {"timetable.txt": reader.write(case.trains)}
        fault = None
        for option, calendar in (("dates", case.dates), ("exceptions", case.exceptions)):
            if calendar:
                self.counts[option] += 1
                words += [f"--{option}", f"{option}.txt"]
                files[f"{option}.txt"] = "".join(line + "\n" for line in calendar.lines).encode()
                if calendar.fault:
                    line, number = calendar.fault
                    fault = f"{option}.txt:{line}: " + (f"refused {number}: " if number else "expected ")
        lines, listed = case.queries, []
        if not fault:
            lines, listed = self.list_connections(case)
        asked = "\n".join(line.text for line in lines) + ("\n" if at % 2 else "")
        files["queries.txt"] = asked.encode()
        self.put(files)
        said = call(self.program, words, self.folder, asked.encode())
        if fault:
            self.counts["calendar files with a fault"] += 1
            if said.status != 1 or said.out or fault.encode() not in said.err:
                self.differ(name, f"expected status 1 and {fault}", said)
            return
        answers = answers_of(said.out)
        if said.status or said.err or answers is None or len(answers) != len(listed):
            self.differ(name, f"expected {len(listed)} answers and status 0", said)
            return
        for (number, query, connections), answer in zip(listed, answers):
            fault = self.fault_of_answer(case.trains, number, query, connections, answer)
            if fault:
                self.differ(name, f"line {number} of queries.txt: {fault}", said)

    def list_connections(self, case):
        """The lines to ask, and of those that ask something the number, the query and all its connections.

        Where there are too many ways, the change limit is lowered until they can be listed.
        """
        calendar = rules.Dated(case.dates.rows) if case.dates else rules.Weekly()
        if case.exceptions:
            calendar = rules.Exceptions(calendar, case.exceptions.rows)
        lines, listed = [], []
        for number, (text, query) in enumerate(case.queries, 1):
            connections = {}
            if query and not rules.refusal(query):
                connections = rules.every_connection(case.trains, calendar, query, MOST_WAYS)
                while connections is None:
                    self.counts["limits lowered"] += 1
                    query = query._replace(limit=query.limit - 1)
                    connections = rules.every_connection(case.trains, calendar, query, MOST_WAYS)
                fields = text.split(" ")
                text = " ".join([*fields[:4], str(query.limit), *fields[5:]])
            lines.append(random_timetables.Line(text, query))
            if text:
                listed.append((number, query, connections))
        return lines, listed

    def fault_of_answer(self, trains, number, query, connections, answer):
        """What is wrong with an answer, or None."""
        self.counts["queries"] += 1
        if answer is None:
            return "expected an answer in another form"
        if query is None:
            self.counts["unreadable"] += 1
            return None if answer.unreadable == number else f"expected LINE {number}: expected .."
        if answer.heading != heading_of(query):
            return f"expected the heading {heading_of(query)}"
        refused = rules.refusal(query) or (None if connections else 17)
        if refused:
            self.counts[f"refused {refused}"] += 1
            return None if answer.refused == refused else f"expected refused {refused}"
        self.counts["with a connection"] += 1
        self.counts["connections listed"] += len(connections)
        cheapest = min(connections.values())
        price = query.tariff.price(cheapest)
        if answer.price != price:
            return f"expected the cost {price}"
        rides = tuple(ride_of(trains, query, printed) for printed in answer.rides)
        if rides not in connections:
            return f"the rides {rides} are no connection"
        if query.tariff.price(rules.cost(trains, query, rides)) != price:
            return f"the rides {rides} do not cost {price}"
        if answer.count != len(rides):
            return f"expected rides {len(rides)}"
        self.counts[f"rides {len(rides)}"] += 1
        return None

    # Texts

    def text(self, at):
        """Lets the program check and print a text, and compares its verdict with the reader's."""
        large = damage.large_texts()
        text = large[at] if at < len(large) else damage.random_text(Random(f"{self.seed} text {at}"))
        self.put({"text.txt": text})
        self.counts["texts"] += 1
        try:
            trains = reader.read(text)
            verdict = f"{len(trains)} trains, {sum(len(train.stops) for train in trains)} stops\n"
            self.counts["accepted"] += 1
            if reader.write(trains) != text:
                raise AssertionError(f"the reader here does not give back text {at}")
        except reader.Fault as fault:
            trains = None
            verdict = f"text.txt:{fault.line}:{fault.column}: refused {fault.number}: "
            self.counts[f"text refused {fault.number}"] += 1
        said = call(self.program, ["check", "text.txt"], self.folder)
        if trains is not None:
            if said != (0, verdict.encode(), b""):
                self.differ(f"text-{at}", f"check: expected {verdict!r} and status 0", said)
            said = call(self.program, ["print", "text.txt"], self.folder)
            if said != (0, text, b""):
                self.differ(f"text-{at}", "print: expected the text itself and status 0", said)
            return
        if said.status != 1 or said.err or not one_line(said.out, verdict):
            self.differ(f"text-{at}", f"check: expected {verdict!r} and status 1", said)
        command = "search" if at % 2 else "print"
        said = call(self.program, [command, "text.txt"], self.folder)
        if said.status != 1 or said.out or not one_line(said.err, verdict):
            self.differ(f"text-{at}", f"{command}: expected {verdict!r} on standard error and status 1", said)


def one_line(said, start):
    """Whether one line was said, and it starts so and goes on."""
    return said.startswith(start.encode()) and said.endswith(b"\n") and len(said) > len(start) + 1 \
        and said.count(b"\n") == 1


def line_of_counts(counts):
    """All that was counted, in one line."""
    def by_number(start, but=None):
        numbers = sorted(int(name[len(start):]) for name in counts if name.startswith(start))
        numbers = [number for number in numbers if number != but]
        return ", ".join(f"{number}: {counts[f'{start}{number}']}" for number in numbers) or "none"

    refused = sum(counts[f"refused {number}"] for number in (13, 14, 22))
    return (f"timetables {counts['timetables']} ({counts['dates']} with dates, {counts['exceptions']} with "
            f"exceptions, {counts['calendar files with a fault']} with a fault in these), queries "
            f"{counts['queries']}, unreadable {counts['unreadable']}, refused {refused} "
            f"({by_number('refused ', 17)}), no connection {counts['refused 17']}, with a connection {counts['with a connection']} (rides "
            f"{by_number('rides ')}; {counts['connections listed']} connections listed, "
            f"limits lowered {counts['limits lowered']}); texts {counts['texts']}, "
            f"accepted {counts['accepted']}, refused {by_number('text refused ')}")


def main():
    words = argparse.ArgumentParser(description="Compares the program with the rules.")
    words.add_argument("--program", default=PROGRAM, type=Path)
    words.add_argument("--timetables", default=3_000, type=int)
    words.add_argument("--texts", default=20_000, type=int)
    words.add_argument("--seed", default=1, type=int)
    asked = words.parse_args()
    if not asked.program.is_file():
        words.error(f"there is no program at {asked.program}")
    with tempfile.TemporaryDirectory() as folder:
        comparison = Comparison(asked.program.resolve(), asked.seed, folder)
        begun = told = time.monotonic()
        for compare, count in ((comparison.timetable, asked.timetables), (comparison.text, asked.texts)):
            for at in range(count):
                compare(at)
                now = time.monotonic()
                if now - told >= SECONDS_BETWEEN_LINES:
                    told = now
                    print(f"{now - begun:.0f} s: {comparison.counts['timetables']} timetables, "
                          f"{comparison.counts['queries']} queries, {comparison.counts['texts']} texts, "
                          f"{comparison.differences} differences", flush=True)
    print(f"{line_of_counts(comparison.counts)}; differences {comparison.differences}")
    return 1 if comparison.differences else 0


if __name__ == "__main__":
    sys.exit(main())
