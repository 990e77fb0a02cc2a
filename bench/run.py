#!/usr/bin/env python3
"""Measures the program against its peers, on the same timetables and queries, and checks that their answers agree.

    python3 bench/run.py               # some minutes; prints tables
    python3 bench/run.py --quick       # about a minute: small timetables, few queries, two runs
    python3 bench/run.py --no-graph    # without the peer that needs petgraph
"""
import argparse
import pathlib
import sys

import faults
import measure
import peers
import table
import timetables
from cases import cases, shapes

OUT = peers.OUT
PROGRAM = peers.HERE.parent / "crates/pazhenool/out/pazhenool"
# the graph answers only so many queries of a batch that it may take about so many seconds
GRAPH_SECONDS = 6


def options():
    asked = argparse.ArgumentParser(description=__doc__, formatter_class=argparse.RawDescriptionHelpFormatter)
    asked.add_argument("--quick", action="store_true", help="--trains 64 --queries 40 --runs 2")
    asked.add_argument("--trains", type=int, default=512, help="in the largest timetables (512)")
    asked.add_argument("--queries", type=int, default=100, help="in a batch (100)")
    asked.add_argument("--runs", type=int, default=5, help="of each batch, the best of which counts (5)")
    asked.add_argument("--program", type=pathlib.Path, default=PROGRAM)
    asked.add_argument("--no-graph", action="store_true", help="without petgraph")
    given = asked.parse_args()
    if given.quick:
        given.trains, given.queries, given.runs = 64, 40, 2
    if not given.program.exists():
        asked.error(f"{given.program} is not there: `rt run` in crates/pazhenool builds it; or give --program FILE")
    return given


class Bench:
    def __init__(self, given):
        self.given = given
        self.graph = None if given.no_graph else peers.graph()
        self.plain = peers.plain()
        self.nothing = self.file("nothing.queries", "")

    def file(self, name, text):
        (OUT / "cases").mkdir(parents=True, exist_ok=True)
        path = OUT / "cases" / name
        path.write_text(text)
        return path

    def timetable(self, shape):
        text = timetables.timetable(shape.seed, shape.trains, shape.stations, shape.star)
        return self.file(shape.name.replace(" ", "-").replace(",", "") + ".txt", text)

    def commands(self, file):
        """Every way to answer queries over the file."""
        ways = {
            "program": [self.given.program, "search", file],
            "plain": [self.plain, "search", file],
            "whole": [self.plain, "search", file, "--whole"],
        }
        if self.graph:
            ways["graph"] = [self.graph, file]
        return ways

    def compare(self, name, file, queries, answers):
        """Keeps the case and stops, if the answers differ."""
        asked = queries.read_text().splitlines()
        expected = answers["program"]
        for peer, got in answers.items():
            if got == expected[:len(got)] and (len(got) == len(asked) or peer == "graph"):
                continue
            kept = OUT / "differences"
            kept.mkdir(parents=True, exist_ok=True)
            (kept / "timetable.txt").write_text(file.read_text())
            (kept / "queries.txt").write_text(queries.read_text())
            lines = [f"{q}: program {a}, {peer} {b}" for q, a, b in zip(asked, expected, got) if a != b]
            (kept / "differences.txt").write_text("\n".join(lines) + "\n")
            sys.exit(f"{name}: program and {peer} differ ({len(got)} answers of {len(asked)}), see {kept}")

    def agree_at_edges(self, shape, tariff):
        """Queries of every limit, and such as are refused; not timed."""
        file = self.timetable(shape)
        lines = timetables.edge_queries(shape.seed, shape.stations, tariff)
        queries = self.file("edges.queries", "\n".join(lines) + "\n")
        answers = {way: self.answers(way, words, queries) for way, words in self.commands(file).items()}
        self.compare(f"{shape.name}, {tariff}", file, queries, answers)
        return len(lines)

    def answers(self, way, words, queries):
        printed = measure.best(words, queries, 1)[1]
        return measure.answers(printed) if way == "program" else printed.splitlines()

    def measure_case(self, case):
        """Milliseconds for each query, by each way."""
        file = self.timetable(case.shape)
        count = self.given.queries
        lines = timetables.queries(case.shape.seed + 100, count, case.shape.stations, case.changes, case.tariff)
        queries = self.file("batch.queries", "\n".join(lines) + "\n")
        row, answers = {}, {}
        for way, words in self.commands(file).items():
            if way == "graph":
                continue
            took, printed = measure.best(words, queries, self.given.runs)
            loading, _ = measure.best(words, self.nothing, self.given.runs + 3)
            row[way] = 1000 * (took - loading) / count
            answers[way] = measure.answers(printed) if way == "program" else printed.splitlines()
        if self.graph:
            self.measure_graph(file, lines, row, answers)
        self.compare(str(case), file, queries, answers)
        row["refused"] = sum(answer.startswith("refused") for answer in answers["program"])
        return row

    def measure_graph(self, file, lines, row, answers):
        """By the graph, over the first queries where all would take too long; the program's time for these too."""
        words = self.commands(file)["graph"]
        first = self.file("first.queries", "\n".join(lines[:2]) + "\n")
        each = measure.best_of_graph(words, first, 1)[0] / 2
        count = min(len(lines), max(4, int(GRAPH_SECONDS / self.given.runs / max(each, 1e-6))))
        first = self.file("first.queries", "\n".join(lines[:count]) + "\n")
        took, printed, built = measure.best_of_graph(words, first, self.given.runs)
        row["graph"], row["built"], row["graph queries"] = 1000 * took / count, 1000 * built, count
        answers["graph"] = printed.splitlines()
        row["program on those"] = row["program"]
        if count == len(lines):
            return
        words = self.commands(file)["program"]
        took = measure.best(words, first, self.given.runs)[0]
        loading = measure.best(words, self.nothing, self.given.runs)[0]
        row["program on those"] = 1000 * (took - loading) / count

    def loading(self, shape):
        """Milliseconds from the start to the end of a check, by program and plain; and over a timetable of no trains."""
        file = self.timetable(shape)
        empty = self.file("empty.txt", timetables.NAMES + "\n")
        times = {}
        for way, command in (("program", self.given.program), ("plain", self.plain)):
            for name, text in (("full", file), ("empty", empty)):
                took, _ = measure.best([command, "check", text], self.nothing, self.given.runs + 3)
                times[way, name] = 1000 * took
        return times

    def memory(self, shape, tariff):
        file = self.timetable(shape)
        lines = timetables.queries(shape.seed, 3, shape.stations, 15, tariff)
        queries = self.file("memory.queries", "\n".join(lines) + "\n")
        return {way: measure.memory(words, queries) for way, words in self.commands(file).items()}


def main():
    given = options()
    bench = Bench(given)
    wrong, count = faults.differences(given.program, bench.plain, OUT / "differences")
    if wrong:
        sys.exit(f"program and plain judge {wrong[0]} differently, and {len(wrong) - 1} more")
    print(f"{count} damaged timetables: program and plain name the same faults\n")
    full = shapes(given.trains)
    edges = sum(bench.agree_at_edges(shape, tariff) for shape in full for tariff in timetables.TARIFFS)
    print(f"{edges} queries of all limits, and refused ones: all answers agree\n")
    found = table.print_search(bench, cases(given.trains))
    table.print_growth(found, given.trains)
    table.print_loading(bench, full)
    table.print_memory(bench, full)


if __name__ == "__main__":
    main()
