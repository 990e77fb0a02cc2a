"""The tables, in markdown, each row printed as it is measured."""
from timetables import TARIFFS

BLANK = "-"


def row(cells):
    print("| " + " | ".join(cells) + " |", flush=True)


def head(cells, words):
    row(cells)
    row(["---"] * words + ["---:"] * (len(cells) - words))


def short(value):
    """Three digits that count."""
    if value is None:
        return BLANK
    return f"{value:.0f}" if value >= 100 else f"{value:.1f}" if value >= 10 else f"{value:.2f}" if value >= 1 else f"{value:.3f}"


def ratio(above, below):
    """Blank where the time below is too short to be measured."""
    if above is None or below is None or below <= 0.0005:
        return BLANK
    return short(above / below)


def print_search(bench, cases):
    given = bench.given
    print(f"Milliseconds for each of {given.queries} queries, loading not counted, best of {given.runs} runs:\n")
    head(["timetable", "tariff", "changes", "without connection", "program", "plain", "program / plain",
          "plain, unaimed", "program / unaimed", "graph", "program / graph", "graph's queries", "graph built"], 2)
    measured = {}
    for case in cases:
        found = measured[case] = bench.measure_case(case)
        row([case.shape.name, case.tariff, str(case.changes), str(found["refused"]),
             short(found["program"]), short(found["plain"]), ratio(found["program"], found["plain"]),
             short(found["whole"]), ratio(found["program"], found["whole"]),
             short(found.get("graph")), ratio(found.get("program on those"), found.get("graph")),
             str(found.get("graph queries", BLANK)), short(found.get("built"))])
    print()
    return measured


def print_growth(measured, trains):
    """How many times as long the queries take among 100 stations: with all changes or none, with all trains or an eighth."""
    print(f"How the time grows among 100 stations, from 0 changes to 15 and from {trains // 8} trains to {trains}:\n")
    ways = ("program", "plain", "graph")
    head(["tariff"] + [f"{way}, {what}" for what in ("changes", "trains") for way in ways], 1)
    for tariff in TARIFFS:
        of = {}
        for case, found in measured.items():
            if case.tariff == tariff and case.shape.stations == 100:
                of[case.shape.trains, case.changes] = found
        full, cells = of[trains, 15], [tariff]
        for smaller in (of[trains, 0], of[trains // 8, 15]):
            cells += [ratio(full.get(way), smaller.get(way)) for way in ways]
        row(cells)
    print()


def print_loading(bench, shapes):
    print("Milliseconds of a `check`, from start to end:\n")
    head(["timetable", "program", "plain", "program / plain", "program, no trains", "plain, no trains"], 1)
    for shape in shapes:
        times = bench.loading(shape)
        program, plain = times["program", "full"], times["plain", "full"]
        row([shape.name, short(program), short(plain), ratio(program, plain),
             short(times["program", "empty"]), short(times["plain", "empty"])])
    print()


def print_memory(bench, shapes):
    print("Most memory of a search with 15 changes, in MB:\n")
    head(["timetable", "tariff", "program", "plain", "graph"], 2)
    for shape in shapes:
        for tariff in TARIFFS:
            found = bench.memory(shape, tariff)
            row([shape.name, tariff] + [short(found.get(way)) for way in ("program", "plain", "graph")])
