"""Makes small random timetables that are dense in ties, and queries and calendars for them."""

from typing import NamedTuple, Optional

from rules import LAST_DAY, ByFares, ByMinutes, ByWaits, Query, Stop, Train, clock, date_of, weekday

LAST_TIME = 2_879
STATIONS = [0, 1, 2, 3, 4, 5, 6, 7, 500, 1_022, 1_023]
NUMBERS = [1, 2, 3, 4, 5, 11, 12, 99, 255, 256, 65_534, 65_535]
FEATURES = [0, 0, 1, 1, 2, 3, 3, 5, 32_768, 65_535]
WEEKLY_CODES = [127] * 18 + [255, 255, 255, 255, 31, 96, 159, 0, 128, 1, 2, 4, 8, 16, 32, 64]
DATED_CODES = [0, 1, 1, 2, 255]
FARES = [0, 0, 1, 100, 100, 100, 200, 300, 65_535]
DAYS = [1, 1, 2, 3, 100, 65_533, 65_534, 65_532, 58, 59, 60, 365, 366, 36_583, 36_584]
PENALTIES = [0, 0, 1, 5, 5, 60, 1_439, 1_440]

NO_QUERIES = [
    "1 2 3 07:50 2 0", "1 2 3 07:50 2 0 fares ", " 1 2 3 07:50 2 0 fares", "1  2 3 07:50 2 0 fares",
    "1 2 3 07:50 2 0 fares 1", "65536 2 3 07:50 2 0 fares", "1 65536 3 07:50 2 0 fares",
    "1 2 65536 07:50 2 0 fares", "1 2 3 07:50 256 0 fares", "1 2 3 07:50 2 65536 fares",
    "1 2 2000-02-30 07:50 2 0 waits", "1 2 2100-02-29 07:50 2 0 waits", "1 2 1999-12-31 07:50 2 0 waits",
    "1 2 2179-06-07 07:50 2 0 waits", "1 2 2000-1-4 07:50 2 0 waits", "1 2 3 7:50 2 0 waits",
    "1 2 3 0750 2 0 waits", "1 2 3 07-50 2 0 waits", "1 2 3 07:500 2 0 waits", "1 2 3 07:50 2 0 minutes",
    "1 2 3 07:50 2 0 minutes:", "1 2 3 07:50 2 0 minutes:x", "1 2 3 07:50 2 0 hours", "1 2 3 07:50 2 0 waits\r",
    "1,2,3,07:50,2,0,waits", "-1 2 3 07:50 2 0 waits", "one 2 3 07:50 2 0 waits", "1 2 3 07:50 2 0 waits:5",
    "01 2 3 07:50 2 0 waits", "1 2 3 07:60 2 0 waits", "1 2 3 07:50 2 0 minutes:65536",
]
NO_DATES = ["1,2", "1,2,3,4", "256,2,3", "x,2,3", "1,2,65536", "1,2000-02-30,3", "1,2,3\r", " 1,2,3", "1,2,"]
NO_EXCEPTIONS = ["1,2", "1,2,maybe", "1,2,yes ", "256,2,no", "1,65536,no", "1,2100-02-29,yes", "1,2,Yes", ",2,yes"]


class Line(NamedTuple):
    """A line of queries: what it asks, or None where it asks nothing or cannot be read."""

    text: str
    query: Optional[Query]


class Calendar(NamedTuple):
    """A calendar's file: its lines, its rows, and the line and word of its first fault if it has one."""

    lines: list
    rows: list
    fault: Optional[tuple]


class Case(NamedTuple):
    """A timetable with the queries and calendar files that go with it."""

    trains: list
    queries: list
    dates: Optional[Calendar]
    exceptions: Optional[Calendar]


def random_path(rng, stations, line, at):
    """The stations of the train at a row and how many hops behind the first station it begins.

    On a line a train takes a stretch of all stations in order, so that one has to
    change on the way; otherwise it goes from any station to any other.
    """
    if line:
        begin = rng.choice([at, at, rng.randrange(9)]) % (len(stations) - 1)
        return stations[begin:begin + rng.choice([2, 2, 2, 2, 3, 4])][:5], begin
    path = [rng.choice(stations)]
    for _ in range(rng.choice([1, 1, 1, 2, 2, 3, 4])):
        path.append(rng.choice([station for station in stations if station != path[-1]]))
    return path, 0


def random_stops(rng, path, first, unit):
    """The stops of a train along a path: times go on in steps of the unit, waits are often 0."""
    times, now = [], 0
    for _ in path:
        come = now
        now += unit * rng.choice([0, 0, 0, 1, 2]) if times else 0
        times.append((come, now))
        now += unit * rng.choice([1, 1, 1, 2, 3])
    first = min(first, LAST_TIME - times[-1][0])
    stops = []
    for at, (station, (come, go)) in enumerate(zip(path, times)):
        last = at == len(path) - 1
        arrive = first + come if at else None
        stops.append(Stop(station, arrive, None if last else first + go, None if last else rng.choice(FARES)))
    return tuple(stops)


def random_trains(rng, codes=tuple(WEEKLY_CODES), least=1):
    """A few trains among few stations, some of them twins of another with other fares or another code."""
    stations = rng.sample(STATIONS, rng.choice([3, 4, 4, 5, 5, 6]))
    line = rng.random() < 0.6
    unit = rng.choice([1, 1, 2, 5, 30, 60, 120])
    base = rng.choice([0, 0, 1, 480, 1_380, 1_430, 1_435, 1_439, 1_440, 2_860, rng.randint(0, 1_439)])
    trains = []
    for number in rng.sample(NUMBERS, max(least, rng.choice([0, 1, 2, 3, 4, 5, 5, 6, 6, 6, 6, 6]))):
        path, begin = random_path(rng, stations, line, len(trains))
        first = base + unit * (2 * begin + rng.randint(0, 3 if line else 6))
        stops = random_stops(rng, path, first + rng.choice([0, 0, 0, 1_440]), unit)
        if trains and rng.random() < 0.15:
            stops = tuple(stop if stop.fare is None else stop._replace(fare=rng.choice(FARES))
                          for stop in rng.choice(trains).stops)
        trains.append(Train(number, rng.choice(codes), rng.choice(FEATURES), stops))
    return trains


def day_text(rng, day):
    """A day as its number or as its date."""
    return rng.choice([str(day), date_of(day)])


def random_dates(rng, days, wrong):
    """Rows of first and last days near the days asked about."""
    rows = []
    for _ in range(rng.randint(0, 6)):
        first = min(LAST_DAY, max(0, rng.choice(days) + rng.randint(-2, 1)))
        rows.append((rng.choice(DATED_CODES), first, min(LAST_DAY, first + rng.choice([0, 1, 2, 300]))))
    lines = [f"{code},{day_text(rng, first)},{day_text(rng, last)}" for code, first, last in rows]
    fault = None
    if wrong:
        at = rng.randint(0, len(lines))
        line, word = rng.choice([("1,3,2", "24")] + [(line, None) for line in NO_DATES])
        lines.insert(at, line)
        fault = at + 1, word
    return with_empty_lines(rng, lines, rows, fault)


def random_exceptions(rng, codes, days, wrong):
    """Rows with a word for a code on a day, some pairs twice; at times the full 64, or one more."""
    rows = []
    full = wrong and rng.random() < 0.4 or rng.random() < 0.05
    if full:
        far = 30_000 if min(days) < 20_000 else 2_000
        rows = [(rng.choice(codes), far + at if at else min(days) - 1, "yes") for at in range(64)]
    for _ in range(rng.randint(0, 10)):
        pair = rng.choice(rows)[:2] if full else (rng.choice(codes), rng.choice(days) + rng.randint(-1, 1))
        rows.append((*pair, rng.choice(["yes", "no"])))
    lines = [f"{code},{day_text(rng, day)},{word}" for code, day, word in rows]
    fault = None
    if wrong:
        at = len(lines) if full else rng.randint(0, len(lines))
        line, word = ("7,4000,yes", "23") if full else (rng.choice(NO_EXCEPTIONS), None)
        lines.insert(at, line)
        fault = at + 1, word
    return with_empty_lines(rng, lines, [(code, day, word == "yes") for code, day, word in rows], fault)


def with_empty_lines(rng, lines, rows, fault):
    """The file of these lines, at times with an empty line ahead of them, which says nothing."""
    if rng.random() < 0.3:
        return Calendar([""] + lines, rows, fault and (fault[0] + 1, fault[1]))
    return Calendar(lines, rows, fault)


def random_walk(rng, trains):
    """Two stations between which one may come by a few rides, whatever the calendar says."""
    start = rng.choice(rng.choice(trains).stops[:-1])
    station, now = start.station, start.depart
    for _ in range(rng.choice([1, 1, 2, 3, 3, 4, 5])):
        ways = [(stop.station, stop.arrive - day) for train in trains for day in (-1_440, 0, 1_440)
                for at, board in enumerate(train.stops[:-1]) for stop in train.stops[at + 1:]
                if board.station == station and now <= board.depart - day]
        if not ways:
            break
        station, now = rng.choice(ways)
    return start.station, station


def one_train_goes(trains, origin, destination):
    """Whether one can do without a change."""
    return any(board.station == origin and stop.station == destination for train in trains
               for at, board in enumerate(train.stops) for stop in train.stops[at:])


def random_query(rng, trains, days):
    """A query between stations of the trains, most often with a change, at times one that is refused."""
    for _ in range(rng.choice([1, 8, 8])):
        origin, destination = random_walk(rng, trains)
        if not one_train_goes(trains, origin, destination):
            break
    if origin == destination or rng.random() < 0.1:
        destination = rng.choice(trains).stops[-1].station
    near = rng.choice(rng.choice(trains).stops[:-1]).depart + rng.choice([-1, 0, 0, 0, 1, -30])
    earliest = min(train.stops[0].depart for train in trains)
    minute = rng.choice([near % 1_440, earliest % 1_440, earliest % 1_440, 0, 0, 0, 1, 1_438, 1_439])
    tariff = rng.choice([ByMinutes(rng.choice(PENALTIES)), ByFares(), ByWaits()])
    query = Query(origin, destination, rng.choice(days), minute,
                  rng.choice([0, 1, 2, 2, 3, 3, 4, 4, 4]), rng.choice([0] * 8 + [1, 2, 3, 32_768]), tariff)
    for _ in range(rng.choice([0] * 15 + [1, 1, 2])):
        name, values = rng.choice([
            ("origin", [1_024, 65_535, 8]), ("destination", [1_024, 65_535, 1_021, query.origin]),
            ("day", [0, LAST_DAY]), ("minute", [1_440, 2_879, 5_999]), ("limit", [16, 255, 15, 5]),
            ("tariff", [ByMinutes(1_441), ByMinutes(LAST_DAY)]), ("features", [65_535]),
        ])
        query = query._replace(**{name: rng.choice(values)})
    return query


def query_text(rng, query):
    """The line that asks a query."""
    return (f"{query.origin} {query.destination} {day_text(rng, query.day)} {clock(query.minute)} "
            f"{query.limit} {query.features} {query.tariff.word}")


def random_lines(rng, trains, days, count):
    """Lines of queries, some empty and some that cannot be read."""
    lines = []
    while len(lines) < count:
        kind = rng.random()
        if kind < 0.02:
            lines.append(Line("", None))
        elif kind < 0.04:
            lines.append(Line(rng.choice(NO_QUERIES), None))
        else:
            query = random_query(rng, trains, days)
            lines.append(Line(query_text(rng, query), query))
    return lines


def random_case(rng):
    """A timetable, its queries and its calendars."""
    days = [rng.choice(DAYS) for _ in range(rng.choice([1, 2]))]
    free = rng.randint(1, LAST_DAY - 1)
    days.append(rng.choice([free, max(1, free - weekday(free) - 2), max(1, free - weekday(free) - 1)]))
    dated = rng.random() < 0.25
    codes = DATED_CODES if dated else WEEKLY_CODES
    trains = random_trains(rng, codes)
    dates = random_dates(rng, days, rng.random() < 0.04) if dated else None
    exceptions = None
    if rng.random() < 0.25:
        wrong = rng.random() < 0.05 and (dates is None or dates.fault is None)
        exceptions = random_exceptions(rng, [train.code for train in trains], days, wrong)
    return Case(trains, random_lines(rng, trains, days, rng.randint(6, 12)), dates, exceptions)
