"""The rules as functions: days, calendars, tariffs, and every connection of a query.

Nothing here is clever. A connection is found by trying every ride after every
other, and what it costs is added up step by step, as the rules word it.
"""

from datetime import date, timedelta
from typing import NamedTuple, Optional

DAY_0 = date(2000, 1, 1)
LAST_DAY = 65_535
MINUTES_OF_A_DAY = 1_440
SHIFTS = (-1, 0, 1)


class Stop(NamedTuple):
    """A stop of a train. The first has no arrival, the last no departure and no fare."""

    station: int
    arrive: Optional[int]
    depart: Optional[int]
    fare: Optional[int]


class Train(NamedTuple):
    """A train. Its times count from midnight of the day on which it sets out."""

    number: int
    code: int
    features: int
    stops: tuple


class Ride(NamedTuple):
    """A train's row, the shift from the query's day, and the stops where one boards and alights."""

    row: int
    shift: int
    board: int
    alight: int


class Query(NamedTuple):
    """What is asked, within bounds or not. The tariff is one of those made by the classes below."""

    origin: int
    destination: int
    day: int
    minute: int
    limit: int
    features: int
    tariff: object


# Days

def date_of(day):
    """The date of a day as 2000-01-04."""
    return (DAY_0 + timedelta(days=day)).isoformat()


def day_of(text):
    """The day that a date names, or None if there is no such date within the days."""
    try:
        day = (date.fromisoformat(text) - DAY_0).days
    except ValueError:
        return None
    return day if 0 <= day <= LAST_DAY and date_of(day) == text else None


def weekday(day):
    """The weekday of a day, Monday being 0."""
    return (day + 5) % 7


def clock(minutes):
    """Minutes from midnight as two digits, a colon and two digits."""
    return f"{minutes // 60:02}:{minutes % 60:02}"


# Calendars

class Weekly:
    """A code runs on a day if its bit for the weekday is set."""

    def runs(self, code, day):
        return code >> weekday(day) & 1 == 1


class Dated:
    """A code runs on a day if some row has the code and its days include the day."""

    def __init__(self, rows):
        self.rows = rows

    def runs(self, code, day):
        return any(code == of and first <= day <= last for of, first, last in self.rows)


class Exceptions:
    """A layer over a calendar: listed pairs have a word of their own, a later one replacing it."""

    def __init__(self, below, rows):
        self.below = below
        self.words = {(code, day): word for code, day, word in rows}

    def runs(self, code, day):
        word = self.words.get((code, day))
        return self.below.runs(code, day) if word is None else word


# Tariffs: an empty total and a call that adds a step. Of two totals the smaller is at
# most the greater. The small connections here have far fewer than 8,640 steps.

class ByMinutes:
    """All minutes, and a penalty for each change."""

    empty = 0

    def __init__(self, penalty):
        self.penalty = penalty
        self.word = f"minutes:{penalty}"

    def add(self, total, kind, minutes, fare):
        return total + minutes + (self.penalty if kind == "change" else 0)

    def price(self, total):
        return f"{total} minutes"


class ByFares:
    """All fares, and where they are equal all minutes."""

    empty = (0, 0)
    word = "fares"

    def add(self, total, kind, minutes, fare):
        return total[0] + fare, total[1] + minutes

    def price(self, total):
        return f"{total[0]} cents {total[1]} minutes"


class ByWaits:
    """The longest wait: the greatest minutes of a start or a change."""

    empty = 0
    word = "waits"

    def add(self, total, kind, minutes, fare):
        return max(total, minutes) if kind in ("start", "change") else total

    def price(self, total):
        return f"{total} minutes of waiting"


# Connections

def leaves(trains, ride):
    """The minute in which a ride departs, counted from midnight of the query's day."""
    return trains[ride.row].stops[ride.board].depart + ride.shift * MINUTES_OF_A_DAY


def comes(trains, ride):
    """The minute in which a ride arrives, counted from midnight of the query's day."""
    return trains[ride.row].stops[ride.alight].arrive + ride.shift * MINUTES_OF_A_DAY


def every_ride(trains, calendar, query):
    """Every ride that the query may use: the features are there and the code runs."""
    for row, train in enumerate(trains):
        if train.features & query.features != query.features:
            continue
        for shift in SHIFTS:
            if not calendar.runs(train.code, query.day + shift):
                continue
            for board in range(len(train.stops) - 1):
                for alight in range(board + 1, len(train.stops)):
                    yield Ride(row, shift, board, alight)


def steps_on_board(trains, ride):
    """The steps of a ride: each hop, and a stand at each stop passed."""
    stops = trains[ride.row].stops
    steps = []
    for at in range(ride.board, ride.alight):
        if at > ride.board:
            steps.append(("stand", stops[at].depart - stops[at].arrive, 0))
        steps.append(("ride", stops[at + 1].arrive - stops[at].depart, stops[at].fare))
    return steps


def cost(trains, query, rides):
    """The total of a connection's steps in order of travel."""
    total = query.tariff.empty
    now, kind = query.minute, "start"
    for ride in rides:
        total = query.tariff.add(total, kind, leaves(trains, ride) - now, 0)
        for step in steps_on_board(trains, ride):
            total = query.tariff.add(total, *step)
        now, kind = comes(trains, ride), "change"
    return total


def every_connection(trains, calendar, query, most):
    """Every connection of the query with its total, or None if more than `most` ways would be tried."""
    from_station = {}
    for ride in every_ride(trains, calendar, query):
        stops = trains[ride.row].stops
        station, to = stops[ride.board].station, stops[ride.alight].station
        known = leaves(trains, ride), comes(trains, ride), to, steps_on_board(trains, ride), ride
        from_station.setdefault(station, []).append(known)
    add = query.tariff.add
    found = {}
    open_ways = [((), query.origin, query.minute, query.tariff.empty)]
    tried = 0
    while open_ways:
        rides, station, now, so_far = open_ways.pop()
        kind = "change" if rides else "start"
        for leave, come, to, steps, ride in from_station.get(station, ()):
            if leave < now:
                continue
            tried += 1
            if tried > most:
                return None
            total = add(so_far, kind, leave - now, 0)
            for step in steps:
                total = add(total, *step)
            longer = rides + (ride,)
            if to == query.destination:
                found[longer] = total
            if len(longer) <= query.limit:
                open_ways.append((longer, to, come, total))
    return found


def refusal(query):
    """The number under which a query is refused before anything is searched, or None.

    The tariff is made before the search is called, so its refusal comes first.
    """
    if isinstance(query.tariff, ByMinutes) and query.tariff.penalty > 1_440:
        return 22
    if (max(query.origin, query.destination) > 1_023 or not 1 <= query.day <= LAST_DAY - 1
            or query.minute > 1_439 or query.limit > 15):
        return 13
    if query.origin == query.destination:
        return 14
    return None
