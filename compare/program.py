"""Calls the program and takes its answers apart."""

import re
import subprocess
from typing import NamedTuple, Optional

from rules import Ride, clock, date_of, day_of

RIDE = re.compile(r"  train (\d+) of (\d{4}-\d\d-\d\d): (\d+) at (\d\d:\d\d) -> (\d+) at (\d\d:\d\d)")
COST = re.compile(r"  cost (.+), rides (\d+)")
REFUSED = re.compile(r"  refused (\d+): .+")
UNREADABLE = re.compile(r"  LINE (\d+): expected .+")


class Said(NamedTuple):
    """How a call of the program ended and what it printed."""

    status: int
    out: bytes
    err: bytes


class Answer(NamedTuple):
    """An answer: a refusal, a line that cannot be read, or rides as printed with a cost and their number."""

    heading: Optional[str] = None
    refused: Optional[int] = None
    unreadable: Optional[int] = None
    rides: tuple = ()
    price: Optional[str] = None
    count: Optional[int] = None


def call(program, words, folder, given=b""):
    """Calls the program in a folder, with something on its standard input."""
    done = subprocess.run([program, *words], cwd=folder, input=given, capture_output=True, timeout=60)
    return Said(done.returncode, done.stdout, done.stderr)


def answers_of(out):
    """The answers in what a search printed, each with an empty line behind it, or None if it is otherwise."""
    try:
        parts = out.decode("ascii").split("\n\n")
    except UnicodeDecodeError:
        return None
    if parts.pop() != "":
        return None
    return [answer_of(part.split("\n")) for part in parts]


def answer_of(lines):
    """The answer that these lines tell, or None if they are none."""
    if len(lines) == 1:
        line = UNREADABLE.fullmatch(lines[0])
        return line and Answer(unreadable=int(line[1]))
    heading, *rides, last = lines
    refused = REFUSED.fullmatch(last)
    if refused and not rides:
        return Answer(heading, refused=int(refused[1]))
    cost = COST.fullmatch(last)
    rides = [RIDE.fullmatch(line) for line in rides]
    if not cost or not rides or None in rides:
        return None
    return Answer(heading, rides=tuple(ride.groups() for ride in rides), price=cost[1], count=int(cost[2]))


def heading_of(query):
    """The line that is printed ahead of the answer to a query."""
    return (f"{query.origin} -> {query.destination} on {date_of(query.day)} from {clock(query.minute)}, "
            f"changes {query.limit}, features {query.features}, {query.tariff.word}")


def ride_of(trains, query, printed):
    """The ride that a printed line names, or None if no train of the timetable has it."""
    number, day, board, leave, alight, come = printed
    for row, train in enumerate(trains):
        if str(train.number) != number:
            continue
        boards = [at for at, stop in enumerate(train.stops) if stop.depart is not None
                  and (str(stop.station), clock(stop.depart)) == (board, leave)]
        alights = [at for at, stop in enumerate(train.stops) if stop.arrive is not None
                   and (str(stop.station), clock(stop.arrive)) == (alight, come)]
        sets_out = day_of(day)
        if boards and alights and sets_out is not None:
            return Ride(row, sets_out - query.day, boards[0], alights[0])
    return None
