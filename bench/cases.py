"""What is measured: the timetables, and the batches over them."""
from dataclasses import dataclass

from timetables import TARIFFS

LIMITS = (0, 1, 3, 7, 15)


@dataclass(frozen=True)
class Shape:
    name: str
    seed: int
    trains: int
    stations: int
    star: bool = False


@dataclass(frozen=True)
class Case:
    shape: Shape
    tariff: str
    changes: int


def shapes(trains):
    """The largest of each kind."""
    return [
        Shape("1000 stations", 1, trains, 1000),
        Shape("100 stations", 2, trains, 100),
        Shape("16 stations", 3, trains, 16),
        Shape("star of 13", 4, trains, 13, True),
    ]


def cases(trains):
    """All timetables with the greatest limit, then other limits, then fewer trains."""
    full = shapes(trains)
    found = [Case(shape, tariff, 15) for shape in full for tariff in TARIFFS]
    found += [Case(full[1], tariff, changes) for tariff in TARIFFS for changes in LIMITS[:-1]]
    smaller = [Shape(f"100 stations, {trains // part} trains", 4 + part, trains // part, 100) for part in (8, 4, 2)]
    return found + [Case(shape, tariff, 15) for tariff in TARIFFS for shape in smaller]
