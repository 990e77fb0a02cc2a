"""Timetables and queries by chance from fixed seeds, as texts in the program's formats."""
import random

NAMES = "train,code,features,station,arrive,depart,fare"
TARIFFS = ("minutes:5", "fares", "waits")


def clock(minute):
    return "%02d:%02d" % divmod(minute, 60)


def train_lines(chance, number, stations):
    """A train through these stations, some minutes at each and between each two."""
    code = chance.choice([127, 127, 31, 96])
    features = chance.randrange(4)
    minute = chance.randrange(1440)
    for at, station in enumerate(stations):
        arrive = depart = fare = ""
        if at > 0:
            arrive = clock(minute)
            minute += chance.randrange(6)
        if at < len(stations) - 1:
            depart, fare = clock(minute), chance.randrange(50, 900)
            minute += chance.randrange(5, 40)
        else:
            depart = ""
        yield f"{number},{code},{features},{station},{arrive},{depart},{fare}"


def wandering(chance, stations, stops):
    """A way of so many stops, neighbours different."""
    way = [chance.randrange(stations)]
    while len(way) < stops:
        station = chance.randrange(stations)
        if station != way[-1]:
            way.append(station)
    return way


def through_hub(chance, stations):
    """A way of 2 to 8 stops, of which one or more is station 0."""
    way = wandering(chance, stations, chance.randrange(2, 9))
    if 0 not in way:
        way[chance.randrange(len(way))] = 0
    return way


def timetable(seed, trains, stations, star=False):
    chance = random.Random(seed)
    lines = [NAMES]
    for number in range(1, trains + 1):
        way = through_hub(chance, stations) if star else wandering(chance, stations, 8)
        lines += train_lines(chance, number, way)
    return "\n".join(lines) + "\n"


def queries(seed, count, stations, changes, tariff):
    """Questions that can be asked, one of eight of them for trains with feature bit 0."""
    chance = random.Random(seed)
    lines = []
    for _ in range(count):
        origin, destination = chance.sample(range(stations), 2)
        day, minute = chance.randrange(1, 60000), chance.randrange(20 * 60)
        features = 1 if chance.randrange(8) == 0 else 0
        lines.append(f"{origin} {destination} {day} {clock(minute)} {changes} {features} {tariff}")
    return lines


def edge_queries(seed, stations, tariff):
    """Questions with every limit, at the edges of what can be asked, and beyond."""
    lines = [
        f"1024 1 3 07:50 2 0 {tariff}",
        f"1 1024 3 07:50 2 0 {tariff}",
        f"1 2 0 07:50 2 0 {tariff}",
        f"1 2 65535 07:50 2 0 {tariff}",
        f"1 2 3 24:00 2 0 {tariff}",
        f"1 2 3 07:50 16 0 {tariff}",
        f"1 1 3 07:50 16 0 {tariff}",
        f"1 1 3 07:50 2 0 {tariff}",
        f"1 2 3 07:50 15 65535 {tariff}",
        f"1 2 1 00:00 15 0 {tariff}",
        f"1 2 65534 23:59 15 1 {tariff}",
    ]
    for changes in (0, 1, 2, 3, 7, 15):
        lines += queries(seed + changes, 4, stations, changes, tariff)
    return lines
