"""Reads a timetable's text by the rules, and writes trains as a text.

The text is taken as bytes. What is read is either the list of trains or the first
fault: its refusal number, its line and its column.
"""

from rules import Stop, Train, clock

NAMES = b"train,code,features,station,arrive,depart,fare\n"
MOST_TRAINS = 512
MOST_STOPS = 4_096
MOST_STOPS_OF_A_TRAIN = 64
LAST_STATION = 1_023
LAST_TIME = 2_879
DIGITS = b"0123456789"


class Fault(Exception):
    """The first fault of a text."""

    def __init__(self, number, line, column):
        super().__init__(number, line, column)
        self.number = number
        self.line = line
        self.column = column


def number_of(field, most):
    """The number that a field tells, or None: digits only, no zero ahead, not above `most`."""
    if not field or any(byte not in DIGITS for byte in field):
        return None
    if len(field) > 1 and field[:1] == b"0":
        return None
    number = int(field)
    return number if number <= most else None


def time_of(field):
    """The minutes that a field tells, or None: two digits, a colon, two digits up to 59."""
    if len(field) != 5 or field[2:3] != b":":
        return None
    if any(field[at] not in DIGITS for at in (0, 1, 3, 4)):
        return None
    hours, minutes = int(field[:2]), int(field[3:])
    return hours * 60 + minutes if minutes <= 59 else None


def fields_of(line, at):
    """The seven values of the line numbered `at`, blanks as None, or the fault 19."""
    if not line.endswith(b"\n"):
        raise Fault(19, at, 0)
    fields = line[:-1].split(b",")
    if len(fields) != 7:
        raise Fault(19, at, 0)
    columns = [1]
    for field in fields[:-1]:
        columns.append(columns[-1] + len(field) + 1)
    values = []
    for place, most in enumerate((65_535, 255, 65_535, 65_535)):
        value = number_of(fields[place], most)
        if value is None:
            raise Fault(19, at, columns[place])
        values.append(value)
    for place in (4, 5):
        value = time_of(fields[place]) if fields[place] else None
        if value is None and fields[place]:
            raise Fault(19, at, columns[place])
        values.append(value)
    if (fields[6] == b"") != (fields[5] == b""):
        raise Fault(19, at, columns[6])
    fare = number_of(fields[6], 65_535) if fields[6] else None
    if fare is None and fields[6]:
        raise Fault(19, at, columns[6])
    values.append(fare)
    return values


def refusal_of_begin(trains, number):
    """The number under which a train with this number may not begin, or None."""
    if number == 0:
        return 2
    if any(train.number == number for train in trains):
        return 3
    if len(trains) >= MOST_TRAINS:
        return 4
    return None


def refusal_of_stop(stops, stop, in_use):
    """The number under which a stop may not follow these stops, or None.

    `in_use` counts the stop rows of the finished trains. A stop behind one without
    departure does not come up here, because a train is finished at once there.
    """
    if stop.station > LAST_STATION:
        return 6
    if stops and stops[-1].station == stop.station:
        return 7
    if not stops and (stop.arrive is not None or stop.depart is None):
        return 8
    if stops and stop.arrive is None:
        return 8
    if stop.arrive is not None:
        if stop.arrive > LAST_TIME or stop.arrive <= stops[-1].depart:
            return 9
    if stop.depart is not None:
        if stop.depart > LAST_TIME or stop.arrive is not None and stop.depart < stop.arrive:
            return 9
    if len(stops) >= MOST_STOPS_OF_A_TRAIN or in_use + len(stops) >= MOST_STOPS:
        return 10
    return None


def read(text):
    """The trains of a text, or its first fault as an exception."""
    lines = text.split(b"\n")
    rest = lines.pop()
    lines = [line + b"\n" for line in lines] + ([rest] if rest else [])
    if not lines or lines[0] != NAMES:
        raise Fault(18, 1, 0)
    trains = []
    in_use = 0
    head = None
    stops = []
    for at, line in enumerate(lines[1:], 2):
        number, code, features, station, arrive, depart, fare = fields_of(line, at)
        if head is None:
            refused = refusal_of_begin(trains, number)
            if refused:
                raise Fault(refused, at, 0)
            head = number, code, features
        elif head != (number, code, features):
            raise Fault(20, at, 1)
        stop = Stop(station, arrive, depart, fare)
        refused = refusal_of_stop(stops, stop, in_use)
        if refused:
            raise Fault(refused, at, 0)
        stops.append(stop)
        if depart is None:
            trains.append(Train(*head, tuple(stops)))
            in_use += len(stops)
            head = None
            stops = []
    if head is not None:
        raise Fault(11, len(lines), 0)
    return trains


def write(trains):
    """The text of these trains."""
    lines = [NAMES]
    for train in trains:
        for stop in train.stops:
            arrive, depart = ("" if time is None else clock(time) for time in (stop.arrive, stop.depart))
            fare = "" if stop.fare is None else stop.fare
            line = f"{train.number},{train.code},{train.features},{stop.station},{arrive},{depart},{fare}\n"
            lines.append(line.encode())
    return b"".join(lines)
