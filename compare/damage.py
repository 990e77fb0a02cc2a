"""Makes texts of timetables, most of them damaged, and texts as large as a book and larger."""

import re
from functools import cache

from random_timetables import random_trains
from reader import NAMES, write
from rules import Stop, Train

BYTES = b"0123456789,,::-+ \n\r\t\0aA\"';.\x7f\x80\xb2\xbf\xc3\xef\xff"
NUMBERS = [b"65535", b"65536", b"255", b"256", b"0", b"00", b"01", b"1", b"1023", b"1024", b"99999", b"-1", b"+1",
           b"100000000000000000000", b"4294967297", b"1.0", b" 1", b"x", b""]
TIMES = [b"47:59", b"48:00", b"23:60", b"24:00", b"00:00", b"00:01", b"99:59", b"99:60", b"7:50", b"007:50",
         b"07:5", b"0750", b"07-50", b"07:50 ", b"-1:00", b"ab:cd", b"12:", b":12", b":", b""]
HEAD_ENDS = [b"\r\n", b" \n", b"", b",\n", b"\n\n"]


# Damages to a list of lines, which is changed in place

def place(rng, lines):
    """A line's place, seldom that of the line of names."""
    return rng.randrange(len(lines)) if len(lines) < 2 or rng.random() < 0.05 else rng.randrange(1, len(lines))


def double_line(rng, lines):
    at = place(rng, lines)
    lines.insert(at, lines[at])


def drop_line(rng, lines):
    del lines[place(rng, lines)]


def swap_lines(rng, lines):
    one = place(rng, lines)
    other = rng.choice([place(rng, lines), min(one + 1, len(lines) - 1)])
    lines[one], lines[other] = lines[other], lines[one]


def move_line(rng, lines):
    """A line goes elsewhere, most often among the lines of another train."""
    lines.insert(place(rng, lines), lines.pop(place(rng, lines)))


def cut_lines(rng, lines):
    """All lines behind a place are dropped, most often inside a train."""
    del lines[place(rng, lines) + 1:]


def blank_line(rng, lines):
    lines.insert(place(rng, lines), rng.choice([b"\n", b"\n", b",,,,,,\n", b"\r\n"]))


def carriage_returns(rng, lines):
    first = rng.choice([0, place(rng, lines)])
    last = rng.choice([first + 1, len(lines)])
    lines[first:last] = [line.replace(b"\n", b"\r\n") for line in lines[first:last]]


def line_of_names(rng, lines):
    """The line of names gets another end, another order, capitals or something ahead."""
    names = lines[0].rstrip(b"\n")
    lines[0] = rng.choice([names + rng.choice(HEAD_ENDS), b"\xef\xbb\xbf" + lines[0], lines[0].upper(),
                           b"\n" + lines[0], lines[0].replace(b"code,features", b"features,code")])


def change_field(rng, lines, new):
    """One field of a line becomes what `new` makes of the fields, the field's place and the line's."""
    at = place(rng, lines)
    body, end = (lines[at][:-1], b"\n") if lines[at].endswith(b"\n") else (lines[at], b"")
    fields = body.split(b",")
    which = rng.randrange(len(fields))
    fields[which] = new(fields, which, at)
    lines[at] = b",".join(fields) + end


def blank_field(rng, lines):
    change_field(rng, lines, lambda fields, which, at: b"")


def other_value(rng, lines):
    """A field becomes a number or a time near a bound, most often of the field's own kind."""
    own = rng.random() < 0.9
    change_field(rng, lines, lambda fields, which, at: rng.choice(TIMES if (which in (4, 5)) == own else NUMBERS))


def copied_field(rng, lines):
    """A field becomes that of another line, most often of the line before: an equal station or time."""
    def copied(fields, which, at):
        other = lines[at - 1 if at > 1 and rng.random() < 0.7 else place(rng, lines)].rstrip(b"\n").split(b",")
        if which in (4, 5) and rng.random() < 0.5:
            return other[9 - which] if len(other) == 7 else b""
        return other[min(which, len(other) - 1)]
    change_field(rng, lines, copied)


def drop_arrival_or_departure(rng, lines):
    """Arrival, or departure with its fare, is blanked, or filled where it was blank."""
    at = place(rng, lines)
    fields = lines[at].rstrip(b"\n").split(b",")
    if len(fields) == 7:
        if rng.random() < 0.5:
            fields[4] = b"" if fields[4] else rng.choice(TIMES[:6])
        else:
            fields[5], fields[6] = (b"", b"") if fields[5] else (rng.choice(TIMES[:6]), b"1")
        lines[at] = b",".join(fields) + b"\n"


def rival_faults(rng, lines):
    """A line gets values that are all well formed, but at odds with the bounds and with each other."""
    at = place(rng, lines)
    fields, before = (lines[which].rstrip(b"\n").split(b",") for which in (at, at - 1))
    if len(fields) == len(before) == 7:
        fields[0] = rng.choice([fields[0]] * 8 + [before[0], b"0"])
        fields[3] = rng.choice([fields[3], fields[3], before[3], b"1023", b"1024", b"65535"])
        fields[4] = rng.choice([fields[4], fields[4], before[5], before[4], b"", b"00:00", b"47:59", b"48:00"])
        fields[5] = rng.choice([fields[5], fields[5], fields[4], before[5], b"", b"00:00", b"47:59", b"48:00"])
        fields[6] = b"7" if fields[5] else b""
        lines[at] = b",".join(fields) + b"\n"


def whole_train(rng, lines):
    """The number, code or features of a train become others in all of its lines."""
    which = rng.randrange(3)
    old = lines[place(rng, lines)].split(b",")[0]
    new = rng.choice([rng.choice(NUMBERS[:10]), lines[place(rng, lines)].split(b",")[0]])
    for at, line in enumerate(lines):
        fields = line.split(b",")
        if fields[0] == old and at > 0 and len(fields) == 7:
            fields[which] = new
            lines[at] = b",".join(fields)


LINE_DAMAGES = [double_line, drop_line, swap_lines, move_line, cut_lines, blank_line, carriage_returns,
                line_of_names, blank_field, other_value, other_value, other_value, copied_field, copied_field,
                copied_field, drop_arrival_or_departure, drop_arrival_or_departure, rival_faults,
                rival_faults, rival_faults, rival_faults, rival_faults, whole_train, whole_train]


# Damages to a text

def damage_byte(rng, text):
    """A byte is changed, dropped, doubled or put in, seldom in the line of names."""
    at = rng.randrange(len(NAMES) if len(text) > len(NAMES) and rng.random() < 0.9 else 0, len(text))
    return text[:at] + rng.choice([
        bytes([rng.choice(BYTES)]) + text[at + 1:], text[at + 1:], text[at:at + 1] + text[at:],
        bytes([rng.choice(BYTES)]) + text[at:], bytes([text[at] ^ 1 << rng.randrange(8)]) + text[at + 1:],
    ])


def damage_end(rng, text):
    """The text loses its final line feed, is cut off, or goes on."""
    return rng.choice([text[:-1], text[:-1], text[:rng.randrange(len(text))], text + b"\n", text + b"\0", text[:-2]])


def damage_once(rng, text):
    kind = rng.random()
    if not text:
        return rng.choice([b"", b"\n", NAMES])
    if kind < 0.2:
        return damage_byte(rng, text)
    if kind < 0.25:
        return damage_end(rng, text)
    lines = re.findall(rb"[^\n]*\n|[^\n]+", text)
    rng.choice(LINE_DAMAGES)(rng, lines)
    return b"".join(lines)


def random_text(rng):
    """A small text or, seldom, a large one, with no damage up to three."""
    if rng.random() < 0.01:
        text = rng.choice(large_texts())
    else:
        text = write(random_trains(rng, range(256), least=0 if rng.random() < 0.03 else 1))
    for _ in range(rng.choice([0, 1, 1, 1, 1, 2, 2, 3])):
        text = damage_once(rng, text)
    return text


# Large texts

def plain_train(number, count):
    """A train with this many stops, a minute from each to the next."""
    stops = [Stop(at % 1_024, at if at else None, at if at < count - 1 else None, at if at < count - 1 else None)
             for at in range(count)]
    return Train(number, number % 256, number, tuple(stops))


@cache
def large_texts():
    """Texts as large as a train or a book may be, and larger by one, with and without a second fault there."""
    def book(*counts):
        return write([plain_train(number, count) for number, count in enumerate(counts, 1)])

    full = book(*[8] * 512)
    long = book(*[64] * 64)
    behind = [b"513,1,0,1,,00:00,0\n", b"512,1,0,1,,00:00,0\n", b"0,1,0,1,,00:00,0\n", b"513,256,0,1,,00:00,0\n",
              b"513,1,0,1024,,00:00,0\n", b"513,1,0,1,00:00,,\n", b"513,1,0,1,,48:00,0\n", b"513,1,0,1,,00:00,0"]
    open_train = [line.replace(b",,\n", b",01:03,0\n") for line in write([plain_train(1, 64)]).splitlines(True)]
    open_text = b"".join(open_train)
    stop_65 = [b"1,1,1,100,02:00,,\n", b"1,1,1,100,02:00,03:00,0\n", b"1,1,1,1024,02:00,,\n", b"1,1,1,63,02:00,,\n",
               b"1,1,1,100,,02:00,0\n", b"1,1,1,100,01:03,,\n", b"1,1,1,100,48:00,,\n", b"1,1,2,100,02:00,,\n"]
    texts = [book(*[2] * 512), full, long, book(64), book(65), book(2, 65), book(64, 65), book(*[2] * 513),
             book(*[64] * 63, 63, 2), book(*[64] * 63, 62, 2), book(*[64] * 63, 61, 3), book(*[64] * 63, 61, 4),
             book(*[8] * 510, 7, 9), book(*[8] * 510, 9, 8), book(*[8] * 511, 9), full[:-1], long[:-1], open_text]
    texts += [full + line for line in behind] + [long + line for line in behind]
    texts += [open_text + line for line in stop_65]
    return texts
