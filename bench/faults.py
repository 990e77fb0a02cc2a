"""Damaged timetables, at least one for each fault that reading finds, and whether both readers name the same fault."""
import re
import subprocess

from timetables import NAMES

FIRST = "11,127,1,1,,08:00,300"
SECOND = "11,127,1,2,08:30,08:35,200"
LAST = "11,127,1,3,09:10,,"
# what stands in place of the second of these three lines
WRONG_SECOND = {
    6: "11,127,1,1024,08:30,08:35,200",
    7: "11,127,1,1,08:30,08:35,200",
    8: "11,127,1,2,,08:35,200",
    9: "11,127,1,2,08:00,08:35,200",
    90: "11,127,1,2,08:30,08:29,200",
    91: "11,127,1,2,08:30,48:00,200",
    190: "11,127,1,2,08:30,08:35,200,",
    191: "11,127,01,2,08:30,08:35,200",
    192: "11,256,1,2,08:30,08:35,200",
    193: "11,127,1,2,8:30,08:35,200",
    194: "11,127,1,2,08:30,08:60,200",
    195: "11,127,1,2,08:30,,200",
    196: "11,127,1,2,08:30,08:35,",
    197: "",
    198: "11,127,1,2,08:30,08:35,65536",
    20: "11,126,1,2,08:30,08:35,200",
    200: "12,127,1,2,08:30,08:35,200",
}


def long_train(number, stops):
    for at in range(stops):
        arrive = "" if at == 0 else "%02d:%02d" % divmod(10 * at, 60)
        depart, fare = ("", "") if at == stops - 1 else ("%02d:%02d" % divmod(10 * at + 1, 60), "5")
        yield f"{number},127,0,{at % 7},{arrive},{depart},{fare}"


def texts():
    good = [FIRST, SECOND, LAST]
    for line in WRONG_SECOND.values():
        yield [NAMES, FIRST, line, LAST]
    yield [NAMES] + [line.replace("11,", "0,", 1) for line in good]
    yield [NAMES] + good + good
    yield [NAMES, LAST]
    yield [NAMES, SECOND, LAST]
    yield [NAMES, FIRST, SECOND]
    yield [NAMES.upper(), FIRST, SECOND, LAST]
    yield [NAMES]
    yield [NAMES] + good
    yield [NAMES] + list(long_train(1, 65))
    yield [NAMES] + [line for n in range(1, 67) for line in long_train(n, 64)]
    yield [NAMES] + [line for n in range(1, 514) for line in long_train(n, 2)]


def verdict(words, file):
    printed = subprocess.run([str(word) for word in [*words, "check", file]], capture_output=True, text=True).stdout
    return re.sub(r"(refused \d+).*", r"\1", printed).strip()


def differences(program, plain, place):
    """The files over which the two differ, each kept, and how many were looked at."""
    place.mkdir(parents=True, exist_ok=True)
    found, count = [], 0
    for lines in texts():
        for end in ("\n", ""):
            count += 1
            file = place / f"damaged-{count}.txt"
            file.write_text("\n".join(lines) + end)
            if verdict([program], file) == verdict([plain], file):
                file.unlink()
            else:
                found.append(file)
    return found, count
