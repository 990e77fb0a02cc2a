"""Runs a command on a file of queries, and tells its answers, the time that the processor gave it, and its memory."""
import os
import re
import subprocess
import tempfile

ANSWER = re.compile(r"^  (?:(cost .*), rides \d+|(refused \d+): .*)$", re.MULTILINE)


# a command that is quickly done is run more often than it is asked to be, for about so long
LEAST_SECONDS = 0.8


class Failed(Exception):
    pass


def is_enough(seconds, times):
    """Whether so many runs, and long enough ones, were made; never more than 25 that are short."""
    return len(seconds) >= times and (times == 1 or sum(seconds) >= LEAST_SECONDS or len(seconds) >= 25)


def run(words, queries, output, errors=os.devnull):
    """User and system seconds of one run."""
    with open(queries) as stdin, open(output, "w") as stdout, open(errors, "w") as stderr:
        child = subprocess.Popen([str(word) for word in words], stdin=stdin, stdout=stdout, stderr=stderr)
        _, status, usage = os.wait4(child.pid, 0)
        child.returncode = os.waitstatus_to_exitcode(status)
    return usage.ru_utime + usage.ru_stime, child.returncode


def best(words, queries, times):
    """The least seconds of several runs, and what they printed."""
    with tempfile.TemporaryDirectory() as place:
        output = os.path.join(place, "output")
        seconds = []
        while not is_enough(seconds, times):
            took, status = run(words, queries, output)
            if status != 0:
                raise Failed(f"status {status}: {' '.join(map(str, words))} < {queries}")
            seconds.append(took)
        with open(output) as stream:
            return min(seconds), stream.read()


def best_of_graph(words, queries, times):
    """The least seconds that it answered and that it built, as it tells them, and what it printed."""
    with tempfile.TemporaryDirectory() as place:
        output, errors = os.path.join(place, "output"), os.path.join(place, "errors")
        answered, built = [], []
        while not is_enough(answered, times):
            _, status = run(words, queries, output, errors)
            with open(errors) as stream:
                said = stream.read()
            if status != 0:
                raise Failed(f"status {status}: {' '.join(map(str, words))} < {queries}\n{said}")
            seconds = [float(word) for word in said.split()]
            built.append(seconds[0])
            answered.append(seconds[1])
        with open(output) as stream:
            return min(answered), stream.read(), min(built)


def memory(words, queries):
    """The most memory of a run, in MB."""
    with tempfile.TemporaryDirectory() as place:
        told = os.path.join(place, "told")
        run(["/usr/bin/time", "-f", "%M", "-o", told, *words], queries, os.path.join(place, "output"))
        with open(told) as stream:
            return int(stream.read().split()[-1]) / 1024


def answers(printed):
    """The answers that the program printed, as the peers word them."""
    return [cost or refused for cost, refused in ANSWER.findall(printed)]
