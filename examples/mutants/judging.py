"""Whether a program does with a script what the guide says of every script: how it ends, and the form of what it writes."""
import collections
import itertools
import json
import subprocess

import phases
from mutants.reading import Script
from rows import DETAILS, REQUEST_FAULTS, SCRIPT_FAULTS, compact

SECONDS = 20
# What stands on standard error by the status. The others of the guide's table come of words, of streams and of want of memory.
FAULT = 65
ERRORS = {0: b"", FAULT: b"facets: the script has a fault\n"}
FAULT_MEMBERS = {"error", "line", "number"}
REQUEST_FAULT_MEMBERS = {"error", "facet", "number", "session"}
REPLY_MEMBERS = {"facets", "generations", "session"}
# A run: its status, below 0 for a signal and None where it takes too long, and what it writes.
Run = collections.namedtuple("Run", "status output errors")


def run(program, words, script):
    try:
        done = subprocess.run([program, *words], input=script, capture_output=True, timeout=SECONDS, check=False)
    except subprocess.TimeoutExpired as late:
        return Run(None, late.stdout or b"", late.stderr or b"")
    return Run(done.returncode, done.stdout, done.stderr)


def object_of(line):
    """The members of a line that is an object spelled as the guide says: names in order, no spaces; else none."""
    try:
        value = json.loads(line)
        is_spelled = isinstance(value, dict) and compact(value).encode("utf-8") == line
    except (ValueError, RecursionError):
        return {}
    return value if is_spelled else {}


def is_whole(value):
    return type(value) is int and value >= 0


def has_number(told, numbers):
    """Whether name and number of a fault are those of the guide's table."""
    name, number = told["error"], told["number"]
    return isinstance(name, str) and is_whole(number) and numbers.get(name) == number


def wrong_fault(script, lines):
    """What is wrong with the lines that are written of a script with a fault."""
    if len(lines) != 1:
        return "not one line for a fault"
    told = object_of(lines[0])
    members = FAULT_MEMBERS | ({"detail"} if told.get("error") == "bad-document" else set())
    if set(told) != members or not has_number(told, SCRIPT_FAULTS) or not is_whole(told["line"]):
        return "no line of a fault"
    if told.get("detail", DETAILS[0]) not in DETAILS:
        return "a detail that is none"
    return None if script.may_tell(told["line"], told["error"]) else "a fault that the script has not, or not as its first"


def is_request_fault(told, session):
    if set(told) != REQUEST_FAULT_MEMBERS or not has_number(told, REQUEST_FAULTS) or told["session"] != session:
        return False
    return isinstance(told["facet"], list) and all(isinstance(name, str) for name in told["facet"])


def is_reply(told, session, ranges):
    """Whether this is a reply to a search of a session, over generations in these ranges."""
    if set(told) != REPLY_MEMBERS or told["session"] != session or not isinstance(told["facets"], dict):
        return False
    numbers = told["generations"]
    is_legal = isinstance(numbers, list) and len(numbers) == len(ranges) and all(
        is_whole(number) and number in legal for number, legal in zip(numbers, ranges))
    return is_legal and is_whole(told["facets"].get("count"))


def wrong_replies(script, lines):
    """What is wrong with the lines that are written of a script without a fault."""
    if script.fault:
        return "no fault is told"
    sessions = script.sessions()
    if len(lines) != len(sessions):
        return "not a line for each search"
    for line, session, ranges in zip(lines, sessions, phases.allowed(script.text)):
        told = object_of(line)
        if not is_request_fault(told, session) and not is_reply(told, session, ranges):
            return "neither a reply nor a request's fault"
    return "a session sees less than before" if phases.goes_back(lines) else None


def wrong_run(script, done):
    """What is wrong with a run."""
    if done.status is None:
        return f"not done in {SECONDS} seconds"
    if done.status not in ERRORS:
        return f"status {done.status}" if done.status >= 0 else f"signal {-done.status}"
    if done.errors != ERRORS[done.status]:
        return f"another standard error than that of status {done.status}"
    lines = done.output.split(b"\n")
    if lines.pop():
        return "no line feed at the end"
    return wrong_fault(script, lines) if done.status == FAULT else wrong_replies(script, lines)


def show_others(one, other):
    """Whether two lines show generations, and not the same."""
    if one == other:
        return False
    shown = [object_of(line).get("generations") for line in (one, other)]
    return None not in shown and shown[0] != shown[1]


def pairs(one, other):
    """The lines of two runs, side by side."""
    return itertools.zip_longest(one.output.split(b"\n"), other.output.split(b"\n"), fillvalue=b"")


def shown_otherwise(one, other):
    """How many lines show other generations in the one run than in the other."""
    return sum(show_others(*lines) for lines in pairs(one, other))


def is_same(one, other):
    """Whether two runs write the same, but for lines that show other generations."""
    return one.status == other.status and all(first == second or show_others(first, second) for first, second in pairs(one, other))


class Judge:
    """Runs a script twice, with these words for each of the runs."""

    def __init__(self, program, words):
        self.program, self.words = program, words

    def judged(self, text):
        """What is wrong, None where nothing is; and the runs, up to the first that is wrong."""
        script, runs = Script(text), []
        for words in self.words:
            runs.append(run(self.program, words, text))
            wrong = wrong_run(script, runs[-1])
            if wrong:
                return wrong, runs
        return None if is_same(*runs) else "two runs write different lines", runs
