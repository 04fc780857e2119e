"""Whether what a program writes for a script is an output of it: each line is the reply counted over the generations that it
shows, and these are legal."""
import collections
import json
import subprocess

import counting
from counting import ordered

SECONDS = 60
TOO_SLOW = f"not done in {SECONDS} seconds"


class Difference:
    """What is wrong in what a program wrote: the kind, and the counted line beside the written one."""

    def __init__(self, kind, counted, written):
        self.kind, self.counted, self.written = kind, counted, written


def text_of(lines):
    return "".join(json.dumps(line, ensure_ascii=False, separators=(",", ":")) + "\n" for line in lines).encode("utf-8")


def run(program, lines, words=(), seconds=SECONDS, errors=subprocess.DEVNULL):
    """The exit status and the lines that the program writes; status None where it takes too long."""
    try:
        done = subprocess.run([program, *words], input=text_of(lines), stdout=subprocess.PIPE, stderr=errors, timeout=seconds)
    except subprocess.TimeoutExpired:
        return None, []
    return done.returncode, done.stdout.decode("utf-8", "replace").split("\n")[:-1]


def told_numbers(line, shards):
    """The generations that a line shows, or nothing where it shows none."""
    try:
        numbers = json.loads(line)["generations"]
    except (ValueError, TypeError, KeyError):
        return None
    fits = isinstance(numbers, list) and len(numbers) == shards and all(type(number) is int for number in numbers)
    return numbers if fits else None


def is_legal(numbers, earlier, script, phase):
    """At least all commits of the phases before and what the session saw, at most those up to the end of the phase."""
    before = script.ends[phase - 1] if phase else [0] * script.shards
    return all(max(least, seen) <= number <= most
               for number, least, seen, most in zip(numbers, before, earlier, script.ends[phase]))


class Judge:
    """Judges what runs of a script write. A reply over some generations is counted once."""

    def __init__(self, world):
        self.faults, self.script = world.faults, counting.Script(world.lines, world.conditions)
        self.searches, self.counted = list(counting.searches(world.lines)), collections.defaultdict(dict)

    def reply(self, number, search, numbers):
        """The line of the search with a number, over these generations."""
        counted = self.counted[number]
        if tuple(numbers) not in counted:
            counted[tuple(numbers)] = self.script.reply(search, numbers)
        return counted[tuple(numbers)]

    def shown_otherwise(self):
        """How many searches showed other generations in one run than in another."""
        return sum(len(counted) > 1 for counted in self.counted.values())

    def difference(self, status, written):
        """The first difference, or nothing."""
        seen = {}
        if status != 0:
            return Difference(TOO_SLOW if status is None else f"status {status}", "", "\n".join(written))
        for (number, phase, search), line in zip(self.searches, written):
            found = self.difference_of(number, phase, search, line, seen)
            if found:
                return found
        if len(written) != len(self.searches):
            return Difference("not a line for each search", "", "\n".join(written))
        return None

    def difference_of(self, number, phase, search, line, seen):
        """What is wrong with the line of a search, where its session saw so much before."""
        session, fault = counting.session_of(search), self.faults.get(ordered(search["request"]))
        numbers, most = told_numbers(line, self.script.shards), self.script.ends[phase]
        earlier = seen.get(session, [0] * self.script.shards)
        if fault:
            kind, counted = "not its error line", ordered({**fault, "session": session})
        elif numbers is None:
            kind, counted = "no reply", self.script.reply(search, most)
        elif not is_legal(numbers, earlier, self.script, phase):
            return Difference("generations that are not legal", self.script.reply(search, most), line)
        else:
            kind, counted = "another reply", self.reply(number, search, numbers)
            seen[session] = numbers
        return Difference(kind, counted, line) if line != counted else None


def difference(world, status, written):
    """The first difference in what one run writes."""
    return Judge(world).difference(status, written)
