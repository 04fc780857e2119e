"""What the phases of a script let its replies show: of each shard a number from the commits ahead of the search's phase to those up to
the phase's end, and never less than an earlier reply of the session showed."""
import itertools
import json
import math
import re

import counting

# What stands in each line of a script that counts here, but where a name is spelled by numbers.
COUNTS = re.compile(rb"schema|commit|sync|search|\\u")


def members(line):
    """The members of a line; none where Python does not read it as an object."""
    try:
        value = json.loads(line)
    except ValueError:
        return {}
    return value if isinstance(value, dict) else {}


def allowed(script):
    """For each search of a script without a fault the ranges of the numbers that it may show, shard by shard."""
    lines = [members(line.decode("utf-8")) if COUNTS.search(line) else {} for line in script.split(b"\n") if line.strip()]
    shards = lines[0]["schema"]["shards"]
    ends = [[0] * shards, *counting.commits_by_phase(lines, shards)]
    for _, phase, _ in counting.searches(lines):
        yield [range(least, most + 1) for least, most in zip(ends[phase], ends[phase + 1])]


def misstated(row):
    """The first answer of a row that has a reply and does not say exactly the generations that the phases allow."""
    for ranges, answer in zip(allowed(row.whole()), row.written()):
        said = [members(text).get("generations") for text in answer.texts]
        is_whole = len(said) == math.prod(map(len, ranges)) and said == [list(numbers) for numbers in itertools.product(*ranges)]
        if said != [None] and not is_whole:
            return answer
    return None


def goes_back(lines):
    """The first reply that shows less of a shard than an earlier one of its session."""
    seen = {}
    for line in lines:
        shown = json.loads(line)
        numbers = shown.get("generations")
        if numbers and any(less < earlier for less, earlier in zip(numbers, seen.get(shown["session"], numbers))):
            return line
        seen[shown["session"]] = numbers or seen.get(shown["session"], [])
    return None
