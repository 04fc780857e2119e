#!/usr/bin/env python3
"""Measures what threads gain and what they cost: several workers for one search, several sessions, commits beside searches, many
phases, many commits, commits that are published one by one, and documents that overwrite others. Prints a table with the targets, and on standard error how far it is. Looks at each line that the program
writes only for whether it is a reply, and whether several workers write the same ones as one."""
import argparse
import collections
import itertools
import json
import os
import subprocess
import sys
import tempfile

import run
from run import Cost

# A row of the table: what is measured, what it is compared with, both in seconds or bytes, and the most that the ratio may be.
Row = collections.namedtuple("Row", "what measured beside unit target", defaults=["s", None])
SHARDS, EVERY = 4, 1000
PRICES, BRANDS_IN_PRICES = "prices", "brands in each price"
SAID = {PRICES: "ranges of prices with brands in them", BRANDS_IN_PRICES: "13 brands in 1,000 prices"}
BRANDS = {"facet": {"brand": {"type": "terms", "field": "brand"}}}
COMMIT, SYNC = {"commit": {}}, {"sync": {}}


class Script:
    """A script in a file, and how many searches it has."""

    def __init__(self, folder, lines):
        self.path, self.searches = os.path.join(folder, f"{len(os.listdir(folder))}"), 0
        with open(self.path, "w", encoding="utf-8") as file:
            for line in lines:
                self.searches += "search" in line
                file.write(json.dumps(line, separators=(",", ":")) + "\n")

    def run(self, program, words):
        cost, output = run.run_once(program, self.path, words)
        lines = output.splitlines()
        if len(lines) != self.searches or not all(line.startswith(b'{"facets"') for line in lines):
            sys.exit(f"{self.searches} searches have {len(lines)} lines, or one that is no reply")
        return cost, output


class Measuring:
    """What is measured with, and where the scripts are."""

    def __init__(self, options, folder):
        self.options, self.folder = options, folder

    def script(self, *parts):
        return Script(self.folder, itertools.chain(*parts))

    def least(self, *several):
        """For each program with a script and words the least that its runs took; they take turns."""
        found, outputs = [None] * len(several), [None] * len(several)
        for _ in range(self.options.runs):
            for i, (program, script, words) in enumerate(several):
                cost, outputs[i] = script.run(program, words)
                found[i] = Cost(*map(min, zip(cost, found[i] or cost)))
        return found, outputs

    def costs(self, *scripts):
        """What scripts cost in the program."""
        return self.least(*((self.options.program, script, ()) for script in scripts))[0]

    def both(self, script):
        """What a script costs in the program, and in the other one where there is one."""
        programs = [self.options.program, *filter(None, [self.options.against])]
        found, _ = self.least(*((program, script, ()) for program in programs))
        return found[0], found[1] if self.options.against else None


def opening(documents, start=0, every=EVERY):
    """Documents with a commit for each so many."""
    for i in range(start, start + documents):
        yield {"add": {"shard": i % SHARDS, "doc": run.document(i)}}
        if (i + 1) % every == 0:
            yield COMMIT


def whole(documents):
    return [{"schema": {"shards": SHARDS, "fields": run.FIELDS}}], opening(documents), [COMMIT, SYNC]


def search(request, session="demo"):
    return {"search": {"session": session, "request": request}}


def less(cost, base, times=1):
    """What a script takes more than another, over so many."""
    return Cost((cost.seconds - base.seconds) / times, cost.peak, (cost.wall - base.wall) / times)


def times_of(what, found, other, target):
    """Rows for the clock and for the processors."""
    yield Row(what, found.wall, other.wall, target=target)
    yield Row(f"{what}: processor time", found.seconds, other.seconds)


def workers(measuring):
    """One search with four workers and with one, from the difference between many searches and one."""
    options = measuring.options
    for name, times in ((PRICES, options.searches), (BRANDS_IN_PRICES, max(options.searches // 10, 1))):
        one, many = (measuring.script(*whole(options.documents), [search(run.REQUESTS[name])] * count) for count in (1, 1 + times))
        runs = [(options.program, script, ("--workers", number)) for number in "41" for script in (one, many)]
        costs, outputs = measuring.least(*runs)
        if outputs[:2] != outputs[2:]:
            sys.exit("several workers write other lines than one")
        four, single = less(costs[1], costs[0], times), less(costs[3], costs[2], times)
        yield from times_of(f"one search for {SAID[name]}: 4 workers, beside 1", four, single, 0.45)


def sessions(measuring):
    """Two sessions, beside one that searches as often."""
    options, request = measuring.options, run.REQUESTS[PRICES]
    start = measuring.script(*whole(options.documents), [search(request)])
    together = measuring.script(*whole(options.documents), [search(request)] * (2 * options.searches + 1))
    two = [search(request)] + [search(request, session) for session in ("one", "two")] * options.searches
    apart = measuring.script(*whole(options.documents), two)
    least, single, double = measuring.costs(start, together, apart)
    what = f"two sessions of {options.searches} searches each for {SAID[PRICES]}, beside one of {2 * options.searches}"
    yield from times_of(what, less(double, least), less(single, least), 0.6)


def beside(measuring):
    """Commits beside searches, and a sync between them: few commits, and many, each of which is published by itself."""
    options = measuring.options
    half, searches = options.documents // 2, [search(run.REQUESTS[PRICES])] * options.searches
    base = list(itertools.chain(*whole(half)))
    for commits, target in ((4, 1.2), (100, None)):
        more = list(opening(half, half, max(half // commits, 1)))
        together, apart = (measuring.script(base, more, between, searches) for between in ([], [SYNC]))
        first, second = measuring.costs(together, apart)
        what = f"a phase with {commits} commits and {options.searches} searches, beside a sync between them"
        yield from times_of(what, first, second, target)


def phases(measuring):
    """Many phases over 64 shards, with a commit of one shard and a search each."""
    lines = [{"schema": {"shards": 64, "fields": {"brand": "string"}}}]
    for i in range(measuring.options.phases):
        document = {"id": f"d{i}", "brand": f"b{i % 13}"}
        lines += [{"add": {"shard": i % 64, "doc": document}}, {"commit": {"shard": i % 64}}, search(BRANDS), SYNC]
    found, other = measuring.both(measuring.script(lines))
    what = f"a commit of one of 64 shards and a search in each of {measuring.options.phases:,} phases, beside the other program"
    yield Row(f"{what}: processor time", found.seconds, other and other.seconds, target=1.5)
    yield Row(what, found.wall, other and other.wall)


def memory(measuring):
    """The most memory for many commits in several phases."""
    documents, lines = measuring.options.documents, [{"schema": {"shards": SHARDS, "fields": run.FIELDS}}]
    for i in range(documents):
        lines.append({"add": {"shard": i % SHARDS, "doc": run.document(i)}})
        lines += [COMMIT] if (i + 1) % (EVERY // 5) == 0 else []
        lines += [search(BRANDS), SYNC] if (i + 1) % max(documents // 10, 1) == 0 else []
    found, other = measuring.both(measuring.script(lines))
    what = f"{documents:,} documents on {SHARDS} shards, a commit for each {EVERY // 5}, ten phases with a search, beside the other program"
    yield Row(f"{what}: the most memory", found.peak, other and other.peak, "bytes")
    yield Row(f"{what}: processor time", found.seconds, other and other.seconds)


def published(documents, every, searches):
    """Documents of one shard, a search beside the commit of each so many, and at last some searches."""
    yield {"schema": {"shards": 1, "fields": run.FIELDS}}
    for i in range(documents):
        yield {"add": {"doc": run.document(i)}}
        if (i + 1) % every == 0:
            yield from (COMMIT, search({}))
    yield SYNC
    yield from [search(run.REQUESTS[PRICES])] * searches


def commits(measuring):
    """Commits that are published one by one, whose segments are merged; a search over what they leave; and small ones."""
    options, times = measuring.options, measuring.options.searches // 4
    kinds = [(every, searches) for every in (EVERY, options.documents) for searches in (0, 1, 1 + times)]
    many, many_one, many_all, one, one_one, one_all = measuring.costs(*(measuring.script(published(options.documents, *kind)) for kind in kinds))
    what = f"{options.documents:,} documents of one shard, a search beside the commit of each {EVERY:,}"
    yield Row(f"{what}, beside one commit: processor time", many.seconds, one.seconds, target=1.6)
    searching = f"one search for {SAID[PRICES]} over what these commits leave, beside one over one segment"
    yield Row(searching, less(many_all, many_one, times).seconds, less(one_all, one_one, times).seconds, target=1.3)
    twice, once = measuring.costs(*(measuring.script(published(count, 1, 0)) for count in (4000, 2000)))
    yield Row("4,000 commits of a document with a search beside each, beside 2,000: processor time", twice.seconds, once.seconds, target=2.2)


def overwritten(documents, numbers, searches):
    """Documents of one shard whose ids have these numbers, a search beside the commit of each so many, and at last some searches."""
    yield {"schema": {"shards": 1, "fields": run.FIELDS}}
    for i, number in enumerate(numbers, 1):
        yield {"add": {"doc": {**run.document(number % documents), "id": f"d{number}"}}}
        if i % EVERY == 0:
            yield from (COMMIT, search({}))
    yield from (COMMIT, SYNC)
    yield from [search(run.REQUESTS[PRICES])] * searches


def updates(measuring):
    """Documents that overwrite others, and a search over what they leave."""
    options, times = measuring.options, measuring.options.searches // 4
    half = options.documents // 2
    again = [i * 7919 % half for i in range(half)]
    kinds = {"over": [*range(half), *again], "twice": range(2 * half), "once": range(half)}
    scripts = [(numbers, searches) for numbers in kinds.values() for searches in (0, 1, 1 + times)]
    costs = measuring.costs(*(measuring.script(overwritten(half, *kind)) for kind in scripts))
    (over, over_one, over_all), (twice, _, _), (once, once_one, once_all) = (costs[i:i + 3] for i in (0, 3, 6))
    what = f"{half:,} documents and as many that overwrite them, a search beside the commit of each {EVERY:,}"
    yield Row(f"{what}, beside {2 * half:,} documents: processor time", over.seconds, twice.seconds, target=2.5)
    yield Row(f"{what}, beside {2 * half:,} documents: the most memory", over.peak, twice.peak, "bytes")
    searching = f"one search for {SAID[PRICES]} over what is left, beside one over {half:,} documents"
    yield Row(searching, less(over_all, over_one, times).seconds, less(once_all, once_one, times).seconds, target=1.3)


PARTS = {"workers": workers, "sessions": sessions, "beside": beside, "phases": phases, "memory": memory, "commits": commits,
         "updates": updates}


def shown(value, unit):
    if value is None:
        return ""
    if unit == "bytes":
        return f"{value / 1e6:,.1f} MB"
    return f"{1e3 * value:,.2f} ms" if value < 1 else f"{value:,.2f} s"


def row(one):
    """A row of the table."""
    ratio = one.measured / one.beside if one.beside and one.beside > 0 and one.measured > 0 else None
    is_missed = ratio is not None and one.target is not None and ratio > one.target
    target = "" if one.target is None else f"at most {one.target}{', missed' * is_missed}"
    told = "" if one.beside is None else "below what can be seen" if ratio is None else f"{ratio:.2f}"
    return f"| {one.what} | {shown(one.measured, one.unit)} | {shown(one.beside, one.unit)} | {told} | {target} |"


def takes_workers(program):
    done = subprocess.run([program, "--workers", "1"], input=b'{"schema":{"shards":1,"fields":{}}}\n', stdout=subprocess.DEVNULL,
                          stderr=subprocess.DEVNULL, check=False)
    return done.returncode == 0


def report(options, names):
    print("| What | Measured | Beside it | Ratio | Target |\n|---|---|---|---|---|")
    for number, name in enumerate(names, 1):
        print(f"{number} of {len(names)}: {name}", file=sys.stderr, flush=True)
        with tempfile.TemporaryDirectory() as folder:
            for one in PARTS[name](Measuring(options, folder)):
                print(row(one), flush=True)
    print(f"\nLeast of {options.runs} runs; load of the machine {os.getloadavg()[0]:.1f} on {os.cpu_count()} processors.")


def main():
    options = argparse.ArgumentParser(description=__doc__)
    options.add_argument("--program", default=os.path.join(run.TOP, "crates", "fc_main", "out", "fc_main"))
    options.add_argument("--against", metavar="PATH", help="another program, for phases and memory")
    options.add_argument("--documents", type=int, default=200_000)
    options.add_argument("--phases", type=int, default=1500)
    options.add_argument("--runs", type=int, default=3, help="each figure is the least of so many runs")
    options.add_argument("--searches", type=int, default=200, help="a search is timed over so many, a dear one over a tenth")
    options.add_argument("--only", metavar="NAME", nargs="+", choices=PARTS, default=list(PARTS), help=f"only these: {', '.join(PARTS)}")
    words = options.parse_args()
    names = [name for name in words.only if name != "workers" or takes_workers(words.program)]
    if len(names) < len(words.only):
        print("the program takes no --workers: workers are not measured", file=sys.stderr)
    report(words, names)


if __name__ == "__main__":
    main()
