#!/usr/bin/env python3
"""Measures the program beside a scan by hand (scan/scan.rs, which rustc compiles) and beside SQLite (sqlite.py), on the same
documents and searches: the reading, the most memory, and one search of each kind. All have to find the same numbers, or it ends with
status 1. Prints a table, and on standard error how far it is. Without rustc there is no scan."""
import argparse
import json
import os
import re
import shutil
import sqlite3
import subprocess
import sys
import tempfile

import run
from kinds import UNSEEN, rounded
from run import Case
from threads import shown

HERE = os.path.dirname(os.path.abspath(__file__))
SHARDS, EVERY, BRANDS = 4, 1000, 13
THREE = {"type": "terms", "field": "brand", "limit": 3, "refine": True}
RANGES = {"type": "range", "field": "price", "start": 0, "end": 1000, "gap": 100}
TOTAL = {"facet": {"total": "sum(price)"}}


def listed_whole(asked):
    """A request, or a facet of one, where each shard lists all brands: only so its reply is sure to be that of a single index."""
    if isinstance(asked, str):
        return asked
    nested = {name: listed_whole(one) for name, one in asked.get("facet", {}).items()}
    return {**asked, **({"facet": nested} if nested else {}), **({"overrequest": BRANDS} if asked.get("limit", -1) > 0 else {})}


# What is searched: by a name, the request. The scan and SQLite know the names.
REQUESTS = {name: listed_whole(request) for name, request in {
    **run.REQUESTS,
    "three brands and tags": {"facet": {"brand": {**THREE, **TOTAL}, "tags": {"type": "terms", "field": "tags", **run.ALL}}},
    "prices of a tag": {"filter": "tags:t0", "facet": {"brand": THREE, "price": {**RANGES, **TOTAL}}},
}.items()}
PROGRAM, SCAN, SCAN_WITH_IDS, SQLITE = "facets", "the scan", "the scan with a set of ids", "SQLite"
READING, MEMORY, PYTHON = "reading", "most memory", "reading in Python"
COUNTING = ("valgrind", "--tool=cachegrind", "--cache-sim=no", "--cachegrind-out-file=/dev/null")


def beside(folder):
    """What stands beside the program: by a name the words that start it."""
    found, scan = {SQLITE: [sys.executable, os.path.join(HERE, "sqlite.py")]}, os.path.join(folder, "scan")
    if shutil.which("rustc") is None:
        print("there is no rustc, so there is no scan", file=sys.stderr)
        return found
    subprocess.run(["rustc", "-O", "--edition", "2021", "-o", scan, os.path.join(HERE, "scan", "scan.rs")], check=True)
    return {SCAN: [scan], SCAN_WITH_IDS: [scan, "--ids"], **found}


class Measuring:
    """The documents, what reads them, and the least of each figure by what it is of and whose."""

    def __init__(self, options, folder):
        self.options, self.folder, self.beside, self.least = options, folder, beside(folder), {}
        self.opening = run.opening(options.documents, SHARDS, EVERY)
        self.reading = Case(folder, self.opening, {}, 0, b"")
        self.replies = self.checked()

    def note(self, what, who, value):
        self.least[what, who] = min(value, self.least.get((what, who), value))

    def words(self, who, searches, *names):
        return [*self.beside[who], "--runs", "1", "--searches", str(searches), self.reading.path, *names]

    def run_beside(self, who, searches):
        """What a run costs; and by a name the seconds that it prints, and what was found."""
        program, *words = self.words(who, searches)
        cost, output = run.run_once(program, self.reading.path, words)
        lines = (line.split("\t") for line in output.decode("utf-8").splitlines())
        return cost, {name: (float(milliseconds) / 1000, json.loads(found)) for name, milliseconds, found in lines}

    def checked(self):
        """The line that the program writes for each search, where all find the same."""
        print("the numbers are compared", file=sys.stderr, flush=True)
        path = os.path.join(self.folder, "all")
        with open(path, "wb") as file:
            file.write(self.opening)
            file.writelines(json.dumps(run.search(request)).encode("utf-8") + b"\n" for request in REQUESTS.values())
        lines = run.run_once(self.options.program, path)[1].splitlines(keepends=True)
        if len(lines) != len(REQUESTS):
            sys.exit(f"{len(REQUESTS)} searches have {len(lines)} lines")
        replies = dict(zip(REQUESTS, lines))
        for who in self.beside:
            found = self.run_beside(who, 1)[1]
            different = [name for name, line in replies.items() if json.loads(line).get("facets") != found[name][1]]
            if different:
                sys.exit(f"{who} finds other numbers than the program: {', '.join(different)}")
        return replies

    def case(self, name, searches):
        return Case(self.folder, self.opening, REQUESTS[name], searches, self.replies[name])


def timed(measuring):
    """Notes seconds and bytes, each the least of several runs."""
    options, note = measuring.options, measuring.note
    one, many = ({name: measuring.case(name, count) for name in REQUESTS} for count in (1, 1 + options.searches))
    for number in range(options.runs):
        print(f"run {number + 1} of {options.runs}", file=sys.stderr, flush=True)
        for case in (measuring.reading, *one.values(), *many.values()):
            case.run(options.program)
        for who in measuring.beside:
            cost, found = measuring.run_beside(who, 0)
            note(MEMORY, who, cost.peak)
            if who != SCAN_WITH_IDS:
                found = {**measuring.run_beside(who, options.searches if who == SCAN else max(options.searches // 20, 1))[1], **found}
            for name, (seconds, _) in found.items():
                note(name, who, seconds)
    note(READING, PROGRAM, measuring.reading.least.seconds)
    note(MEMORY, PROGRAM, measuring.reading.least.peak)
    for name in REQUESTS:
        note(name, PROGRAM, (many[name].least.seconds - one[name].least.seconds) / options.searches)


def instructions(words, path):
    with open(path, "rb") as script:
        done = subprocess.run([*COUNTING, *words], stdin=script, stdout=subprocess.DEVNULL, stderr=subprocess.PIPE, check=True)
    return int(re.search(rb"I +refs: +([0-9,]+)", done.stderr)[1].replace(b",", b""))


def counted(measuring):
    """Notes instructions of the program and of the scan; those of a search by the difference between many and none."""
    program, path, times = [measuring.options.program], measuring.reading.path, max(measuring.options.searches // 10, 1)
    scans = [who for who in measuring.beside if who != SQLITE]
    print(READING, file=sys.stderr, flush=True)
    measuring.note(READING, PROGRAM, instructions(program, path))
    for who in scans:
        measuring.note(READING, who, instructions(measuring.words(who, 0), path))
    for name in REQUESTS:
        print(name, file=sys.stderr, flush=True)
        many = {PROGRAM: instructions(program, measuring.case(name, times).path)}
        many.update({who: instructions(measuring.words(who, times, name), path) for who in scans[:1]})
        for who, count in many.items():
            measuring.note(name, who, (count - measuring.least[READING, who]) / times)


def cell(value, what, options):
    """A figure of the table."""
    if value is not None and value <= 0:
        return UNSEEN
    if value is None or not options.instructions:
        return shown(value, "bytes" if what == MEMORY else "s")
    return f"{rounded(value / 1e6)} million"


def row(measuring, title, what, others):
    """A row of the table: the program's figure, and that of each other with the ratio over it."""
    own, *values = (measuring.least.get((what, who)) for who in (PROGRAM, *others))
    cells = [title, cell(own, what, measuring.options)]
    for value in values:
        is_seen = value is not None and min(own, value) > 0
        cells += [cell(value, what, measuring.options), rounded(own / value) if is_seen else ""]
    return f"| {' | '.join(cells)} |"


def rows(measuring):
    """The rows of the table."""
    for what in (READING, MEMORY, *REQUESTS):
        if (what, PROGRAM) in measuring.least:
            yield row(measuring, f"one search: {what}" if what in REQUESTS else what, what, (SCAN, SQLITE))
        if (what, SCAN_WITH_IDS) in measuring.least:
            yield row(measuring, f"the same, {SCAN_WITH_IDS}", what, (SCAN_WITH_IDS, None))


def report(measuring):
    options = measuring.options
    print(f"{options.documents:,} documents on {SHARDS} shards, a commit every {EVERY:,}: {measuring.reading.size:,} bytes")
    print("| | The program | The scan | Over the scan | SQLite | Over SQLite |\n|---|---|---|---|---|---|")
    print("\n".join(rows(measuring)))
    load = f"load of the machine {os.getloadavg()[0]:.1f} on {os.cpu_count()} processors"
    if options.instructions:
        print(f"\nInstructions, as valgrind counts them; {load}.")
    else:
        python = shown(measuring.least[PYTHON, SQLITE], "s")
        print(f"\nLeast of {options.runs} runs; SQLite {sqlite3.sqlite_version}, of its reading {python} are Python's; {load}.")
    print("All find the same numbers.")


def main():
    options = argparse.ArgumentParser(description=__doc__)
    options.add_argument("--program", default=os.path.join(run.TOP, "crates", "fc_main", "out", "fc_main"))
    options.add_argument("--documents", type=int, default=200_000, help="at least 1,000, so that each price is there")
    options.add_argument("--runs", type=int, default=3, help="each figure is the least of so many runs")
    options.add_argument("--searches", type=int, default=100, help="a search is timed over so many, by SQLite over a twentieth")
    options.add_argument("--instructions", action="store_true", help="count instructions by valgrind in place of time, of searches over a tenth")
    words = options.parse_args()
    if words.documents < 1000:
        options.error("too few documents")
    if words.instructions and shutil.which("valgrind") is None:
        options.error("there is no valgrind")
    with tempfile.TemporaryDirectory() as folder:
        measuring = Measuring(words, folder)
        (counted if words.instructions else timed)(measuring)
        report(measuring)


if __name__ == "__main__":
    main()
