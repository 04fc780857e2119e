#!/usr/bin/env python3
"""Measures legal scripts that ask for much of one thing, each at a size and at twice the size, to find what costs far more than its
neighbours. Prints the rows of the table in docs/performance.md, then what grows by more than 2.5, and on standard error how far it
is. Looks at each line that the program writes only for whether it is a reply."""
import argparse
import json
import os
import sys
import tempfile

import run
from run import Cost
from scripts import SCRIPTS

# Twice the size is to take at most so many times the time.
GROWTH = 2.5


class Case:
    """A script at a size, and the least that runs of it took."""

    def __init__(self, folder, script, size):
        self.path, self.searches, self.faults, self.least = os.path.join(folder, str(size)), 0, script.faults, None
        with open(self.path, "w", encoding="utf-8") as file:
            for line in script.lines(size):
                self.searches += "search" in line
                file.write(json.dumps(line, separators=(",", ":")) + "\n")

    def run(self, program):
        cost, output = run.run_once(program, self.path)
        lines = output.splitlines()
        faults = sum(line.startswith(b'{"error"') for line in lines)
        if len(lines) != self.searches or faults != self.searches * self.faults:
            sys.exit(f"{self.searches} searches have {len(lines)} lines, {faults} of them of faults")
        self.least = Cost(*map(min, zip(cost, self.least or cost)))
        self.bytes = os.path.getsize(self.path) + len(output)


def measured(options, script):
    """What a script takes at its size and at twice that."""
    with tempfile.TemporaryDirectory() as folder:
        once, twice = (Case(folder, script, size) for size in (script.size, 2 * script.size))
        for _ in range(options.runs):
            once.run(options.program)
            twice.run(options.program)
    return once, twice


def growth(once, twice, floor):
    """How many times the time and the memory; a program is not seen to have less memory than the one that started it."""
    return Cost(twice.least.seconds / max(once.least.seconds, 0.001), twice.least.peak / max(once.least.peak, floor))


def row(name, script, once, twice, floor):
    """A row of the table."""
    if twice.least.peak > floor:
        memory = f"{twice.least.peak / 1e6:,.0f} MB | {twice.least.peak / twice.bytes:,.0f}"
    else:
        memory = f"under {floor / 1e6:.0f} MB | "
    times = f"{once.least.seconds:.2f} s | {twice.least.seconds:.2f} s | {growth(once, twice, floor).seconds:.1f}"
    return f"| {name} | {script.what.format(script.size)} | {times} | {memory} |"


def floor_of(program):
    """The least memory that is seen: a little more than that of a run which has next to nothing to do."""
    with tempfile.NamedTemporaryFile() as script:
        script.write(b'{"schema":{"shards":1,"fields":{}}}\n')
        script.flush()
        return 1.1 * run.run_once(program, script.name)[0].peak


def measure(options):
    """Prints the table, and tells the growth of each script by its name."""
    floor, found = floor_of(options.program), {}
    print("| Script | What there is | Once | Twice | Growth | Memory, twice | For each byte |\n|---|---|---|---|---|---|---|")
    for number, name in enumerate(options.only, 1):
        print(f"{number} of {len(options.only)}: {name}", file=sys.stderr, flush=True)
        once, twice = measured(options, SCRIPTS[name])
        print(row(name, SCRIPTS[name], once, twice, floor), flush=True)
        found[name] = growth(once, twice, floor)
    return found


def grown(found):
    """Those that grow by more than is wanted, as a text."""
    return ", ".join(f"{name} {times:.1f}" for name, times in found.items() if times > GROWTH) or "none"


def report(found):
    print(f"By more than {GROWTH} grow: {grown({name: cost.seconds for name, cost in found.items()})}.")
    print(f"The memory grows by more than {GROWTH}: {grown({name: cost.peak for name, cost in found.items()})}.")


def main():
    options = argparse.ArgumentParser(description=__doc__, epilog=f"Scripts: {', '.join(SCRIPTS)}.")
    options.add_argument("--program", default=os.path.join(run.TOP, "crates", "fc_main", "out", "fc_main"))
    options.add_argument("--runs", type=int, default=2, help="each figure is the least of so many runs")
    options.add_argument("--only", metavar="NAME", nargs="+", default=list(SCRIPTS), help="only these scripts (default: all)")
    words = options.parse_args()
    unknown = [name for name in words.only if name not in SCRIPTS]
    if unknown:
        options.error(f"no such script: {unknown[0]}")
    found = measure(words)
    print(f"\nLeast of {words.runs} runs; load of the machine {os.getloadavg()[0]:.1f} on {os.cpu_count()} processors.")
    report(found)


if __name__ == "__main__":
    main()
