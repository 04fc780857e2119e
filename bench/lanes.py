#!/usr/bin/env python3
"""Measures what kernels take for sets of 200,000 documents beside what stood before them, in one program and one run: two sets joined
word by word, and the positions of a range marked in the order of their integers. Prints a table of both.

The program, bench/lanes.program.txt, stands outside the crates, so that the gate need not prove it: it is put into a copy of the
libraries that it stands on, and proved and run there by `rt run`, which proves what is not kept too."""
import argparse
import os
import re
import subprocess
import sys

import run

sys.path.insert(0, os.path.join(run.TOP, "tools"))
import child  # noqa: E402
import crates  # noqa: E402

PROGRAM, LIKE = "fc_lanes", "fc_column"
PARTS = "src", "specs", "proofs"
SOURCE = os.path.join(run.TOP, "bench", "lanes.program.txt")
TIMED = re.compile(r"(.+): (\d+) (\d+)$")
TARGET = 2


def make(room):
    """Makes a folder the top of a repository with the libraries of the program and with the program alone; answers the program's folder."""
    names = crates.with_below([LIKE])
    crates.copy_crates(names, PARTS, room)
    with open(os.path.join(room, "crates.txt"), "a", encoding="utf-8") as file:
        file.write(f"{PROGRAM}: {' '.join(names)}\n")
    folder = os.path.join(room, "crates", PROGRAM)
    os.makedirs(os.path.join(folder, "src"))
    with open(SOURCE, encoding="utf-8") as source, open(os.path.join(folder, "src", "main.rt"), "w", encoding="utf-8") as file:
        file.write(source.read())
    return folder


def row(what, kernel, before):
    ratio = before / max(kernel, 1)
    return f"| {what} | {kernel / 1e3:.1f} | {before / 1e3:.1f} | {ratio:.1f} | at least {TARGET}{', missed' * (ratio < TARGET)} |"


def main():
    argparse.ArgumentParser(description=__doc__, formatter_class=argparse.RawDescriptionHelpFormatter).parse_args()
    child.end_on_signals()
    with child.folder("facets-lanes-") as room:
        ran = subprocess.run(["rt", "run"], cwd=make(room), stdin=subprocess.DEVNULL, capture_output=True, text=True, check=False)
    timed = [TIMED.match(line) for line in ran.stdout.splitlines()]
    if ran.returncode or not any(timed):
        sys.exit(ran.stdout[-2000:] + ran.stderr[-2000:])
    print("| Over 200,000 documents | By a kernel, microseconds | Before | Times as fast | Target |\n|---|---|---|---|---|")
    for one in filter(None, timed):
        print(row(one[1], int(one[2]), int(one[3])))
    print(f"\nload of the machine {os.getloadavg()[0]:.1f} on {os.cpu_count()} processors")


if __name__ == "__main__":
    main()
