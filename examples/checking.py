"""What the checkers share: their words, and two texts laid out side by side."""
import argparse
import difflib
import json
import os

HERE = os.path.dirname(os.path.abspath(__file__))
PROGRAM = os.path.join(HERE, "..", "facets")
BUILT = os.path.join(HERE, "..", "crates", "fc_main", "out", "fc_main")


def parser(description):
    """The words of a checker that runs the program."""
    words = argparse.ArgumentParser(description=description)
    words.add_argument("--program", metavar="PATH", default=PROGRAM, help="the program (default: ../facets beside this script)")
    return words


def program_of(options):
    """The program as it can be started."""
    path = options.program if os.path.dirname(options.program) else os.path.join(".", options.program)
    if not os.path.isfile(path) or not os.access(path, os.X_OK):
        raise SystemExit(f"no program: {options.program}")
    return path


def itself(program):
    """The program that ../facets runs once it stands, in place of that; any other as it is."""
    return BUILT if os.path.samefile(program, PROGRAM) else program


def laid_out(line):
    """The lines of a JSON text, or the text."""
    try:
        return json.dumps(json.loads(line), ensure_ascii=False, indent=1).split("\n")
    except ValueError:
        return [line]


def show_difference(wanted, found, most=60):
    """Prints both texts, lines of JSON laid out: - is wanted and not there, + is there and not wanted."""
    before = [part for line in wanted.split("\n") for part in laid_out(line)]
    after = [part for line in found.split("\n") for part in laid_out(line)]
    lines = list(difflib.unified_diff(before, after, "wanted", "found", lineterm="", n=3))
    for line in lines[:most]:
        print("  " + line[:300])
    if len(lines) > most:
        print(f"  .. and {len(lines) - most} lines more")
