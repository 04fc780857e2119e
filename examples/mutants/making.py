"""The mutants of a seed: scripts of the examples, changed by chance. Each is the same everywhere."""
import collections
import os

from mutants import bytewise, linewise, values
from worlds.chance import Chance

EXAMPLES = os.path.dirname(os.path.dirname(os.path.realpath(__file__)))
BASES = [os.path.join("shop", "script.jsonl"), os.path.join("catalogue", "script.jsonl"), os.path.join("logs", "script.jsonl"),
         "first.jsonl"]
CHANGES = {**bytewise.CHANGES, **linewise.CHANGES, **values.CHANGES}
SEVERAL = "several of these"
KINDS = [*CHANGES, SEVERAL]
# A change by chance may change nothing; then it is tried again, but not for ever.
TRIES = 20
# A mutant: the kind of its change, the name of the script that was changed, and the bytes.
Mutant = collections.namedtuple("Mutant", "kind base script")


def bases():
    """The scripts that are changed, whole, by their names."""
    found = {}
    for base in BASES:
        with open(os.path.join(EXAMPLES, base), "rb") as file:
            found[base] = file.read()
    return found


def changed(chance, kind, script, other):
    for _ in range(TRIES if script else 0):
        made = CHANGES[kind](chance, script, other)
        if made != script:
            return made
    return script


def mutant_of(seed, number, scripts):
    """The mutant of a number, from 0, of those of a seed. The kinds take turns."""
    chance, kind = Chance(seed << 32 | number), KINDS[number % len(KINDS)]
    base, other = chance.one(BASES), chance.one(BASES)
    script = scripts[base]
    kinds = [chance.one(list(CHANGES)) for _ in range(2 + chance.below(3))] if kind == SEVERAL else [kind]
    for one in kinds:
        script = changed(chance, one, script, scripts[other])
    return Mutant(kind, base, script)
