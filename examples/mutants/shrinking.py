"""A script that fails made smaller: lines are left out, then members, then bytes, as long as it still fails in the same way."""
import time

from mutants.linewise import lines_of
from mutants.values import Tokens

SECONDS = 120


def shorter(pieces, fails):
    """Without pieces: many at once, then fewer."""
    size = len(pieces)
    while size:
        at = 0
        while at < len(pieces):
            some = pieces[:at] + pieces[at + size:]
            if fails(b"".join(some)):
                pieces = some
            else:
                at += size
        size //= 2
    return pieces


def without_member(script, at):
    """Without the member of a number, and a comma beside it."""
    tokens = Tokens(script)
    front, rear = script[:tokens.all[tokens.names[at]].start()], script[tokens.span_of_value(tokens.names[at])[1]:]
    return front + rear[1:] if rear.startswith(b",") else front.removesuffix(b",") + rear


def fewer_members(script, fails):
    at = 0
    while at < len(Tokens(script).names):
        some = without_member(script, at)
        if fails(some):
            script = some
        else:
            at += 1
    return script


def shrunk(script, fails):
    """The script made smaller, for so many seconds at most; `fails` tells whether one fails as this one does."""
    until = time.monotonic() + SECONDS

    def is_enough(some):
        return time.monotonic() < until and fails(some)

    before = None
    while script != before:
        before = script
        script = b"".join(shorter(lines_of(script), is_enough))
        script = fewer_members(script, is_enough)
        script = b"".join(shorter([script[at:at + 1] for at in range(len(script))], is_enough))
    return script
