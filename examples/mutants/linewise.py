"""Changes of a script as a row of lines: they are swapped, doubled, dropped, moved, cut off, joined with another script's."""
import re

LINE = re.compile(rb"[^\n]*\n|[^\n]+")


def lines_of(script):
    """The lines, each with its line feed."""
    return LINE.findall(script)


def swap(chance, script, _):
    lines = lines_of(script)
    one, other = chance.below(len(lines)), chance.below(len(lines))
    lines[one], lines[other] = lines[other], lines[one]
    return b"".join(lines)


def double(chance, script, _):
    lines = lines_of(script)
    lines.insert(chance.below(len(lines) + 1), chance.one(lines))
    return b"".join(lines)


def drop(chance, script, _):
    lines = lines_of(script)
    del lines[chance.below(len(lines))]
    return b"".join(lines)


def move(chance, script, _):
    lines = lines_of(script)
    line = lines.pop(chance.below(len(lines)))
    lines.insert(chance.below(len(lines) + 1), line)
    return b"".join(lines)


def cut_inside(chance, script, _):
    """Ends in a line."""
    lines = lines_of(script)
    at = chance.below(len(lines))
    return b"".join(lines[:at]) + lines[at][:chance.below(len(lines[at]))]


def cut_after(chance, script, _):
    """Ends behind a line, with its line feed or without."""
    lines = lines_of(script)
    front = b"".join(lines[:chance.below(len(lines)) + 1])
    return front.rstrip(b"\n") if chance.happens(50) else front


def join(chance, script, other):
    """All of a script or its front; behind it all of another, its rear, or its searches."""
    lines, others = lines_of(script), lines_of(other)
    front = chance.one([lines, lines, lines[:1 + chance.below(len(lines))]])
    searches = [line for line in others if b'"search"' in line]
    return b"".join(front + chance.one([others, others[1 + chance.below(len(others)):], searches]))


CHANGES = {
    "lines swapped": swap,
    "a line doubled": double,
    "a line dropped": drop,
    "a line moved": move,
    "cut inside a line": cut_inside,
    "cut after a line": cut_after,
    "scripts joined": join,
}
