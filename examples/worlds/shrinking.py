"""A failing script made smaller: what can be taken away is, while the script still fails in the same way. Each step leaves a
script without a fault, so that the counting can read it."""
from counting import ordered
from worlds.requests import sortable

NEEDED = {"add", "doc", "id", "delete", "commit", "sync", "search", "request", "type", "field", "q", "func", "start", "end", "gap"}
QUERIES = {"q", "blockChildren", "blockParent"}


def without(members, *names):
    return {name: value for name, value in members.items() if name not in names}


def smaller(value, name, needed=NEEDED):
    """The value of a member of this name with one thing taken away."""
    if name in QUERIES and value != "*:*":
        yield "*:*"
    elif isinstance(value, list):
        for i, item in enumerate(value):
            yield value[:i] + value[i + 1:]
            yield from (value[:i] + [less] + value[i + 1:] for less in smaller(item, name))
    elif isinstance(value, dict) and name not in ("sort", "filter"):
        for key, item in value.items():
            if key not in needed:
                yield without(value, key, "sort") if key == "facet" else without(value, key)
            if name == "facet" and isinstance(item, dict) and item.get("facet"):
                yield {**item["facet"], **without(value, key)}
            sorts_by = set(sortable(item)) if key == "facet" and "sort" in value else set()
            yield from ({**value, key: less} for less in smaller(item, key, NEEDED | sorts_by))


def shorter(lines, fails):
    """Without lines behind the schema: many at once, then fewer."""
    size = len(lines)
    while size:
        at = 1
        while at < len(lines):
            some = lines[:at] + lines[at + size:]
            if fails(some):
                lines = some
            else:
                at += size
        size //= 2
    return lines


def fewer_shards(lines):
    """Only as many shards as lines speak of."""
    named = [word["shard"] for line in lines[1:] for word in line.values() if "shard" in word]
    return [{"schema": {**lines[0]["schema"], "shards": 1 + max(named, default=0)}}] + lines[1:]


def shrunk(world, fails):
    """The lines made smaller; `fails` tells whether a script of some lines fails as this one does."""
    lines, before = world.lines, None
    while lines != before:
        before = lines = shorter(lines, fails)
        for at in range(1, len(lines)):
            is_faulty = "search" in lines[at] and ordered(lines[at]["search"]["request"]) in world.faults
            again = not is_faulty
            while again:
                made = (lines[:at] + [line] + lines[at + 1:] for line in smaller(lines[at], ""))
                again = next((some for some in made if fails(some)), None)
                lines = again or lines
        if fails(fewer_shards(lines)):
            lines = fewer_shards(lines)
    return lines
