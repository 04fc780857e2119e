"""What a line says: a reply, the fault of a request or the fault of the script, which the program writes, or what tools/book tells
was sent for a search."""
import datetime
import json
import re
from collections import namedtuple

Reply = namedtuple("Reply", "session generations bucket")
RequestFault = namedtuple("RequestFault", "name number path session")
ScriptFault = namedtuple("ScriptFault", "name number line detail")
# Of what was sent for a search: for each round its number, and the bytes that each shard sent in it, by the numbers of the shards.
Sent = namedtuple("Sent", "search rounds")
# A value is an integer, a text, or None where there is none. Statistics are pairs of a name and a number, facets pairs of a
# name and a Facet or, for a query facet, a Bucket.
Bucket = namedtuple("Bucket", "value count statistics facets")
# Beside the buckets stand, by their names: missing, before, after, between. The number is how many buckets there are in all, None
# where that is not told.
Facet = namedtuple("Facet", "buckets beside number")

DATE = re.compile(r"\d{4}-\d\d-\d\dT\d\d:\d\d:\d\d\.\d{3}Z", re.ASCII)
BESIDE = ("missing", "before", "between", "after")
NUMBER = "numBuckets"
SENT_HEADS = ("round", "shards", "bytes", "most by one")


class Wrong(Exception):
    """A line that the program does not write."""


def read(line):
    try:
        said = json.loads(line)
    except (ValueError, RecursionError) as error:
        raise Wrong("no JSON") from error
    if not isinstance(said, dict):
        raise Wrong("no JSON object")
    if "error" in said:
        return script_fault(said) if "line" in said else request_fault(said)
    if "sent" in said:
        return Sent(a_number(said, "search"), rounds(a_list(said, "sent", is_message)))
    return Reply(a_text(said, "session"), a_list(said, "generations", is_number), bucket(member(said, "facets")))


def script_fault(said):
    return ScriptFault(a_text(said, "error"), a_number(said, "number"), a_number(said, "line"),
                       a_text(said, "detail") if "detail" in said else None)


def request_fault(said):
    return RequestFault(a_text(said, "error"), a_number(said, "number"), a_list(said, "facet", is_text), a_text(said, "session"))


def rounds(messages):
    """The messages, each a round, a shard and its bytes, by rounds."""
    found = {}
    for number, shard, length in messages:
        found.setdefault(number, {})[shard] = length
    return sorted(found.items())


def sent_table(said):
    """For each round its number, how many shards sent something, how many bytes in all, and the most by one of them."""
    for number, lengths in said.rounds:
        yield number, len(lengths), sum(lengths.values()), max(lengths.values())


def is_message(value):
    return isinstance(value, list) and len(value) == 3 and all(map(is_number, value))


def is_number(value):
    return type(value) is int


def is_text(value):
    return isinstance(value, str)


def member(said, name):
    if name not in said:
        raise Wrong(f"{name} is missing")
    return said[name]


def a_text(said, name):
    if not is_text(member(said, name)):
        raise Wrong(f"{name} is no text")
    return said[name]


def a_number(said, name):
    if not is_number(member(said, name)):
        raise Wrong(f"{name} is no whole number")
    return said[name]


def a_list(said, name, is_item):
    items = member(said, name)
    if not isinstance(items, list) or not all(map(is_item, items)):
        raise Wrong(f"{name} is not the list that it is to be")
    return items


def bucket(said, has_value=False):
    if not isinstance(said, dict):
        raise Wrong("a bucket is no object")
    count, value = a_number(said, "count"), None
    if has_value:
        value = member(said, "val")
        if not is_number(value) and not is_text(value):
            raise Wrong("val is neither a text nor a whole number")
    statistics, facets = [], []
    for name, held in said.items():
        if is_number(held):
            statistics += [(name, held)] if name not in ("count", "val") else []
        elif name != "val" or not has_value:
            facets.append((name, facet(name, held)))
    return Bucket(value, count, statistics, facets)


def facet(name, said):
    """A facet without a count has buckets; one with a count is the bucket of a query facet."""
    if not isinstance(said, dict):
        raise Wrong(f"{name} is neither a number nor an object")
    if "count" in said:
        return bucket(said)
    buckets = a_list(said, "buckets", lambda one: isinstance(one, dict))
    for other in said:
        if other not in ("buckets", NUMBER, *BESIDE):
            raise Wrong(f"{other} stands beside the buckets of {name}")
    return Facet([bucket(one, has_value=True) for one in buckets],
                 [(other, bucket(said[other])) for other in BESIDE if other in said],
                 a_number(said, NUMBER) if NUMBER in said else None)


def is_range(facet):
    """Whether the buckets go up by equal steps, as those of a range facet. A reply does not say of which kind a facet is."""
    values = [one.value for one in facet.buckets]
    if facet.number is not None or any(name == "missing" for name, _ in facet.beside):
        return False
    if all(map(is_number, values)):
        return is_even(values)
    moments = [moment(one) for one in values]
    return None not in moments and (is_even([milliseconds(one) for one in moments]) or goes_by_months(moments))


def is_even(numbers):
    steps = {high - low for low, high in zip(numbers, numbers[1:])}
    return len(steps) == 1 and steps.pop() > 0


def goes_by_months(moments):
    """Whether moments are equally many months apart, of one time of day. The day is cut back at a month's end and stays so."""
    days = [one.day for one in moments]
    return (is_even([one.year * 12 + one.month for one in moments]) and len({one.time() for one in moments}) == 1
            and days == sorted(days, reverse=True))


def moment(value):
    """The moment of a date's canonical text, or None."""
    if not is_text(value) or not DATE.fullmatch(value):
        return None
    try:
        return datetime.datetime.strptime(value, "%Y-%m-%dT%H:%M:%S.%fZ")
    except ValueError:
        return None


def milliseconds(when):
    return (when - datetime.datetime.min) // datetime.timedelta(milliseconds=1)
