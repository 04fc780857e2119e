#!/usr/bin/env python3
"""Measures dates: what reading a log portal's script costs beside the same script with texts in place of dates, and what a histogram of
hours costs beside a facet of brands, in one segment. Prints the table in docs/performance.md, and on standard error how far it is.
Each reply is compared with one that is counted in one pass over the documents."""
import argparse
import collections
import datetime
import os
import tempfile

import kinds
import run
from kinds import STATISTICS, rounded
from run import Case, counting

import date_texts

START, HOUR = "2024-01-01T00:00:00Z", datetime.timedelta(hours=1)
HOURS = 720
FIELDS = {"at": "pdate", "brand": "string", "price": "plong", "hundredth": "string"}
BRANDS = {"type": "terms", "field": "brand", "limit": -1, "sort": "index"}
# By the name of a part of the documents, its query and the test of it.
PARTS = {
    "all": ("*:*", lambda made: True),
    "half": ("price:[0 TO 499]", lambda made: made["price"] < 500),
    "hundredth": ("hundredth:yes", lambda made: "hundredth" in made),
}
# What is searched: brands, hours, or hours in the bucket of each brand; of which part; and with statistics, or so many hours.
Asked = collections.namedtuple("Asked", "facet part statistics hours", defaults=["all", False, HOURS])
IN_BRANDS = "hours in brands"
# What is measured, what stands beside it, and its target.
Pair = collections.namedtuple("Pair", "what asked beside target", defaults=[None])
PAIRS = [
    Pair("720 hours; 13 brands", Asked("hours"), [Asked("brands")], 3),
    Pair("the same with `sum`, `min` and `countvals` of the price", Asked("hours", statistics=True), [Asked("brands", statistics=True)], 3),
    Pair("720 hours of half of the documents; 13 brands of these", Asked("hours", "half"), [Asked("brands", "half")]),
    Pair("720 hours in each of 13 brands; both facets side by side", Asked(IN_BRANDS), [Asked("brands"), Asked("hours")]),
    Pair("720 hours in each of 13 brands, of every hundredth document; of all", Asked(IN_BRANDS, "hundredth"), [Asked(IN_BRANDS)]),
    Pair("24 hours in each of 13 brands; 720 hours", Asked(IN_BRANDS, hours=24), [Asked(IN_BRANDS)]),
]


def shown(hour):
    return date_texts.printed(date_texts.moment(START) + hour * HOUR)


def places(count):
    """For each line its place in the order of time: lines come a little out of it."""
    return [i - i % 64 + 37 * i % 64 for i in range(count)]


def documents(count):
    """A log portal's lines over the hours, each with the number of its hour beside it."""
    start, step = date_texts.moment(START), HOURS * HOUR / (count + 64)
    for i, place in enumerate(places(count)):
        at = date_texts.printed(start + place * step)
        hour = (date_texts.moment(at) - start) // HOUR
        yield hour, {"id": f"d{i}", "at": at, "brand": f"b{7 * i % 13}", "price": 31 * i % 1000, **({} if i % 100 else {"hundredth": "yes"})}


def facet_of(asked):
    """The facet that is asked for; statistics stand in its innermost buckets."""
    nested = {"facet": STATISTICS} if asked.statistics else {}
    if asked.facet == "brands":
        return {**BRANDS, **nested}
    hours = {"type": "range", "field": "at", "start": START, "end": shown(asked.hours), "gap": "+1HOUR", **nested}
    return {**BRANDS, "facet": {"hours": hours}} if asked.facet == IN_BRANDS else hours


def request_of(asked):
    return {"query": PARTS[asked.part][0], "facet": {"f": facet_of(asked)}}


def bucket(val, prices, asked):
    """A bucket of documents with these prices, one each."""
    counted = {"total": sum(prices), "least": min(prices), "values": len(prices)} if asked.statistics and prices else {}
    return {"count": len(prices), "val": val, **counted}


def hours_of(pairs, asked):
    """The buckets of the hours of pairs of an hour and a price."""
    prices = collections.defaultdict(list)
    for hour, price in pairs:
        prices[hour].append(price)
    return {"buckets": [bucket(shown(hour), prices[hour], asked) for hour in range(asked.hours)]}


def buckets_of(found, asked):
    """What stands under the facet's name: found has for each document its hour and its members."""
    pairs = collections.defaultdict(list)
    for hour, made in found:
        pairs[made["brand"]].append((hour, made["price"]))
    if asked.facet == "hours":
        return hours_of([pair for brand in pairs.values() for pair in brand], asked)
    told = [(brand, pairs[brand]) for brand in sorted(pairs)]
    if asked.facet == "brands":
        return {"buckets": [bucket(brand, [price for _, price in of], asked) for brand, of in told]}
    return {"buckets": [{"count": len(of), "hours": hours_of(of, asked), "val": brand} for brand, of in told]}


def reply_of(asked, made):
    found = [pair for pair in made if PARTS[asked.part][1](pair[1])]
    facets = {"count": len(found), "f": buckets_of(found, asked)}
    return (counting.ordered({"facets": facets, "generations": [1], "session": "demo"}) + "\n").encode("utf-8")


def seconds_of(options, folder, whole, asked, reply):
    """Of one more search: the difference between one and some, each the least of several runs."""
    more = max(options.searches // 20, 1) if asked.facet == IN_BRANDS else options.searches
    one, many = (kinds.least(options, Case(folder, whole, request_of(asked), count, reply)).seconds for count in (1, 1 + more))
    return (many - one) / more


def seconds_of_reading(options, folder, kind, made, members):
    """Of a script whose dates stand in a field of this type, and which has these members of each line."""
    fields = {name: kind if name == "at" else FIELDS[name] for name in members}
    lines = ({name: one[name] for name in ("id", *members) if name in one} for _, one in made)
    return kinds.least(options, Case(folder, kinds.opening(fields, lines), {}, 0, b"")).seconds


def row(what, seconds, beside, target, unit="ms", scale=1e3):
    if seconds <= 0 or beside <= 0:
        return f"| {what} | {kinds.UNSEEN} | | | |"
    ratio = seconds / beside
    aim = f"at most {target}{', missed' * (ratio > target)}" if target else ""
    return f"| {what} | {rounded(scale * seconds)} {unit} | {rounded(scale * beside)} {unit} | {rounded(ratio)} | {aim} |"


def rows_of_reading(options, folder, made, steps):
    for what, members, target in (("reading a log portal's script; with texts in place of dates", tuple(FIELDS), 1.3),
                                  ("the same of an id and a date alone", ("at",), None)):
        steps.say(what)
        dates, texts = (seconds_of_reading(options, folder, kind, made, members) for kind in ("pdate", "string"))
        yield row(what, dates, texts, target, "s", 1)


def rows_of_searches(options, folder, made, steps):
    whole, seconds = kinds.opening(FIELDS, (one for _, one in made)), {}
    for pair in PAIRS:
        for asked in (pair.asked, *pair.beside):
            if asked not in seconds:
                steps.say(f"{asked.facet}, {asked.part} of the documents{', with statistics' * asked.statistics}")
                seconds[asked] = seconds_of(options, folder, whole, asked, reply_of(asked, made))
        yield row(pair.what, seconds[pair.asked], sum(seconds[asked] for asked in pair.beside), pair.target)


def main():
    words = argparse.ArgumentParser(description=__doc__)
    words.add_argument("--program", default=os.path.join(run.TOP, "crates", "fc_main", "out", "fc_main"))
    words.add_argument("--documents", type=int, default=200_000)
    words.add_argument("--runs", type=int, default=3, help="each figure is the least of so many runs")
    words.add_argument("--searches", type=int, default=200, help="a search is timed over so many, a dear one over a twentieth")
    options = words.parse_args()
    steps = kinds.Steps(2 + len({asked for pair in PAIRS for asked in (pair.asked, *pair.beside)}))
    made = list(documents(options.documents))
    print("| What | Measured | Beside it | Ratio | Target |\n|---|---|---|---|---|")
    for rows in (rows_of_reading, rows_of_searches):
        with tempfile.TemporaryDirectory() as folder:
            for line in rows(options, folder, made, steps):
                print(line, flush=True)
    print(f"\n{options.documents:,} documents in one segment; least of {options.runs} runs; load of the machine {os.getloadavg()[0]:.1f} "
          f"on {os.cpu_count()} processors", flush=True)


if __name__ == "__main__":
    main()
