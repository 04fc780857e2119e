#!/usr/bin/env python3
"""Measures what terms facets cost in one segment: a search of each kind, as the difference between a script with many of it and
one with a single one, and what a segment of many fields costs beside one of two. Prints the rows of the table in
docs/performance.md, and on standard error how far it is. Each reply is compared with one that is counted by plain lists."""
import argparse
import math
import os
import sys
import tempfile

import run
from run import Case, counting, json, search

FIELDS = {"brand": "string", "price": "plong", "hundredth": "string"}
# The facets list nothing of what they count, so that a search is little more than the counting.
NOTHING = {"limit": 0, "overrequest": 0}
STATISTICS = {"total": "sum(price)", "least": "min(price)", "values": "countvals(price)"}
# The documents of a half, as a query, and how many sums over them are asked for beside one.
HALF, SUMS = "price:[0 TO 499]", 20
CONDITIONS = {"*:*": lambda d: True, "hundredth:yes": lambda d: "yes" in d["hundredth"],
              HALF: lambda d: any(price < 500 for price in d["price"])}


def terms(field, **more):
    return {"type": "terms", "field": field, **NOTHING, **more}


# What is searched, by a name.
REQUESTS = {
    "brands": {"facet": {"f": terms("brand")}},
    "brands-statistics": {"facet": {"f": terms("brand", facet=STATISTICS)}},
    "brands-few": {"query": "hundredth:yes", "facet": {"f": terms("brand")}},
    "prices": {"facet": {"f": terms("price")}},
    "prices-statistics": {"facet": {"f": terms("price", facet=STATISTICS)}},
    "prices-few": {"query": "hundredth:yes", "facet": {"f": terms("price")}},
    "brands-by-price": {"facet": {"f": terms("price", limit=-1, facet={"b": terms("brand")})}},
    "half-sum": {"query": HALF, "facet": {"total": "sum(price)"}},
    "half-sums": {"query": HALF, "facet": {f"total{number}": "sum(price)" for number in range(1 + SUMS)}},
}
# What the table says of those whose time it has.
TIMED = {
    "brands": "13 brands",
    "brands-statistics": "13 brands with `sum`, `min` and `countvals` of the price",
    "prices": "1,000 prices",
    "prices-statistics": "1,000 prices with the same statistics",
}
# Of what is less than the difference between two runs.
UNSEEN = "below what can be seen"


def document(i):
    return {"id": f"d{i}", "brand": f"b{7 * i % 13}", "price": 31 * i % 1000, **({} if i % 100 else {"hundredth": "yes"})}


def script_lines(fields, documents):
    """One shard with one commit."""
    yield {"schema": {"shards": 1, "fields": fields}}
    for one in documents:
        yield {"add": {"doc": one}}
    yield {"commit": {}}
    yield {"sync": {}}


def opening(fields, documents):
    lines = (json.dumps(line, separators=(",", ":")) + "\n" for line in script_lines(fields, documents))
    return "".join(lines).encode("utf-8")


class Steps:
    """Says how far it is: which of all that is measured is at work."""

    def __init__(self, all_of_them):
        self.all, self.begun = all_of_them, 0

    def say(self, what):
        self.begun += 1
        print(f"{self.begun} of {self.all}: {what}", file=sys.stderr, flush=True)


def least(options, case):
    for _ in range(options.runs):
        case.run(options.program)
    return case.least


def seconds_of_searches(options, folder, steps):
    """For each request the seconds of one search."""
    documents = [document(i) for i in range(options.documents)]
    lines = [*script_lines(FIELDS, documents), *map(search, REQUESTS.values())]
    steps.say("the replies are counted")
    said = [(line + "\n").encode("utf-8") for line in counting.replies(lines, CONDITIONS)]
    whole, found = opening(FIELDS, documents), {}
    for (name, request), reply in zip(REQUESTS.items(), said):
        steps.say(name)
        more = max(options.searches // 20, 1) if name.endswith("-price") else options.searches
        one, many = (least(options, Case(folder, whole, request, count, reply)).seconds for count in (1, 1 + more))
        found[name] = (many - one) / more
    return found


def cost_of_fields(options, folder, steps, count):
    """What it costs to read documents with an id alone, where the schema has so many fields with `id`."""
    steps.say(f"{count} fields")
    fields = {f"f{number}": "string" for number in range(1, count)}
    documents = ({"id": f"d{i}"} for i in range(options.documents))
    return least(options, Case(folder, opening(fields, documents), {}, 0, b""))


def rounded(number):
    """With two digits that tell something."""
    if number <= 0:
        return "0"
    places = 1 - math.floor(math.log10(number))
    return f"{round(number, places):,.{max(places, 0)}f}"


def row_of_time(what, seconds, documents, target=None):
    if seconds <= 0:
        return f"| {what} | {UNSEEN} | | |"
    each = 1e9 * seconds / documents
    aim = f"at most {target} ns{', missed' * (each > target)}" if target else ""
    return f"| {what} | {rounded(1e3 * seconds)} ms | {rounded(each)} ns | {aim} |"


def row_of_ratio(what, above, below, target, more=""):
    ratio = above / below if below > 0 else 0
    shown = rounded(ratio) + more if ratio > 0 else UNSEEN
    return f"| {what} | {shown} | | at most {target}{', missed' * (ratio > target)} |"


def rows(options, seconds, two, many):
    """The rows of the table in docs/performance.md."""
    for name, what in TIMED.items():
        yield row_of_time(what, seconds[name], options.documents)
    yield row_of_time("one more sum over half of the documents", (seconds["half-sums"] - seconds["half-sum"]) / SUMS,
                      options.documents / 2, 1.5)
    for name in ("brands", "prices"):
        yield row_of_ratio(f"{name} of every hundredth document, over those of all", seconds[f"{name}-few"], seconds[name], 0.1)
    each = seconds["brands-by-price"]
    yield row_of_ratio("the brands in the bucket of each of 1,000 prices, over brands and prices, each once", each,
                       seconds["brands"] + seconds["prices"], 6, f" ({rounded(1e3 * each)} ms)")
    yield row_of_ratio("a segment of 256 fields, of documents with an id alone, over one of 2 fields: time", many.seconds, two.seconds, 1.5)
    yield row_of_ratio("the same: memory", many.peak, two.peak, 1.5)


def report(options, seconds, two, many):
    print("| Facet | Once | A document | Target |\n|---|---|---|---|")
    print("\n".join(rows(options, seconds, two, many)))
    print(f"\n{options.documents:,} documents in one segment; least of {options.runs} runs; load of the machine {os.getloadavg()[0]:.1f} "
          f"on {os.cpu_count()} processors", flush=True)


def main():
    options = argparse.ArgumentParser(description=__doc__)
    options.add_argument("--program", default=os.path.join(run.TOP, "crates", "fc_main", "out", "fc_main"))
    options.add_argument("--documents", type=int, default=200_000)
    options.add_argument("--runs", type=int, default=3, help="each figure is the least of so many runs")
    options.add_argument("--searches", type=int, default=200, help="a search is timed over so many")
    options = options.parse_args()
    steps = Steps(len(REQUESTS) + 3)
    with tempfile.TemporaryDirectory() as folder:
        seconds = seconds_of_searches(options, folder, steps)
        two, many = (cost_of_fields(options, folder, steps, count) for count in (2, 256))
        report(options, seconds, two, many)


if __name__ == "__main__":
    main()
