#!/usr/bin/env python3
"""Measures how many different values there are: `unique` beside a terms facet of all values of its field, and terms facets with `numBuckets`
beside the same without it. Prints a table of times and ratios, and on standard error how far it is; with --sent a second table, of the bytes
that all shards send. Each reply is compared with one that is counted in one pass over the documents."""
import argparse
import collections
import json
import os
import subprocess
import sys
import tempfile

import kinds
import run
from kinds import rounded
from run import Case, counting

SHARDS = 4
FIELDS = {"brand": "string", "price": "plong"}
TEN = 10
# What is searched: of a field the number of its values, all of them or the first ten; with `numBuckets`; and in each bucket of a field around.
Asked = collections.namedtuple("Asked", "field how numbered around", defaults=[False, None])
UNIQUE, ALL, FIRST = "unique", "all", "first"
# What is measured, what stands beside it, and its target.
Pair = collections.namedtuple("Pair", "what asked beside target", defaults=[None])
PAIRS = [
    Pair("`unique(brand)`; all 13 brands", Asked("brand", UNIQUE), Asked("brand", ALL), 1.3),
    Pair("`unique(id)`; all ids", Asked("id", UNIQUE), Asked("id", ALL), 1.5),
    Pair("`unique(price)` in each of 13 brands; all 1,000 prices in each", Asked("price", UNIQUE, around="brand"), Asked("price", ALL, around="brand")),
    Pair("all 13 brands with `numBuckets`; without", Asked("brand", ALL, True), Asked("brand", ALL)),
    Pair("the first 10 of 1,000 prices with `numBuckets`; without", Asked("price", FIRST, True), Asked("price", FIRST)),
    Pair("the first 10 of all ids with `numBuckets`; without", Asked("id", FIRST, True), Asked("id", FIRST)),
    Pair("all ids with `numBuckets`; without", Asked("id", ALL, True), Asked("id", ALL)),
]
SEARCHED = list(dict.fromkeys(asked for pair in PAIRS for asked in (pair.asked, pair.beside)))


def document(i):
    return {"id": f"d{i}", "brand": f"b{7 * i % 13}", "price": 31 * i % 1000}


def text_of(asked):
    """What is searched, in words."""
    values = f"unique({asked.field})" if asked.how == UNIQUE else f"{asked.how} of {asked.field}" + " with numBuckets" * asked.numbered
    return values + (f" in each {asked.around}" if asked.around else "")


def command_of(asked):
    if asked.how == UNIQUE:
        return f"unique({asked.field})"
    page = {"limit": -1, "sort": "index"} if asked.how == ALL else {"limit": TEN}
    return {"type": "terms", "field": asked.field, **page, **({"numBuckets": True} if asked.numbered else {})}


def request_of(asked):
    inside = {"f": command_of(asked)}
    return {"facet": {"around": {"type": "terms", "field": asked.around, **run.ALL, "facet": inside}} if asked.around else inside}


def printed_of(asked, documents):
    """What stands under the name of the facet over some documents."""
    counts = collections.Counter(one[asked.field] for one in documents)
    if asked.how == UNIQUE:
        return len(counts)
    values = sorted(counts) if asked.how == ALL else sorted(counts, key=lambda value: (-counts[value], value))[:TEN]
    buckets = [{"count": counts[value], "val": value} for value in values]
    return {"buckets": buckets, **({"numBuckets": len(counts)} if asked.numbered else {})}


def reply_of(asked, documents):
    """The line of such a search."""
    facets = {"count": len(documents)}
    if asked.around:
        of = collections.defaultdict(list)
        for one in documents:
            of[one[asked.around]].append(one)
        facets["around"] = {"buckets": [{"count": len(of[value]), "f": printed_of(asked, of[value]), "val": value} for value in sorted(of)]}
    else:
        facets["f"] = printed_of(asked, documents)
    return (counting.ordered({"facets": facets, "generations": [1] * SHARDS, "session": "demo"}) + "\n").encode("utf-8")


def more_of(options, asked):
    """Over how many more searches one is timed: a dear one over few, one of brands over many."""
    if asked.field == "id":
        return max(options.searches // 40, 1)
    return max(options.searches // 4, 1) if asked.around else options.searches * (10 if asked.field == "brand" else 1)


def seconds_of(options, folder, whole, documents):
    """Of one more search of each kind: the difference between one and some, each the least of several runs, which take turns."""
    cases = {}
    for asked in SEARCHED:
        reply = reply_of(asked, documents)
        cases[asked] = [Case(folder, whole, request_of(asked), count, reply) for count in (1, 1 + more_of(options, asked))]
    for number in range(options.runs):
        for asked, both in cases.items():
            print(f"run {number + 1} of {options.runs}: {text_of(asked)}", file=sys.stderr, flush=True)
            for case in both:
                case.run(options.program)
    return {asked: (many.least.seconds - one.least.seconds) / more_of(options, asked) for asked, (one, many) in cases.items()}


def row(pair, seconds, beside):
    if seconds <= 0 or beside <= 0:
        return f"| {pair.what} | {kinds.UNSEEN} | | | |"
    ratio = seconds / beside
    aim = f"at most {pair.target}{', missed' * (ratio > pair.target)}" if pair.target else ""
    return f"| {pair.what} | {rounded(1e3 * seconds)} ms | {rounded(1e3 * beside)} ms | {rounded(ratio)} | {aim} |"


def rows_of_sent(options, whole):
    """For each search its rounds, and the bytes that all shards send."""
    with tempfile.NamedTemporaryFile(suffix=".jsonl") as script:
        script.write(whole)
        script.writelines(json.dumps(run.search(request_of(asked))).encode("utf-8") + b"\n" for asked in SEARCHED)
        script.flush()
        told = subprocess.run([options.book, script.name], stdout=subprocess.PIPE, check=True).stdout.splitlines()[len(SEARCHED):]
    for asked, line in zip(SEARCHED, map(json.loads, told)):
        yield f"| {text_of(asked)} | {len({number for number, _, _ in line['sent']})} | {sum(length for _, _, length in line['sent']):,} |"


def main():
    words = argparse.ArgumentParser(description=__doc__)
    words.add_argument("--program", default=os.path.join(run.TOP, "crates", "fc_main", "out", "fc_main"))
    words.add_argument("--documents", type=int, default=200_000)
    words.add_argument("--runs", type=int, default=3, help="each figure is the least of so many runs")
    words.add_argument("--searches", type=int, default=200, help="one search is timed over so many, of brands over ten times as many, a dear one over few")
    words.add_argument("--sent", action="store_true", help="tell what is sent too, by the book, which is made first: that takes minutes")
    words.add_argument("--book", default=os.path.join(run.TOP, "tools", "book"), help="what tells what is sent (default: tools/book)")
    options = words.parse_args()
    documents = [document(i) for i in range(options.documents)]
    whole = run.opening(options.documents, SHARDS, None, fields=FIELDS, made=document)
    print("| What | Measured | Beside it | Ratio | Target |\n|---|---|---|---|---|")
    with tempfile.TemporaryDirectory() as folder:
        seconds = seconds_of(options, folder, whole, documents)
    print("\n".join(row(pair, seconds[pair.asked], seconds[pair.beside]) for pair in PAIRS))
    if options.sent:
        print("what is sent", file=sys.stderr, flush=True)
        print("\n| Search | Rounds | Bytes of all shards |\n|---|---|---|")
        print("\n".join(rows_of_sent(options, whole)))
    print(f"\n{options.documents:,} documents on {SHARDS} shards; least of {options.runs} runs; load of the machine {os.getloadavg()[0]:.1f} "
          f"on {os.cpu_count()} processors", flush=True)


if __name__ == "__main__":
    main()
