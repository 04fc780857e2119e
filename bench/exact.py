#!/usr/bin/env python3
"""Measures exact facets beside the same facets refined as they are, and beside those without a limit: the time of one search, the rounds,
and the bytes that all shards send. Prints a table, and behind it the ratios with their targets. What an exact facet prints has to be the
front of what the facet without a limit prints, or it ends with status 1."""
import argparse
import collections
import json
import os
import random
import subprocess
import sys
import tempfile

import run

HERE = os.path.dirname(os.path.abspath(__file__))
FIELDS = {"brand": "string", "number": "plong", "word": "string"}
HOWS = REFINED, EXACT, WHOLE = "refined", "exact", "no limit"
# What is measured: the field, the shards, the limit, and whether a facet is nested inside.
Asked = collections.namedtuple("Asked", "field shards limit nested", defaults=[False])
ASKED = [Asked(field, shards, limit) for field in ("brand", "number") for shards in (4, 64) for limit in (10, 1000)]
ASKED += [Asked("number", 4, 10, True), Asked("number", 4, 1_000_000), Asked("word", 16, 10)]
VALUES = {"brand": "13 values", "number": "13,000 values", "word": "100,000 values by Zipf"}
# How many times the time of the refined facet, and which part of the bytes of the one without a limit: at most.
TIMES = {Asked("number", 4, 10): 2.5, Asked("brand", 4, 10): 2.5, Asked("number", 4, 10, True): 1.5}
PARTS = {Asked("word", 16, 10): 0.1}


def words_of(count):
    """Values by a Zipf law over 100,000, the same on each machine."""
    chance = random.Random(1)
    weights = [1 / rank for rank in range(1, 100_001)]
    return [f"w{number}" for number in chance.choices(range(100_000), weights, k=count)]


def numbers_of(count):
    """Values below 13,000, of which the small ones are more frequent, the same on each machine."""
    chance = random.Random(2)
    return [int(13_000 * chance.random() ** 2) for _ in range(count)]


def facet_of(asked, how):
    facet = {"type": "terms", "field": asked.field, "sort": "count desc", "limit": -1 if how == WHOLE else asked.limit}
    if how != WHOLE:
        facet["refine"] = "exact" if how == EXACT else True
    if asked.nested:
        facet["facet"] = {"brands": {"type": "terms", "field": "brand", "limit": 3, "refine": True}}
    return facet


def search_of(asked, how):
    return run.search({"facet": {"top": facet_of(asked, how)}})


def opening(options, shards, words, numbers):
    def made(i):
        return {"id": f"d{i}", "brand": f"b{7 * i % 13}", "number": numbers[i], "word": words[i]}
    return run.opening(options.documents, shards, None, fields=FIELDS, made=made)


def written(folder, head, lines):
    path = os.path.join(folder, f"{len(os.listdir(folder))}")
    with open(path, "wb") as file:
        file.write(head)
        file.writelines(json.dumps(line, separators=(",", ":")).encode("utf-8") + b"\n" for line in lines)
    return path


def sent_by(options, shards, head):
    """By what is asked over so many shards, and how: the rounds and the bytes of all shards."""
    asked = [(one, how) for one in ASKED if one.shards == shards for how in HOWS]
    with tempfile.TemporaryDirectory() as folder:
        path = written(folder, head, [search_of(one, how) for one, how in asked])
        told = subprocess.run([options.book, path], stdout=subprocess.PIPE, check=True).stdout.splitlines()[len(asked):]
    sent = [json.loads(line)["sent"] for line in told]
    return {one: (len({number for number, _, _ in rounds}), sum(length for _, _, length in rounds)) for one, rounds in zip(asked, sent)}


def buckets_of(line):
    return json.loads(line)["facets"]["top"]["buckets"]


def seconds_of(options, folder, head, line, is_dear):
    """Of one more search: the difference between one and some, each the least of several runs."""
    more = max(options.searches // 10, 1) if is_dear else options.searches
    one, many = written(folder, head, [line]), written(folder, head, [line] * (1 + more))
    least = [min(run.run_once(options.program, path)[0].seconds for _ in range(options.runs)) for path in (one, many)]
    return (least[1] - least[0]) / more


def measure(options, asked, head, sent):
    """By how it is asked: seconds, rounds and bytes."""
    lines = {how: search_of(asked, how) for how in HOWS}
    is_dear = asked.field == "word" or asked.field == "number" and asked.limit > 10
    with tempfile.TemporaryDirectory() as folder:
        replies = run.run_once(options.program, written(folder, head, lines.values()))[1].splitlines()
        exact, whole = ([(bucket["val"], bucket["count"]) for bucket in buckets_of(reply)] for reply in replies[1:])
        if exact != whole[:asked.limit]:
            sys.exit(f"{asked}: an exact facet prints something else than the front of the facet without a limit")
        return {how: (seconds_of(options, folder, head, line, is_dear), *sent[asked, how]) for how, line in lines.items()}


def main():
    words = argparse.ArgumentParser(description=__doc__)
    words.add_argument("--program", default=os.path.join(run.TOP, "crates", "fc_main", "out", "fc_main"))
    words.add_argument("--book", default=os.path.join(run.TOP, "tools", "book"), help="what tells what is sent (default: tools/book)")
    words.add_argument("--documents", type=int, default=200_000)
    words.add_argument("--runs", type=int, default=3, help="each figure is the least of so many runs")
    words.add_argument("--searches", type=int, default=100, help="a search is timed over so many, a dear one over a tenth")
    options = words.parse_args()
    texts, numbers, found = words_of(options.documents), numbers_of(options.documents), {}
    print("| Field | Shards | Limit | Facet | One search | Rounds | Bytes of all shards |")
    print("|---|---|---|---|---|---|---|")
    for shards in sorted({asked.shards for asked in ASKED}):
        head = opening(options, shards, texts, numbers)
        sent = sent_by(options, shards, head)
        for asked in (one for one in ASKED if one.shards == shards):
            print(f"{asked}", file=sys.stderr, flush=True)
            found[asked] = measure(options, asked, head, sent)
            inside = ", with brands inside" if asked.nested else ""
            for how, (seconds, rounds, size) in found[asked].items():
                print(f"| {VALUES[asked.field]}{inside} | {shards} | {asked.limit:,} | {how} | {1000 * seconds:.2f} ms | {rounds} | {size:,} |", flush=True)
    for asked, most in TIMES.items():
        print(f"{found[asked][EXACT][0] / found[asked][REFINED][0]:.2f} times the time of the refined facet (target: at most {most}): {asked}")
    for asked, most in PARTS.items():
        print(f"{found[asked][EXACT][2] / found[asked][WHOLE][2]:.3f} of the bytes of the facet without a limit (target: at most {most}): {asked}")
    print(f"load of the machine {os.getloadavg()[0]:.1f} on {os.cpu_count()} processors", file=sys.stderr)


if __name__ == "__main__":
    main()
