#!/usr/bin/env python3
"""Says what the shards of a search send: for searches of bench/run.py, how many bytes all shards sent in each round, beside the
bytes of the reply. Prints a table. The lengths are those that tools/book tells; they are the same on each machine."""
import argparse
import collections
import json
import os
import subprocess
import sys
import tempfile

import run

# A search: the name of its request, and how many values of each facet it lists, where its own limits are changed.
Asked = collections.namedtuple("Asked", "name limit", defaults=[None])
ASKED = [Asked("count"), Asked("three brands"), Asked("prices"), Asked("a page"), Asked("brands in each price"),
         Asked("brands in each price", 100), Asked("brands in each price", 10)]


def limited(facets, limit):
    """The facets with that limit, by their counts and refined, at each depth."""
    return {name: facet if isinstance(facet, str) else
            {**facet, "limit": limit, "sort": "count desc", "refine": True, "facet": limited(facet.get("facet", {}), limit)}
            for name, facet in facets.items()}


def request_of(asked):
    request = run.REQUESTS[asked.name]
    return request if asked.limit is None else {**request, "facet": limited(request["facet"], asked.limit)}


def text_of(asked):
    return asked.name if asked.limit is None else f"{asked.name}, limit {asked.limit}, refined"


def lines_of(book, documents, shards):
    """For each search its reply, and what was sent for it."""
    lines = [*run.script_lines(documents, shards, None), *(run.search(request_of(asked)) for asked in ASKED)]
    with tempfile.NamedTemporaryFile("w", suffix=".jsonl", encoding="utf-8") as script:
        script.writelines(json.dumps(line, separators=(",", ":")) + "\n" for line in lines)
        script.flush()
        output = subprocess.run([book, script.name], stdout=subprocess.PIPE, check=True).stdout.splitlines()
    replies, told = output[:len(ASKED)], [json.loads(line) for line in output[len(ASKED):]]
    if [line["search"] for line in told] != list(range(len(ASKED))) or not all(reply.startswith(b'{"facets"') for reply in replies):
        sys.exit(f"{book} told something else than a reply and what was sent for each search")
    return zip(replies, (line["sent"] for line in told))


def row_of(asked, shards, reply, sent):
    rounds = collections.Counter()
    for number, _, length in sent:
        rounds[number] += length
    total = sum(rounds.values())
    each = ", ".join(f"{rounds[number]:,}" for number in sorted(rounds))
    return f"| {text_of(asked)} | {shards} | {len(rounds)} | {each} | {total:,} | {total / shards:,.0f} | {len(reply) + 1:,} |"


def main():
    words = argparse.ArgumentParser(description=__doc__)
    words.add_argument("--book", default=os.path.join(run.TOP, "tools", "book"), help="what tells what is sent (default: tools/book)")
    words.add_argument("--documents", type=int, default=200_000)
    words.add_argument("--shards", type=int, nargs="*", default=[4, 64])
    words = words.parse_args()
    print("| Search | Shards | Rounds | Bytes in each round | In all | A shard | The reply |")
    print("|---|---|---|---|---|---|---|")
    for shards in words.shards:
        print(f"{words.documents:,} documents on {shards} shards", file=sys.stderr, flush=True)
        for asked, (reply, sent) in zip(ASKED, lines_of(words.book, words.documents, shards)):
            print(row_of(asked, shards, reply, sent), flush=True)


if __name__ == "__main__":
    main()
