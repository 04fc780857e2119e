#!/usr/bin/env python3
"""Counts the replies of page.json over products.csv by plain counting and writes them, as ../../tools/script-of gives the
products two shards. The conditions are written by hand from the query texts of the requests."""
import csv
import json
import os
import sys
import zlib

HERE = os.path.dirname(os.path.abspath(__file__))
sys.path.insert(0, os.path.dirname(HERE))
import counting  # noqa: E402

FIELDS = {"brand": "string", "color": "strings", "price": "plong"}
CONDITIONS = {
    "*:*": lambda d: True,
    "color:red": lambda d: "red" in d["color"],
    "brand:(acme OR zen)": lambda d: d["brand"] & {"acme", "zen"},
    "price:[50 TO *]": lambda d: any(price >= 50 for price in d["price"]),
}
# The third request sorts by a statistic that it does not ask for.
ERRORS = {3: {"error": "unknown-sort", "facet": ["brands"], "number": 11}}


def products():
    with open(os.path.join(HERE, "products.csv"), encoding="utf-8", newline="") as file:
        for row in csv.DictReader(file):
            price = [int(row["price"])] if row["price"] else []
            yield {"id": row["id"], "brand": row["brand"], "color": row["color"].split(";"), "price": price}


def requests():
    with open(os.path.join(HERE, "page.json"), encoding="utf-8") as file:
        text = file.read().strip()
    while text:
        request, end = json.JSONDecoder().raw_decode(text)
        yield request
        text = text[end:].strip()


def lines(shards=2, by_hash=True, commit_every=12):
    """A script's lines: the products in their order, with a commit behind so many and at the end."""
    yield {"schema": {"shards": shards, "fields": FIELDS}}
    for number, product in enumerate(products(), 1):
        place = zlib.crc32(product["id"].encode("utf-8")) if by_hash else number - 1
        yield {"add": {"doc": product, "shard": place % shards}}
        if number % commit_every == 0 or number == 12:
            yield {"commit": {}}
    yield {"sync": {}}
    for request in requests():
        yield {"search": {"request": request}}


def replies(**layout):
    return counting.replies(list(lines(**layout)), CONDITIONS, ERRORS)


if __name__ == "__main__":
    counting.write(replies())
