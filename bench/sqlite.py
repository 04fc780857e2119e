#!/usr/bin/env python3
"""Answers the searches of bench/compare.py by SQLite, as Python has it, in memory: a table of products with indices by brand and
by price, a table of their tags. Prints a line for the reading of the script, for Python's part of it, and for each search: its
name, milliseconds of processor time, what was found, with tabs between."""
import argparse
import itertools
import json
import sqlite3
import time

TABLES = """
CREATE TABLE product (place INTEGER PRIMARY KEY, id TEXT NOT NULL UNIQUE, brand TEXT, price INTEGER);
CREATE TABLE tag (tag TEXT, product INTEGER, PRIMARY KEY (tag, product)) WITHOUT ROWID;
"""
INDICES = """
CREATE INDEX brand_price ON product (brand, price);
CREATE INDEX price_brand ON product (price, brand);
"""
ALL = "SELECT count(*) FROM product"
BRANDS = "SELECT brand, count(*) FROM product WHERE {} GROUP BY brand ORDER BY brand"
SUMS = "SELECT brand, count(*) AS found, sum(price) AS total FROM product GROUP BY brand ORDER BY {} DESC, brand LIMIT 3"
TAGS = "SELECT tag, count(*) FROM tag GROUP BY tag ORDER BY tag"
BY_PRICE = "SELECT price, brand, count(*) AS found FROM product GROUP BY price, brand ORDER BY price, brand"
# Each price and brand is counted along an index first, which is quicker than to count the ranges at once.
RANGES = f"""
SELECT price / 100 * 100 AS low, brand, sum(found) AS found FROM ({BY_PRICE}) WHERE price BETWEEN 0 AND 999
GROUP BY low, brand ORDER BY low, found DESC, brand
"""
OF_TAG = "FROM tag JOIN product ON place = product WHERE tag = 't0'"
RANGES_OF_TAG = f"SELECT price / 100 * 100 AS low, count(*), sum(price) {OF_TAG} AND price BETWEEN 0 AND 999 GROUP BY low ORDER BY low"
BRANDS_OF_TAG = f"SELECT brand, count(*) AS found {OF_TAG} GROUP BY brand ORDER BY found DESC, brand"
PAGE_BRANDS = """
SELECT brand, count(*) AS found, sum(price) FROM tag JOIN product ON place = product WHERE tag = 't1' AND price >= 500
GROUP BY brand ORDER BY found DESC, brand
"""
PAGE_TAGS = """
SELECT tag, count(*) AS found FROM tag JOIN product ON place = product WHERE price >= 500 GROUP BY tag ORDER BY found DESC, tag LIMIT 10
"""


# So many documents are put into the tables at once.
BATCH = 10_000


def documents(path):
    with open(path, "rb") as script:
        for line in map(json.loads, script):
            if "add" in line:
                yield line["add"]["doc"]


def read(path):
    """A database with the documents of a script."""
    database = sqlite3.connect(":memory:")
    database.executescript(TABLES)
    numbered = enumerate(documents(path))
    while batch := list(itertools.islice(numbered, BATCH)):
        products = ((place, one["id"], one.get("brand"), one.get("price")) for place, one in batch)
        database.executemany("INSERT INTO product VALUES (?, ?, ?, ?)", products)
        database.executemany("INSERT INTO tag VALUES (?, ?)", ((tag, place) for place, one in batch for tag in set(one["tags"])))
    database.executescript(INDICES)
    return database


def buckets(rows, *names):
    """A facet of rows, each a value and what there is of it by these names."""
    return {"buckets": [dict(zip(("val", "count", *names), row)) for row in rows]}


def nested(rows, limit=None):
    """A facet of prices, with so many brands in each, of rows in their order: a price, a brand, a count."""
    found = []
    for price, of_price in itertools.groupby(rows, lambda row: row[0]):
        brands = [row[1:] for row in of_price]
        found.append({"val": price, "count": sum(count for _, count in brands), "brand": buckets(brands[:limit])})
    return {"buckets": found}


class Searches:
    """What each search finds."""

    def __init__(self, database):
        self.database = database

    def rows(self, query):
        return self.database.execute(query).fetchall()

    def number(self, query):
        return self.rows(query)[0][0]

    def brands_where(self, condition):
        rows = self.rows(BRANDS.format(condition))
        return {"count": sum(count for _, count in rows), "brand": buckets(rows)}

    def by_name(self):
        """By its name each search."""
        return {
            "count": lambda: {"count": self.number(f"{ALL} WHERE price >= 500")},
            "brands": lambda: self.brands_where("true"),
            "tags": lambda: {"count": self.number(ALL), "tags": buckets(self.rows(TAGS))},
            "three brands": lambda: {"count": self.number(ALL), "brand": buckets(self.rows(SUMS.format("total")), "total")},
            "three brands and tags": lambda: {"count": self.number(ALL), "brand": buckets(self.rows(SUMS.format("found")), "total"),
                                              "tags": buckets(self.rows(TAGS))},
            "prices": lambda: {"count": self.number(ALL), "price": nested(self.rows(RANGES), 2)},
            "prices of a tag": self.prices_of_a_tag,
            "a page": self.page,
            "ten filters": lambda: self.brands_where(f"price NOT IN ({', '.join(map(str, range(10)))})"),
            "brands in each price": lambda: {"count": self.number(ALL), "price": nested(self.rows(BY_PRICE))},
        }

    def prices_of_a_tag(self):
        brands = self.rows(BRANDS_OF_TAG)
        count = sum(count for _, count in brands)
        return {"count": count, "brand": buckets(brands[:3]), "price": buckets(self.rows(RANGES_OF_TAG), "total")}

    def page(self):
        rows = self.rows(PAGE_BRANDS)
        missing = sum(count for brand, count, _ in rows if brand is None)
        brand = {**buckets([row[:2] for row in rows if row[0] is not None][:10]), "missing": {"count": missing}}
        return {"count": sum(row[1] for row in rows), "total": sum(row[2] for row in rows), "brand": brand,
                "tags": buckets(self.rows(PAGE_TAGS))}


def timed(do, times=1):
    """Milliseconds of processor time, and what was found the last time."""
    began = time.process_time()
    for _ in range(times):
        found = do()
    return 1000 * (time.process_time() - began) / times, found


def measure(options):
    """By a name the least milliseconds, and what was found."""
    least = {}

    def note(name, milliseconds, found):
        least[name] = min(milliseconds, least.get(name, (milliseconds,))[0]), found

    for _ in range(options.runs):
        note("reading in Python", *timed(lambda: sum(1 for _ in documents(options.script))))
        milliseconds, database = timed(lambda: read(options.script))
        searches = Searches(database)
        note("reading", milliseconds, searches.number(ALL))
        for name, search in searches.by_name().items() if options.searches else ():
            note(name, *timed(search, options.searches))
    return least


def main():
    options = argparse.ArgumentParser(description=__doc__)
    options.add_argument("--runs", type=int, default=3, help="each figure is the least of so many runs")
    options.add_argument("--searches", type=int, default=5, help="a search is made so many times in a run; with 0 it only reads")
    options.add_argument("script", metavar="SCRIPT")
    for name, (milliseconds, found) in measure(options.parse_args()).items():
        print(name, f"{milliseconds:.3f}", json.dumps(found), sep="\t")


if __name__ == "__main__":
    main()
