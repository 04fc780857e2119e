#!/usr/bin/env python3
"""Counts the replies of script.jsonl by plain counting and writes them. The conditions are written by hand from the
query texts that the searches have."""
import os
import sys

HERE = os.path.dirname(os.path.abspath(__file__))
sys.path.insert(0, os.path.dirname(HERE))
import counting  # noqa: E402

CONDITIONS = {
    "*:*": lambda d: True,
    "color:red": lambda d: "red" in d["color"],
    "color:pink": lambda d: "pink" in d["color"],
    "brand:(acme OR zen)": lambda d: d["brand"] & {"acme", "zen"},
    "price:[50 TO *]": lambda d: any(price >= 50 for price in d["price"]),
}

# The twelfth search sorts by a statistic that it does not ask for.
ERRORS = {12: {"error": "unknown-sort", "facet": ["brands"], "number": 11}}

lines = counting.read_script(os.path.join(HERE, "script.jsonl"))
counting.write(counting.replies(lines, CONDITIONS, ERRORS))
