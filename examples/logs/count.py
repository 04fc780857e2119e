#!/usr/bin/env python3
"""Counts the replies of script.jsonl by plain counting and writes them. The conditions are written by hand from the
query texts that the searches have."""
import os
import sys

HERE = os.path.dirname(os.path.abspath(__file__))
sys.path.insert(0, os.path.dirname(HERE))
import counting  # noqa: E402
from date_texts import moment  # noqa: E402

MIDNIGHT, TWO_O_CLOCK = moment("2024-02-29T00:00:00Z"), moment("2024-02-29T02:00:00Z")
CONDITIONS = {
    "*:*": lambda d: True,
    "level:error": lambda d: "error" in d["level"],
    "code:[500 TO 599] OR level:error":
        lambda d: any(500 <= code <= 599 for code in d["code"]) or "error" in d["level"],
    "at:[2024-02-29T00:00:00Z TO 2024-02-29T02:00:00Z}":
        lambda d: any(MIDNIGHT <= at < TWO_O_CLOCK for at in d["at"]),
    "-at:*": lambda d: not d["at"],
}

lines = counting.read_script(os.path.join(HERE, "script.jsonl"))
counting.write(counting.replies(lines, CONDITIONS))
