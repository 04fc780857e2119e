"""Names and values as they are shown: nothing that data has can move the cursor, turn the direction of what stands beside it,
or pass for a word of ours."""
import re
import unicodedata

# Control characters, halves of surrogate pairs, and characters that change the direction of what follows.
UNSEEN = re.compile("[\x00-\x1f\x7f-\x9f\u2028\u2029\u200e\u200f\u061c\u202a-\u202e\u2066-\u2069\ufeff\ud800-\udfff]")
# What is no value and stands beside values.
BESIDE = {"missing": "(no value)", "before": "(before)", "between": "(between)", "after": "(after)"}


def visible(text):
    return UNSEEN.sub(lambda found: f"\\u{ord(found[0]):04x}", text)


def label(text):
    """A name or a value; in quotes where else it would be nothing, begin or end with a space, or read like a word of ours."""
    shown = visible(text)
    plain = shown and shown == shown.strip() and not shown.startswith('"') and shown not in BESIDE.values()
    return shown if plain else f'"{shown}"'


def value(one):
    return str(one) if isinstance(one, int) else label(one)


def documents(count):
    return "1 document" if count == 1 else f"{count:,} documents"


def how_many(facet):
    """How many buckets a facet has, where there are none here or where it is told how many there are in all; else nothing."""
    if facet.number is not None:
        return f"{len(facet.buckets):,} of {facet.number:,} bucket{'s' * (facet.number != 1)}"
    return "" if facet.buckets else "no buckets"


def width(text):
    """How many columns of a terminal a text takes."""
    return sum(columns(character) for character in text)


def columns(character):
    if unicodedata.combining(character) or unicodedata.category(character) in ("Mn", "Me", "Cf"):
        return 0
    return 2 if unicodedata.east_asian_width(character) in ("W", "F") else 1


def cut(text, most, mark):
    """The front of a text that fits into so many columns, with a mark of one column where something is left out."""
    if width(text) <= most:
        return text
    kept, left = "", most - 1
    for character in text:
        left -= columns(character)
        if left < 0:
            break
        kept += character
    return kept + mark
