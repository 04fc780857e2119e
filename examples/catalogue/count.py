#!/usr/bin/env python3
"""Counts the replies of script.jsonl by plain counting and writes them. The conditions are written by hand from the
query texts that the searches have."""
import os
import sys

HERE = os.path.dirname(os.path.abspath(__file__))
sys.path.insert(0, os.path.dirname(HERE))
import counting  # noqa: E402
from counting import utf8  # noqa: E402


def within(low, high, values):
    """Whether one of the values is from low to high, both included."""
    return any(low <= value <= high for value in values)


CONDITIONS = {
    "*:*": lambda d: True,
    "kind:*": lambda d: d["kind"],
    "kind:product": lambda d: "product" in d["kind"],
    "kind:variant": lambda d: "variant" in d["kind"],
    "colors:red": lambda d: "red" in d["colors"],
    "colors:(red AND black)": lambda d: {"red", "black"} <= d["colors"],
    'colors:(red "dark red")': lambda d: d["colors"] & {"red", "dark red"},
    "price:[20 TO 80}": lambda d: within(20, 79, d["price"]),
    "price:[* TO 100]": lambda d: any(price <= 100 for price in d["price"]),
    "price:{10 TO *]": lambda d: any(price > 10 for price in d["price"]),
    "price:[100 TO 50]": lambda d: False,
    'brand:{Birke TO "Élan"]': lambda d: any(utf8("Birke") < utf8(brand) <= utf8("Élan") for brand in d["brand"]),
    "brand:(Alder OR Corvo OR brava)": lambda d: d["brand"] & {"Alder", "Corvo", "brava"},
    "brand:alder": lambda d: "alder" in d["brand"],
    "-brand:Zéphyr": lambda d: "Zéphyr" not in d["brand"],
    "-brand:Corvo": lambda d: "Corvo" not in d["brand"],
    "title:Walk": lambda d: "Walk" in d["title"],
    'title:"Café \\"Nord\\" mug" OR title:茶碗 OR title:Towel\\;\\ \\"large\\"\\\tstriped':
        lambda d: d["title"] & {'Café "Nord" mug', "茶碗", 'Towel; "large"\tstriped'},
    "+kind:product -colors:black colors:red": lambda d: "product" in d["kind"] and "black" not in d["colors"],
    "stock:-3 stock:[* TO 0}": lambda d: any(stock == -3 or stock < 0 for stock in d["stock"]),
    "stock:(\\-3 \\-2 0) && !kind:variant": lambda d: d["stock"] & {-3, -2, 0} and "variant" not in d["kind"],
    "kind:product AND NOT (categories:shoes OR categories:clothes)":
        lambda d: "product" in d["kind"] and not d["categories"] & {"shoes", "clothes"},
    "categories:shoes": lambda d: "shoes" in d["categories"],
    "categories:clothes": lambda d: "clothes" in d["categories"],
    "brand:Alder AND categories:shoes colors:red": lambda d: "Alder" in d["brand"] and "shoes" in d["categories"],
    "categories:(winter || (summer -clothes))":
        lambda d: "winter" in d["categories"] or ("summer" in d["categories"] and "clothes" not in d["categories"]),
    "codes:*": lambda d: d["codes"],
    "codes:[10 TO 7}": lambda d: any(b"10" <= utf8(code) < b"7" for code in d["codes"]),
    "-colors:* -brand:*": lambda d: not d["colors"] and not d["brand"],
    "colors:(green price:[90 TO 100] -brown)":
        lambda d: ("green" in d["colors"] or within(90, 100, d["price"])) and "brown" not in d["colors"],
    "sizes:{41 TO 48]": lambda d: within(42, 48, d["sizes"]),
    "sizes:[48 TO *]": lambda d: any(size >= 48 for size in d["sizes"]),
    "id:[p13 TO p15]": lambda d: any(b"p13" <= utf8(name) <= b"p15" for name in d["id"]),
}

lines = counting.read_script(os.path.join(HERE, "script.jsonl"))
counting.write(counting.replies(lines, CONDITIONS))
