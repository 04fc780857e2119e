"""Faults of requests: a facet with a fault and the number and name of it, as docs/guide.md's table says them; and, where the fault
is of a facet inside that one, the names that lead there."""
EXCLUDING = {"type": "terms", "field": "brand", "domain": {"excludeTags": "A"}}
DAYS = {"type": "range", "field": "day", "start": "2024-01-31T00:00:00Z", "end": "2024-03-01T00:00:00Z", "gap": "+1DAY"}
BAD_FACETS = [
    (2, "unknown-key", {"type": "query", "q": "*:*", "numBuckets": True}),
    (3, "query-syntax", {"type": "query", "q": "red"}),
    (4, "mixed-operators", {"type": "query", "q": "kind:p AND n:5 OR n:12"}),
    (5, "unknown-field", {"type": "terms", "field": "brands"}),
    (5, "unknown-field", "sum(cost)"),
    (5, "unknown-field", {"type": "func", "func": "unique(cost)"}),
    (6, "bad-value", {"type": "terms", "field": "brand", "domain": {"filter": "n:five"}}),
    (6, "bad-value", {"type": "query", "q": "day:[2024-02-30T00:00:00Z TO *]"}),
    (8, "unknown-type", {"type": "heatmap", "field": "brand"}),
    (9, "missing-parameter", {"type": "range", "field": "n", "start": 0, "end": 9}),
    (9, "missing-parameter", {"type": "range", "field": "day", "start": "2024-01-31T00:00:00Z", "gap": "+1DAY"}),
    (10, "bad-parameter", {"type": "terms", "field": "brand", "limit": -2}),
    (10, "bad-parameter", {"type": "terms", "field": "brand", "refine": "exactly"}),
    (10, "bad-parameter", {"type": "terms", "field": "brand", "numBuckets": "true", "domain": {"filter": "n:five"}}),
    (10, "bad-parameter", {"type": "terms", "field": "brand", "refine": "exact", "sort": "count asc"}),
    (10, "bad-parameter", {"type": "query", "q": "*:*", "facet": {"x": {"type": "terms", "field": "brand", "refine": "exact"}}}, "x"),
    (10, "bad-parameter", {**DAYS, "gap": "+01DAY"}),
    (10, "bad-parameter", {**DAYS, "start": "2024-03-01T00:00:00.001Z"}),
    (10, "bad-parameter", {**DAYS, "start": "9999-12-31T00:00:00Z", "end": "9999-12-31T00:00:00.001Z"}),
    (11, "unknown-sort", {"type": "terms", "field": "brand", "sort": "total desc"}),
    (11, "unknown-sort", {"type": "terms", "field": "brand", "refine": "exact", "sort": "total asc"}),
    (11, "unknown-sort", {"type": "terms", "field": "brand", "numBuckets": True, "sort": "u desc", "facet": {"u": "unique(n)"}}),
    (12, "bad-statistic", "avg(n)"),
    (12, "bad-statistic", "unique(n, ns)"),
    (13, "wrong-field-type", {"type": "terms", "field": "n", "prefix": "1"}),
    (13, "wrong-field-type", "sum(brand)"),
    (13, "wrong-field-type", "max(days)"),
    (13, "wrong-field-type", {**DAYS, "field": "brand"}),
    (15, "nested-exclude", {"type": "query", "q": "*:*", "domain": {"blockParent": "kind:p"}, "facet": {"x": EXCLUDING}}, "x"),
    (15, "nested-exclude", {"type": "terms", "field": "marks", "domain": {"blockChildren": "*:*"}, "facet": {
        "n": "sum(n)", "x": {"type": "query", "q": "kind:c", "facet": {"y": EXCLUDING}}}}, "x", "y"),
    (16, "too-large", {"type": "range", "field": "n", "start": 0, "end": 10001, "gap": 1}),
    (16, "too-large", {**DAYS, "gap": "+2SECONDS"}),
]
UNDER_A_STEP = (15, "nested-exclude", EXCLUDING)
RESERVED = "val"


def put_fault(chance, request):
    """Puts a facet with a fault among the facets of the request, on some depth. The members of its error line."""
    around, facets, is_under_step = [], request.setdefault("facet", {}), False
    while len(around) < 5 and chance.happens(60):
        below = [name for name, facet in facets.items() if isinstance(facet, dict) and "facet" in facet]
        if not below:
            break
        around.append(chance.one(below))
        is_under_step |= any(change.startswith("block") for change in facets[around[-1]].get("domain", {}))
        facets = facets[around[-1]]["facet"]
    number, fault, facet, *inside = chance.one(BAD_FACETS + [UNDER_A_STEP] * 6 if is_under_step else BAD_FACETS)
    name = "bad"
    if chance.happens(15):
        number, fault, name, facet, inside = 14, "reserved-name", RESERVED, {"type": "terms", "field": "brand"}, []
    facets[name] = facet
    return {"error": fault, "facet": [*around, name, *inside], "number": number}
