"""Requests by chance: a query, filters with tags, facets nested in facets."""
from counting import statistic_text
from worlds.documents import DATES, NUMBERS, TEXTS, VALUES

NAMES = ["a", "b", "m", "low", "é", "buckets", "missing", "", 'a\n"b"']
TAGS = ["A", "B", "C.1", "x-_"]
# Fields of many values.
WIDE = ["tags", "tags", "tags", "id", "ns", "brand", "days"]
# Gaps of dates, each with starts and ends that lie less than twenty gaps apart.
DATE_GAPS = [
    (["+1MONTH", "+1MONTHS", "+2MONTHS"], ["2023-12-31T00:00:00Z", "2024-01-31T00:00:00Z", "2024-01-31T00:00:00.0009Z"],
     ["2024-01-31T00:00:00.0001Z", "2024-02-29T00:00:00Z", "2024-03-31T00:00:00.000Z", "2024-05-01T00:00:00Z", "2024-08-31T12:00:00Z"]),
    (["+10DAYS", "+7DAYS", "+1MONTH"], ["2023-12-25T06:30:00.25Z", "2024-01-31T00:00:00Z"],
     ["2024-02-29T06:30:00.25Z", "2024-03-30T00:00:00Z"]),
    (["+1YEAR", "+12MONTHS", "+4YEARS"], ["2024-02-29T00:00:00Z", "2024-02-29T06:30:00.250Z"],
     ["2024-02-29T06:30:00.2509Z", "2025-01-01T00:00:00Z", "2027-12-31T23:59:59Z", "2028-02-29T00:00:00Z"]),
    (["+1DAY", "+12HOURS", "+36HOURS", "+2000MINUTES"], ["2024-02-27T18:00:00Z", "2024-02-29T00:00:00Z"],
     ["2024-02-29T06:00:00Z", "2024-03-01T00:00:00Z", "2024-03-02T06:00:00.001Z"]),
    (["+1SECOND", "+1MINUTE", "+2HOURS", "+7000YEARS"], ["2023-12-31T23:59:57.999Z"],
     ["2023-12-31T23:59:59.999Z", "2024-01-01T00:00:00Z"]),
    (["+4YEARS"], ["1896-02-29T00:00:00Z", "1900-02-28T00:00:00Z"],
     ["1900-02-28T00:00:00Z", "1904-02-28T12:00:00Z", "1908-02-28T00:00:00Z"]),
    (["+2500YEARS", "+9999MONTHS"], ["0001-01-01T00:00:00Z", "0001-12-31T23:59:59.999Z"],
     ["2024-02-29T00:00:00Z", "7000-01-01T00:00:00Z"]),
]
DATE_PREFIXES = ["", "2", "2024-0", "2024-02-29T", "2024-02-29T06:30:00.25", "2024-02-29T00:00:00Z", "2024-02-29T00:00:00.000Z"]
DEEPEST = 8
MOST_FACETS = 50


class Requests:
    """Most requests have facets of all kinds; a chain has terms facets with small limits, one in the other, and a row facets of
    any kind, with tags that the innermost excludes. Some outermost terms facets are exact."""

    def __init__(self, chance, queries):
        self.chance, self.queries = chance, queries
        self.left = self.deepest = self.block_steps = 0
        self.excluded_inside = []

    def request(self):
        self.left, self.deepest = MOST_FACETS, self.chance.one([1, 2, 2, 3, 3, 4, 5, 6, DEEPEST])
        self.excluded_inside = []
        request = {}
        if self.chance.happens(50):
            make, lengths = self.chance.one([(self.chain, [2, 3, 4, 5, 6, 7, 7, DEEPEST]), (self.row, [2, 2, 3, 3, 3, 4, 6, DEEPEST])])
            request["facet"] = {"a": make(self.chance.one(lengths), 1)}
            self.perhaps(request, 100 if self.excluded_inside else 0, "filter", self.filters)
            return request
        self.perhaps(request, 97, "facet", lambda: self.facets(1))
        self.perhaps(request, 35, "query", self.queries.text)
        self.perhaps(request, 85 if self.excluded_inside else 45, "filter", self.filters)
        self.perhaps(request, 10, "limit", lambda: 0)
        return request

    def perhaps(self, members, percent, name, make):
        if self.chance.happens(percent):
            members[name] = make()

    def choose(self, members, percent, name, choices):
        self.perhaps(members, percent, name, lambda: self.chance.one(choices))

    def chain(self, length, depth):
        facet = {"type": "terms", "field": self.chance.one(["marks", "marks", "sizes", "sizes", "ns", "tags"])}
        self.choose(facet, 95, "limit", [1, 1, 2, 2, 2, 3])
        self.choose(facet, 80, "refine", [True])
        self.choose(facet, 90, "overrequest", [0, 0, 0, 1])
        self.choose(facet, 80, "overrefine", [0, 0, 1])
        self.choose(facet, 30, "numBuckets", [True])
        if self.chance.happens(10):
            facet["domain"] = {"excludeTags": self.tags(depth)}
        nested = {"low": self.statistic()} if self.chance.happens(40) and depth < DEEPEST else {}
        self.perhaps(facet, 50, "sort", lambda: self.sort(nested))
        self.perhaps_exactly(facet, depth)
        if length > 1:
            nested["a"] = self.chain(length - 1, depth + 1)
        if nested:
            facet["facet"] = nested
        return facet

    def row(self, length, depth):
        """A facet of any kind, with another one in it and so on; the innermost excludes tags."""
        self.deepest = depth
        facet = self.chance.one([self.terms, self.terms, self.range, self.query])(depth)
        if facet["type"] == "terms":
            self.choose(facet, 50, "missing", [True])
            if self.chance.happens(65):
                facet.update(limit=-1, refine=False, field=self.chance.one(["brand", "brand", "tags", "marks"]))
        elif facet["type"] == "range":
            self.choose(facet, 50, "other", ["all"])
        change = {}
        self.perhaps(change, 40, "filter", lambda: [self.queries.wide() for _ in range(1 + self.chance.below(2))])
        self.perhaps(change, 100 if length == 1 else 30, "excludeTags", lambda: self.tags(depth))
        if change:
            facet["domain"] = change
        if length > 1:
            facet.setdefault("facet", {})["a"] = self.row(length - 1, depth + 1)
        return facet

    def filters(self):
        listed = [self.filter() for _ in range(1 + self.chance.below(2 if self.excluded_inside else 3))]
        return listed[0] if len(listed) == 1 and self.chance.happens(50) else listed

    def filter(self):
        """With tags or without. Where facets inside others exclude some, most filters with tags have one of those, and half find much."""
        text = self.queries.wide() if self.excluded_inside and self.chance.happens(50) else self.queries.text()
        tag = self.chance.one(self.excluded_inside if self.excluded_inside and self.chance.happens(70) else TAGS)
        tags = ",".join([tag, *self.chance.some(TAGS, 1)])
        return self.chance.one([text, "{!tag=" + tags + "}" + text, {"#" + tags: text}])

    def facets(self, depth):
        """Facets and statistics by name: few where they may nest deep."""
        found = {}
        for _ in range(1 + self.chance.below(3 if depth > 1 else 4)):
            if self.left > 0:
                self.left -= 1
                is_statistic = self.chance.happens(30 if depth < DEEPEST else 60)
                found[self.chance.one(NAMES)] = self.statistic() if is_statistic else self.facet(depth)
        return found

    def nested(self, facet, depth):
        if depth < self.deepest and self.left > 0 and self.chance.happens(85 if self.deepest > 3 else 65):
            facet["facet"] = self.facets(depth + 1)

    def statistic(self):
        field = self.chance.one(NUMBERS)
        texts = [f"{name}({field})" for name in ("sum", "min", "max")]
        texts += [f"{name}({self.chance.one(NUMBERS + TEXTS + DATES)})" for name in ("countvals", "missing")]
        texts += [f"unique({self.chance.one(NUMBERS + TEXTS + DATES + ['id'])})"] * 2
        text = self.chance.one(texts)
        return self.chance.one([text, text, " " + text.replace("(", " ( "), {"type": "func", "func": text}])

    def facet(self, depth):
        """A facet, with a domain change or without; where it steps between parents and children, no facet in it excludes tags."""
        change = {}
        self.perhaps(change, 35, "domain", lambda: self.domain(depth))
        is_step = any(name.startswith("block") for name in change.get("domain", {}))
        self.block_steps += is_step
        facet = self.chance.one([self.terms, self.terms, self.terms, self.terms, self.range, self.query])(depth)
        self.block_steps -= is_step
        return {**facet, **change}

    def terms(self, depth):
        facet = {"type": "terms"}
        self.choose(facet, 85, "limit", [0, 1, 1, 1, 1, 1, 2, 2, 2, 3, 3, 5, 10, 12, -1])
        is_wide = not 0 <= facet.get("limit", 10) < 10
        field = self.chance.one(WIDE if is_wide else ["brand", "marks", "marks", "sizes", "tags", "tags", "kind", "n", "ns", "day"])
        facet["field"] = field
        self.choose(facet, 70, "refine", [True, True, True, True, False])
        self.choose(facet, 75, "overrequest", [0, 0, 0, 0, 1, 2, -1])
        self.choose(facet, 60, "overrefine", [0, 0, 0, 1, 2, -1])
        self.choose(facet, 20, "offset", [0, 1, 1, 2, 3])
        self.choose(facet, 25, "mincount", [1, 2, 2, 3, 5])
        self.choose(facet, 35, "missing", [True, True, False])
        self.choose(facet, 5, "method", ["enum", "uif", "é"])
        self.choose(facet, 35, "numBuckets", [True, True, True, False])
        if field in TEXTS:
            self.choose(facet, 15, "prefix", ["", "t", "t1", "m", "f", "fo", "x"] + VALUES["brand"])
        elif field in DATES:
            self.choose(facet, 40, "prefix", DATE_PREFIXES)
        self.nested(facet, depth)
        if self.chance.happens(15) and depth < DEEPEST and self.left > 0:
            self.left -= 1
            facet.setdefault("facet", {})["low"] = self.statistic()
        self.perhaps(facet, 65, "sort", lambda: self.sort(facet.get("facet", {})))
        self.perhaps_exactly(facet, depth)
        return facet

    def perhaps_exactly(self, facet, depth):
        """Makes an outermost facet exact, with the sort that it then has. Most have few buckets, and shards offer no more."""
        if depth > 1 or not self.chance.happens(35):
            return
        facet["refine"] = "exact"
        facet.pop("sort", None)
        self.choose(facet, 30, "sort", ["count", " \tcount  desc\n", {"count": "desc"}])
        if self.chance.happens(70):
            facet.update(limit=self.chance.one([1, 1, 1, 2, 3]), overrequest=0)

    def sort(self, nested):
        """By count, by index, or by a statistic right under the facet."""
        sorts = [name for name in sortable(nested) if name]
        name = self.chance.one(sorts if sorts and self.chance.happens(80) else ["count", "index"])
        way = self.chance.one(["asc", "desc"])
        return self.chance.one([f"{name} {way}", f" \t{name}  {way}\n", f" {name} ", {name: way}])

    def range(self, depth):
        facet = {"type": "range", **self.chance.one([self.integers, self.integers, self.dated])()}
        self.choose(facet, 50, "hardend", [True, True, False])
        self.perhaps(facet, 60, "other", lambda: self.words(["before", "after", "between", "all", "all", "none"]))
        self.perhaps(facet, 60, "include", lambda: self.words(["lower", "upper", "edge", "outer", "all"]))
        self.nested(facet, depth)
        return facet

    def integers(self):
        field, gap = self.chance.one(NUMBERS), self.chance.one([1, 2, 3, 4, 5, 7])
        start = self.chance.one([36, 38] if field == "sizes" else [-5, -1, 0, 0, 1, 2, 3])
        end = start + self.chance.one([0, 1, 3, 4, 5, 7, 8, 10, 12])
        return {"field": field, "start": start, "end": end, "gap": gap}

    def dated(self):
        gaps, starts, ends = self.chance.one(DATE_GAPS)
        made = {"field": DATES, "start": starts, "end": ends, "gap": gaps}
        return {name: self.chance.one(choices) for name, choices in made.items()}

    def words(self, choices):
        return self.chance.one([self.chance.one(choices), self.chance.some(choices, 2)])

    def query(self, depth):
        facet = {"type": "query", "q": self.queries.text()}
        self.nested(facet, depth)
        return facet

    def domain(self, depth):
        change = {}
        if not self.block_steps:
            self.perhaps(change, 60, "excludeTags", lambda: self.tags(depth))
        elif self.chance.happens(10):
            change["excludeTags"] = self.chance.one(["", []])
        self.perhaps(change, 45, self.chance.one(["blockChildren", "blockParent"]), self.queries.parents)
        self.perhaps(change, 45, "filter", self.domain_filter)
        return change

    def tags(self, depth):
        tags = self.chance.one(["A", "B", "A,B", ["A"], ["C.1", "x-_"], ["B", "nowhere"], "", []])
        if depth > 1:
            self.excluded_inside += [tag for tag in TAGS if tag in tags]
        return tags

    def domain_filter(self):
        return self.chance.one([self.queries.text(), [self.queries.text() for _ in range(self.chance.below(3))]])


def sortable(facets):
    """The names of the statistics among some facets by which the facet around them may be sorted: by no `unique`."""
    texts = {name: statistic_text(command) for name, command in facets.items()}
    return [name for name, text in texts.items() if text is not None and "unique" not in text]
