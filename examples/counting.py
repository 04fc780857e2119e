"""Counts the replies of a script by other means than the program's: by lists of places, filtered and sorted, as the
guide tells it. It reads no query text: whoever uses it hands in a table that gives each query text of the script a
condition in Python. Requests with a fault are not read: their error lines are handed in by the number of the search. A date is a
`datetime`, here and for the conditions.
"""
import datetime
import json
import re
import sys

import date_texts


def any_value(condition):
    """Whether one value of a field meets a condition, as a condition of documents."""
    return lambda field: lambda document: any(condition(value) for value in document[field])


def utf8(text):
    return text.encode("utf-8")


def index_order(value):
    return utf8(value) if isinstance(value, str) else value


def printed(value):
    """A value as it stands in a reply."""
    return date_texts.printed(value) if isinstance(value, datetime.datetime) else value


def reader(kind):
    """What makes a value of an item of a document, in a field of this type."""
    return int if kind.startswith("plong") else date_texts.moment if kind.startswith("pdate") else str


def read_document(types, members):
    """A table from each field to the set of its values: texts, whole numbers, or dates."""
    document = {}
    for field, kind in types.items():
        items = members.get(field)
        items = items if isinstance(items, list) else [items]
        read = reader(kind)
        document[field] = {read(item) for item in items if item is not None}
    return document


class Place:
    def __init__(self, shard, block, is_parent, document):
        self.shard, self.block, self.is_parent, self.document = shard, block, is_parent, document


class Search:
    """What one search asks, over the places of its generations."""

    def __init__(self, request, places, conditions, types):
        self.request, self.places, self.conditions, self.types = request, places, conditions, types
        self.found = {}

    def matches(self, text, place):
        if text not in self.conditions:
            sys.exit(f"no condition was written for {text!r}")
        return bool(self.conditions[text](place.document))

    def filters(self):
        """Each filter as its tags and its query text."""
        listed = self.request.get("filter", [])
        for one in listed if isinstance(listed, list) else [listed]:
            if isinstance(one, dict):
                (key, text), = one.items()
                yield key[1:].split(","), text
            elif one.startswith("{!tag="):
                tags, text = one[len("{!tag="):].split("}", 1)
                yield tags.split(","), text
            else:
                yield [], one

    def base(self, excluded):
        """The places that match the query and each filter that has none of the tags."""
        texts = [self.request.get("query", "*:*")]
        texts += [text for tags, text in self.filters() if not set(tags) & set(excluded)]
        if tuple(texts) not in self.found:
            self.found[tuple(texts)] = [p for p in self.places if all(self.matches(text, p) for text in texts)]
        return self.found[tuple(texts)]

    def begun_anew(self, facet, around):
        """The places that a facet begins with which excludes tags: those of the base without its tags and those that the
        facets around it exclude, where the document matches each filter of each facet around and is in the buckets."""
        tags = [tag for one in [facet, *(outer for outer, _ in around)] for tag in excluded(one)]
        places = self.base(tags)
        for outer, is_inside in around:
            places = [p for p in places if is_inside(p) and all(self.matches(text, p) for text in domain_filters(outer))]
        return places

    def domain(self, facet, places, shards, around):
        """What a facet counts in a bucket of these places on these shards. `around` has the facets around it, from the
        outermost to the one whose bucket it is, each with the test of the bucket of it that is meant."""
        change = facet.get("domain", {})
        if excluded(facet):
            places = self.begun_anew(facet, around)
        kept = {(p.shard, p.block) for p in places}
        if "blockChildren" in change:
            parents = {(p.shard, p.block) for p in places if p.is_parent and self.matches(change["blockChildren"], p)}
            places = [p for p in self.places if not p.is_parent and (p.shard, p.block) in parents]
        if "blockParent" in change:
            places = [p for p in self.places
                      if p.is_parent and (p.shard, p.block) in kept and self.matches(change["blockParent"], p)]
        for text in domain_filters(facet):
            places = [p for p in places if self.matches(text, p)]
        return [p for p in places if p.shard in shards]

    def bucket(self, facets, places, shards, around, **first):
        result = {**first, "count": len(places)}
        for name, command in facets.items():
            text = statistic_text(command)
            if text is not None:
                value = statistic(text, places)
                if places and value is not None:
                    result[name] = value
            elif places or excluded(command):
                result[name] = self.facet(command, self.domain(command, places, shards, around), shards, around)
        return result

    def facet(self, facet, places, shards, around):
        def bucket_of(is_inside, shards, **first):
            """The bucket of the places that meet a test, on some shards."""
            of = [p for p in places if p.shard in shards and is_inside(p)]
            return self.bucket(facet.get("facet", {}), of, shards, [*around, (facet, is_inside)], **first)

        if facet["type"] == "terms":
            return self.terms(facet, places, shards, bucket_of)
        if facet["type"] == "range":
            return self.range(facet, shards, bucket_of)
        return bucket_of(lambda p: self.matches(facet["q"], p), shards)

    def terms(self, facet, places, shards, bucket_of):
        nested = facet.get("facet", {})
        field, prefix = facet["field"], facet.get("prefix", "")
        limit, offset = facet.get("limit", 10), facet.get("offset", 0)
        tenth = limit // 10 + 4

        def more(name):
            return tenth if facet.get(name, -1) == -1 else facet[name]

        def has(place, value):
            return value in place.document[field]

        def values(of):
            found = set().union(*(p.document[field] for p in of))
            return {v for v in found if not prefix or printed(v).startswith(prefix)}

        def ranked(of):
            """Values in the order of their ranks, each over the places that `of` gives it."""
            return rank(facet.get("sort", "count desc"), nested, of)

        offers = {}
        for shard in shards:
            own = [p for p in places if p.shard == shard]
            order = ranked({v: [p for p in own if has(p, v)] for v in values(own)})
            offers[shard] = order if limit == -1 else order[:offset + limit + more("overrequest")]
        # A facet that is refined exactly counts every value, as a single index does.
        candidates = values(places) if facet.get("refine") == "exact" else set().union(*offers.values())
        offering = {v: {shard for shard in shards if v in offers[shard]} for v in candidates}
        chosen = candidates
        if facet.get("refine") is True and limit != -1:
            parts = {v: [p for p in places if has(p, v) and p.shard in offering[v]] for v in candidates}
            chosen = ranked(parts)[:offset + limit + more("overrefine")]
        counts_on_all = facet.get("refine") or limit == -1 and holds_exclusion(facet)
        known = {v: set(shards) if counts_on_all else offering[v] for v in chosen}
        counted = {v: [p for p in places if has(p, v) and p.shard in known[v]] for v in chosen}
        enough = {v: of for v, of in counted.items() if len(of) >= facet.get("mincount", 1)}
        page = ranked(enough)[offset:None if limit == -1 else offset + limit]
        result = {"buckets": [bucket_of(lambda p: has(p, v), known[v], val=printed(v)) for v in page]}
        if facet.get("missing"):
            result["missing"] = bucket_of(lambda p: not p.document[field], shards)
        if facet.get("numBuckets"):
            result["numBuckets"] = sum(sum(has(p, v) for p in places) >= facet.get("mincount", 1) for v in values(places))
        return result

    def range(self, facet, shards, bucket_of):
        start, end, gap = facet["start"], facet["end"], facet["gap"]
        words = as_list(facet.get("include", "lower")) or ["lower"]
        words = {"lower", "upper", "edge", "outer"} if "all" in words else set(words)
        if isinstance(gap, str):
            start, end = date_texts.moment(start), date_texts.moment(end)
            lows, highs = columns(date_texts.gaps(start, end, gap))
        else:
            gaps = -((start - end) // gap)
            lows, highs = columns((start + i * gap, start + (i + 1) * gap) for i in range(gaps))
        if facet.get("hardend") and highs:
            highs[-1] = end
        last = highs[-1] if highs else end

        def held(condition):
            return lambda **first: bucket_of(lambda p: any(condition(x) for x in p.document[facet["field"]]), shards, **first)

        def between(low, high, with_low, with_high):
            return held(lambda x: low < x < high or x == low and with_low or x == high and with_high)

        buckets = []
        for i, (low, high) in enumerate(zip(lows, highs)):
            with_low = "lower" in words or ("edge" in words and i == 0)
            with_high = "upper" in words or ("edge" in words and i == len(lows) - 1)
            buckets.append(between(low, high, with_low, with_high)(val=printed(low)))
        lower, upper = bool(words & {"lower", "edge"}), bool(words & {"upper", "edge"})
        others = {
            "before": held(lambda x: x < start or x == start and ("outer" in words or not lower)),
            "after": held(lambda x: x > last or x == last and ("outer" in words or not upper)),
            "between": between(start, last, lower, upper),
        }
        asked = as_list(facet.get("other", "none"))
        asked = [] if "none" in asked else list(others) if "all" in asked else asked
        return {"buckets": buckets, **{name: others[name]() for name in asked}}


def columns(pairs):
    """The first of each pair, and the second."""
    pairs = list(pairs)
    return [first for first, _ in pairs], [second for _, second in pairs]


def as_list(value):
    return value if isinstance(value, list) else [value]


def excluded(facet):
    tags = facet.get("domain", {}).get("excludeTags", [])
    return [tag for tag in (tags.split(",") if isinstance(tags, str) else tags) if tag]


def domain_filters(facet):
    return as_list(facet.get("domain", {}).get("filter", []))


def holds_exclusion(facet):
    """Whether a facet inside this one, at any depth, excludes tags."""
    nested = [one for one in facet.get("facet", {}).values() if statistic_text(one) is None]
    return any(excluded(one) or holds_exclusion(one) for one in nested)


def statistic_text(command):
    if isinstance(command, str):
        return command
    return command["func"] if command["type"] == "func" else None


def statistic(text, places):
    name, field = re.fullmatch(r" *([a-z]+) *\( *(\w+) *\) *", text).groups()
    pairs = [value for p in places for value in p.document[field]]
    if name == "sum":
        return sum(pairs)
    if name == "countvals":
        return len(pairs)
    if name == "unique":
        return len(set(pairs))
    if name == "missing":
        return sum(not p.document[field] for p in places)
    return {"min": min, "max": max}[name](pairs) if pairs else None


def rank(sort, nested, of):
    if isinstance(sort, dict):
        (name, direction), = sort.items()
    else:
        name, _, direction = sort.strip().rpartition(" ")
        if direction not in ("asc", "desc") or not name:
            name = sort.strip()
            direction = "asc" if name == "index" else "desc"
        name = name.strip()

    def key(value):
        if name == "count":
            return len(of[value])
        if name == "index":
            return index_order(value)
        return statistic(statistic_text(nested[name]), of[value])

    order = sorted(of, key=index_order)
    present = [v for v in order if key(v) is not None]
    present.sort(key=key, reverse=direction == "desc")
    return present + [v for v in order if key(v) is None]


def commits_by_phase(lines, shards):
    """For each phase the commits of each shard up to its end."""
    counts, phases = [0] * shards, []
    for line in lines[1:]:
        if "commit" in line:
            for shard in [line["commit"]["shard"]] if "shard" in line["commit"] else range(shards):
                counts[shard] += 1
        elif "sync" in line:
            phases.append(list(counts))
    return phases + [counts]


def block_of(number, shard, members, types):
    """The places of a document and of its children, which it follows."""
    documents = [*(members.get("_childDocuments_") or []), members]
    return [Place(shard, number, one is members, read_document(types, one)) for one in documents]


def operations(lines, types, shards):
    """For each shard the list of its batches, each a list of pairs: an id, and the block that is added, or nothing where what has the
    id is deleted."""
    waiting, batches = [[] for _ in range(shards)], [[] for _ in range(shards)]
    for number, line in enumerate(lines):
        if "add" in line:
            shard, members = line["add"].get("shard", 0), line["add"]["doc"]
            waiting[shard].append((str(members["id"]), block_of(number, shard, members, types)))
        elif "delete" in line:
            waiting[line["delete"].get("shard", 0)].append((str(line["delete"]["id"]), None))
        elif "commit" in line:
            for shard in [line["commit"]["shard"]] if "shard" in line["commit"] else range(shards):
                batches[shard].append(waiting[shard])
                waiting[shard] = []
    return batches


def left_of(batches):
    """The places of the blocks that the operations of batches leave, in the order in which they were added."""
    left = {}
    for batch in batches:
        for name, block in batch:
            left.pop(name, None)
            if block:
                left[name] = block
    return [place for block in left.values() for place in block]


class Script:
    """The batches of a script's shards, and for each phase the commits up to its end."""

    def __init__(self, lines, conditions):
        self.shards, self.conditions = lines[0]["schema"]["shards"], conditions
        self.types = {"id": "string", **lines[0]["schema"]["fields"]}
        self.batches = operations(lines, self.types, self.shards)
        self.ends = commits_by_phase(lines, self.shards)

    def reply(self, search, numbers):
        """The line of a search that counts these generations."""
        places = [p for s in range(self.shards) for p in left_of(self.batches[s][:numbers[s]])]
        asked = Search(search["request"], places, self.conditions, self.types)
        facets = asked.bucket(search["request"].get("facet", {}), asked.base([]), set(range(self.shards)), [])
        return ordered({"facets": facets, "generations": numbers, "session": session_of(search)})


def session_of(search):
    return search.get("session", "main")


def searches(lines):
    """Each search with its number, from 1, and its phase, from 0."""
    number = phase = 0
    for line in lines[1:]:
        phase += "sync" in line
        if "search" in line:
            number += 1
            yield number, phase, line["search"]


def replies(lines, conditions, errors=None):
    """The lines that a script of these lines gives. Each search counts all commits up to the end of its phase."""
    script = Script(lines, conditions)
    for number, phase, search in searches(lines):
        if errors and number in errors:
            yield ordered({**errors[number], "session": session_of(search)})
        else:
            yield script.reply(search, script.ends[phase])


def ordered(value):
    return json.dumps(value, ensure_ascii=False, separators=(",", ":"), sort_keys=True)


def read_script(path):
    with open(path, encoding="utf-8") as script:
        return [json.loads(line) for line in script if line.strip()]


def write(lines):
    for line in lines:
        sys.stdout.buffer.write(line.encode("utf-8") + b"\n")
