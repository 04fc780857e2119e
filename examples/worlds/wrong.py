"""Wrong counting, to show that the scripts find it: each is one edit of counting.py, of date_texts.py or of worlds/queries.py, a piece
of text that stands there once and what takes its place. And wrong choosing: programs that show or count other generations."""
import json
import os
import types

from worlds import judging, scripts

FOLDER = os.path.dirname(os.path.dirname(os.path.realpath(__file__)))
# How the number of a facet's buckets is counted.
NUMBER = 'sum(sum(has(p, v) for p in places) >= facet.get("mincount", 1) for v in values(places))'
EDITS = [
    ("no over-request", "counting.py", 'offset + limit + more("overrequest")', "offset + limit"),
    ("over-request whatever is asked", "counting.py", 'more("overrequest")', "tenth"),
    ("an over-request of 5 by default", "counting.py", "limit // 10 + 4", "limit // 10 + 5"),
    ("no tenth in the over-request", "counting.py", "limit // 10 + 4", "4"),
    ("shards forget the offset", "counting.py", "order[:offset + limit + more", "order[:limit + more"),
    ("limit -1 offers what 10 does", "counting.py", "order if limit == -1 else", "order[:15] if limit == -1 else"),
    ("shards judge by mincount", "counting.py", "for v in values(own)})",
     "for v in values(own) if sum(has(p, v) for p in own) >= facet.get('mincount', 1)})"),
    ("no over-refinement", "counting.py", 'offset + limit + more("overrefine")', "offset + limit"),
    ("chosen without the offset", "counting.py", '[:offset + limit + more("overrefine")]', '[:limit + more("overrefine")]'),
    ("all candidates are chosen", "counting.py", 'if facet.get("refine") is True and limit != -1:', "if False:"),
    ("chosen by the counts of all shards", "counting.py", "if has(p, v) and p.shard in offering[v]] for v in candidates",
     "if has(p, v)] for v in candidates"),
    ("what is exact is chosen as what is refined", "counting.py", 'if facet.get("refine") is True and limit', 'if facet.get("refine") and limit'),
    ("what no shard offers is not found", "counting.py", 'values(places) if facet.get("refine") == "exact" else set()', "set()"),
    ("what is exact is counted on the shards that offer it", "counting.py", 'counts_on_all = facet.get("refine") or',
     'counts_on_all = facet.get("refine") is True or'),
    ("refined over the shards that offer", "counting.py", "set(shards) if counts_on_all else offering[v]", "offering[v]"),
    ("always refined", "counting.py", "set(shards) if counts_on_all else offering[v]", "set(shards)"),
    ("refined outermost alone", "counting.py", 'facet.get("refine") or limit == -1',
     'facet.get("refine") and len(places) == len(self.base([])) or limit == -1'),
    ("without a limit no shard is asked again", "counting.py", " or limit == -1 and holds_exclusion(facet)", ""),
    ("what holds an exclusion is counted on the shards that offer", "counting.py",
     "set(shards) if counts_on_all else", "set(shards) if counts_on_all and not holds_exclusion(facet) else"),
    ("what holds an exclusion is refined, whatever its limit", "counting.py",
     "limit == -1 and holds_exclusion(facet)", "holds_exclusion(facet)"),
    ("an exclusion is held by the facet right around it alone", "counting.py",
     "any(excluded(one) or holds_exclusion(one) for one in nested)", "any(excluded(one) for one in nested)"),
    ("no mincount", "counting.py", 'if len(of) >= facet.get("mincount", 1)', ""),
    ("mincount behind the page", "counting.py", "ranked(enough)[offset:None if limit == -1 else offset + limit]",
     "[v for v in ranked(counted)[offset:None if limit == -1 else offset + limit] if v in enough]"),
    ("no offset", "counting.py", "ranked(enough)[offset:", "ranked(enough)[0:"),
    ("a page up to the limit", "counting.py",
     "offset:None if limit == -1 else offset + limit", "offset:None if limit == -1 else limit"),
    ("ties by the higher value", "counting.py", "order = sorted(of, key=index_order)",
     "order = sorted(of, key=index_order, reverse=True)"),
    ("ties turn with the direction", "counting.py", 'present.sort(key=key, reverse=direction == "desc")',
     'present.sort(key=key); direction == "desc" and present.reverse()'),
    ("absent statistics first", "counting.py", "return present + [v for v in order if key(v) is None]",
     "return [v for v in order if key(v) is None] + present"),
    ("an absent minimum is 0", "counting.py", "[name](pairs) if pairs else None", "[name](pairs) if pairs else 0"),
    ("index falls by default", "counting.py", '"asc" if name == "index" else "desc"', '"desc"'),
    ("count rises by default", "counting.py", '"asc" if name == "index" else "desc"', '"asc"'),
    ("texts in the order of UTF-16", "counting.py", 'text.encode("utf-8")', 'text.encode("utf-16-be")'),
    ("prefix touches missing", "counting.py", "lambda p: not p.document[field], shards)",
     "lambda p: not prefix and not p.document[field], shards)"),
    ("missing counts the offering shards", "counting.py", "lambda p: not p.document[field], shards)",
     "lambda p: not p.document[field], set().union(*known.values()))"),
    ("a sum counts documents", "counting.py", "return sum(pairs)",
     "return sum(max(p.document[field], default=0) for p in places)"),
    ("values are counted by documents", "counting.py", "return len(pairs)",
     "return sum(bool(p.document[field]) for p in places)"),
    ("all values are different", "counting.py", "return len(set(pairs))", "return len(pairs)"),
    ("a value is another one on each shard", "counting.py", "return len(set(pairs))",
     "return len({(p.shard, value) for p in places for value in p.document[field]})"),
    ("different values are counted by documents", "counting.py", "return len(set(pairs))",
     "return sum(bool(p.document[field]) for p in places)"),
    ("no different value is not printed", "counting.py", "return len(set(pairs))", "return len(set(pairs)) or None"),
    ("the number of buckets is that of the page", "counting.py", NUMBER, "len(page)"),
    ("the number of buckets is that of the chosen values", "counting.py", NUMBER, "len(enough)"),
    ("the number of buckets is that of the values that are offered", "counting.py", NUMBER,
     "sum(sum(has(p, v) for p in places) >= facet.get('mincount', 1) for v in offering)"),
    ("the number of buckets counts on the shards that offer", "counting.py", NUMBER,
     "sum(sum(has(p, v) and p.shard in offering.get(v, ()) for p in places) >= facet.get('mincount', 1) for v in values(places))"),
    ("the number of buckets is that of each shard, added up", "counting.py", NUMBER,
     "sum(sum(has(p, v) for p in places if p.shard == s) >= facet.get('mincount', 1) for v in values(places) for s in shards)"),
    ("in the number of buckets a shard judges by mincount", "counting.py", NUMBER,
     "sum(any(sum(has(p, v) for p in places if p.shard == s) >= facet.get('mincount', 1) for s in shards) for v in values(places))"),
    ("the number of buckets knows no mincount", "counting.py", NUMBER, "len(values(places))"),
    ("the number of buckets knows no prefix", "counting.py", NUMBER,
     "sum(sum(has(p, v) for p in places) >= facet.get('mincount', 1) for v in set().union(*(p.document[field] for p in places)))"),
    ("the number of buckets has the missing one", "counting.py", NUMBER, NUMBER + ' + bool(facet.get("missing"))'),
    ("the number of buckets knows no domain change", "counting.py",
     "result[name] = self.facet(command, self.domain(command, places, shards, around), shards, around)",
     "result[name] = self.facet(command, self.domain(command, places, shards, around), shards, around)\n"
     "                if 'numBuckets' in result[name] and command['type'] == 'terms':\n"
     "                    result[name]['numBuckets'] = self.facet(command, places, shards, around)['numBuckets']"),
    ("the number of buckets is printed beside buckets alone", "counting.py", 'if facet.get("numBuckets"):',
     'if facet.get("numBuckets") and page:'),
    ("the number of buckets is printed where it is false", "counting.py", 'if facet.get("numBuckets"):', 'if "numBuckets" in facet:'),
    ("missing counts those that have", "counting.py", "sum(not p.document[field] for p in places)",
     "sum(bool(p.document[field]) for p in places)"),
    ("exclusion needs all tags", "counting.py", "if not set(tags) & set(excluded)]",
     "if not tags or not set(tags) <= set(excluded)]"),
    ("exclusion takes the query away too", "counting.py", 'texts = [self.request.get("query", "*:*")]',
     'texts = [] if excluded else [self.request.get("query", "*:*")]'),
    ("exclusion behind the change's filter", "counting.py", "        return [p for p in places if p.shard in shards]",
     "        return [p for p in (self.begun_anew(facet, around) if excluded(facet) else places) if p.shard in shards]"),
    ("nested facets exclude nothing", "counting.py", "        if excluded(facet):", "        if excluded(facet) and not around:"),
    ("nested exclusion keeps to the bucket's places", "counting.py", "            places = self.begun_anew(facet, around)",
     "            places = [p for p in places if p in self.begun_anew(facet, around)]"),
    ("tags of the facets around are forgotten", "counting.py", "for one in [facet, *(outer for outer, _ in around)]", "for one in [facet]"),
    ("tags of the facet right around are forgotten", "counting.py", "(outer for outer, _ in around)]", "(outer for outer, _ in around[:-1])]"),
    ("only tags of the facet right around stay excluded", "counting.py", "(outer for outer, _ in around)]",
     "(outer for outer, _ in around[-1:])]"),
    ("the facets around exclude in place of the facet", "counting.py",
     "tags = [tag for one in [facet, *(outer for outer, _ in around)]",
     "tags = [tag for one in [outer for outer, _ in around if excluded(outer)] or [facet]"),
    ("a nested exclusion counts on all shards", "counting.py",
     "result[name] = self.facet(command, self.domain(command, places, shards, around), shards, around)",
     "on = {p.shard for p in self.places} if around and excluded(command) else shards; "
     "result[name] = self.facet(command, self.domain(command, places, on, around), on, around)"),
    ("the buckets around are forgotten", "counting.py", "if is_inside(p) and all(self.matches", "if all(self.matches"),
    ("only the bucket right around stays", "counting.py", "if is_inside(p) and all(self.matches",
     "if (outer is not around[-1][0] or is_inside(p)) and all(self.matches"),
    ("the bucket right around is forgotten", "counting.py", "if is_inside(p) and all(self.matches",
     "if (outer is around[-1][0] or is_inside(p)) and all(self.matches"),
    ("filters of the facets around are forgotten", "counting.py",
     "if is_inside(p) and all(self.matches(text, p) for text in domain_filters(outer))]", "if is_inside(p)]"),
    ("filters of the facet right around are forgotten", "counting.py", "for text in domain_filters(outer))]",
     "for text in domain_filters(outer) if outer is not around[-1][0])]"),
    ("only filters of the facet right around stay", "counting.py", "for text in domain_filters(outer))]",
     "for text in domain_filters(outer) if outer is around[-1][0])]"),
    ("one filter of a facet around is enough", "counting.py", "for text in domain_filters(outer))]",
     "for text in domain_filters(outer)[:1])]"),
    ("a shard without documents in a missing bucket does not list it", "counting.py", "of, shards, [*around",
     'of, {p.shard for p in of} if facet["type"] == "terms" and "val" not in first else shards, [*around'),
    ("a shard without documents in a gap does not list it", "counting.py", "of, shards, [*around",
     'of, {p.shard for p in of} if facet["type"] == "range" and "val" in first else shards, [*around'),
    ("a shard without documents beside the gaps does not list it", "counting.py", "of, shards, [*around",
     'of, {p.shard for p in of} if facet["type"] == "range" and "val" not in first else shards, [*around'),
    ("a shard without documents that match a query does not list it", "counting.py", "of, shards, [*around",
     'of, {p.shard for p in of} if facet["type"] == "query" else shards, [*around'),
    ("a shard without documents of a value that it is asked for lists nothing", "counting.py", "of, shards, [*around",
     'of, {p.shard for p in of} if facet["type"] == "terms" and "val" in first else shards, [*around'),
    ("no exclusion in an empty root", "counting.py", "elif places or excluded(command):", "elif places:"),
    ("no exclusion in an empty bucket", "counting.py", "elif places or excluded(command):",
     "elif places or excluded(command) and not around:"),
    ("empty buckets print their facets", "counting.py", "elif places or excluded(command):", "else:"),
    ("empty buckets print their statistics", "counting.py", "if places and value is not None:", "if value is not None:"),
    ("children of children", "counting.py", "for p in places if p.is_parent and self", "for p in places if self"),
    ("children of any parent", "counting.py", 'if p.is_parent and self.matches(change["blockChildren"], p)}', "if p.is_parent}"),
    ("a parent in the domain is left", "counting.py", "kept = {(p.shard, p.block) for p in places}",
     "kept = {(p.shard, p.block) for p in places if not p.is_parent}"),
    ("any parent", "counting.py", ' in kept and self.matches(change["blockParent"], p)]', " in kept]"),
    ("one filter of a domain is enough", "counting.py", "        for text in domain_filters(facet):", "        for text in domain_filters(facet)[:1]:"),
    ("one filter is enough", "counting.py", "if all(self.matches(text, p) for text in texts)]",
     "if all(self.matches(text, p) for text in texts[:2])]"),
    ("gaps are rounded down", "counting.py", "gaps = -((start - end) // gap)", "gaps = (end - start) // gap"),
    ("no hard end", "counting.py", 'if facet.get("hardend") and highs:', "if False:"),
    ("the last end is always hard", "counting.py", 'if facet.get("hardend") and highs:', "if highs:"),
    ("edge at each bucket's low end", "counting.py", '("edge" in words and i == 0)', '"edge" in words'),
    ("edge at no high end", "counting.py", '"upper" in words or ("edge" in words and i == len(lows) - 1)', '"upper" in words'),
    ("before never holds the start", "counting.py", 'x == start and ("outer" in words or not lower)', "False"),
    ("after never holds the end", "counting.py", 'x == last and ("outer" in words or not upper)', "False"),
    ("outer does nothing", "counting.py", '("outer" in words or not lower)', "not lower"),
    ("between to the asked end", "counting.py", "between(start, last, lower, upper)", 'between(start, end, lower, upper)'),
    ("between without the edge", "counting.py", 'bool(words & {"lower", "edge"}), bool(words & {"upper", "edge"})',
     '"lower" in words, "upper" in words'),
    ("gaps of dates by multiples from the start", "date_texts.py", "    low = start\n    while low is not None and low < end:\n        high = later(low, gap)",
     "    low, steps, (number, unit) = start, 0, GAP.fullmatch(gap).groups()\n    while low is not None and low < end:\n        steps += 1\n"
     "        months = int(number) * (12 if unit == 'YEAR' else 1) * steps\n"
     "        high = months_later(start, months) if unit in ('YEAR', 'MONTH') else later(low, gap)"),
    ("a gap of dates begins at the end", "date_texts.py", "low < end:", "low <= end:"),
    ("a month later the days carry into the next", "date_texts.py", "when.replace(year=year, month=month + 1, day=min(when.day, last))",
     "when.replace(year=year, month=month + 1, day=1) + datetime.timedelta(when.day - 1)"),
    ("a month's last day stays the last", "date_texts.py", "day=min(when.day, last)",
     "day=last if (when + datetime.timedelta(1)).day == 1 else min(when.day, last)"),
    ("a month is 30 days", "date_texts.py", '    if unit in ("YEAR", "MONTH"):',
     '    if unit == "MONTH":\n        return when + datetime.timedelta(30 * number)\n    if unit == "YEAR":'),
    ("a year is 365 days", "date_texts.py", '    if unit in ("YEAR", "MONTH"):',
     '    if unit == "YEAR":\n        return when + datetime.timedelta(365 * number)\n    if unit == "MONTH":'),
    ("a fraction is rounded", "date_texts.py", 'int((fraction or "").ljust(3, "0")[:3])',
     'min(round(float("0." + (fraction or "0")) * 1000), 999)'),
    ("each digit of a fraction counts", "date_texts.py", "thousandths * 1000)", 'int((fraction or "").ljust(6, "0")[:6]))'),
    ("a fraction is nothing", "date_texts.py", "thousandths * 1000)", "0)"),
    ("zeros in front of a fraction are missing", "date_texts.py", "// 1000:03}Z", "// 1000}Z"),
    ("zeros in front of a year are missing", "date_texts.py", "{when.year:04}", "{when.year}"),
    ("a prefix is of another text of the date", "counting.py", "printed(v).startswith(prefix)", "str(v).startswith(prefix)"),
    ("none does not win", "counting.py", 'asked = [] if "none" in asked else',
     'asked = [word for word in asked if word != "none"]; asked ='),
    ("an empty include holds nothing", "counting.py", ' or ["lower"]', ""),
    ("one value of a field is enough", "counting.py", "items = items if isinstance(items, list) else [items]",
     "items = items[:1] if isinstance(items, list) else [items]"),
    ("children are not counted", "counting.py", '*(members.get("_childDocuments_") or []), members]', "members]"),
    ("commits of later phases are seen", "counting.py", "left_of(self.batches[s][:numbers[s]])", "left_of(self.batches[s])"),
    ("nothing is deleted", "counting.py", "            left.pop(name, None)", "            left.pop(name if block else None, None)"),
    ("an overwrite keeps both", "counting.py", "            left.pop(name, None)\n            if block:\n                left[name] = block",
     "            block = block and left.get(name, []) + block\n            left.pop(name, None)\n            if block:\n                left[name] = block"),
    ("an overwrite changes nothing", "counting.py", "            left.pop(name, None)\n            if block:",
     "            if not block:\n                left.pop(name, None)\n            elif name not in left:"),
    ("a delete takes what is added behind it", "counting.py", "            if block:", "            if block and (name, None) not in batch:"),
    ("a delete reaches into its own batch alone", "counting.py", "            left.pop(name, None)",
     "            left.pop(name if block or any(name == one for one, added in batch if added) else None, None)"),
    ("a delete leaves the children", "counting.py", "            left.pop(name, None)",
     "            rest = [p for p in left.pop(name, []) if not block and not p.is_parent]\n"
     "            left.update({(name, number): [p] for number, p in enumerate(rest)})"),
    ("the ids of children count", "counting.py", "            left.pop(name, None)",
     "            left = {key: one for key, one in left.items() if not any(name in p.document['id'] for p in one)}"),
    ("an overwrite takes the blocks with the ids of its children too", "counting.py", "            left.pop(name, None)",
     "            names = {one for p in block or [] for one in p.document['id']} | {name}\n"
     "            left = {key: one for key, one in left.items() if key not in names}"),
    ("a delete takes the documents of every shard", "counting.py",
     'waiting[line["delete"].get("shard", 0)].append((str(line["delete"]["id"]), None))',
     '[one.append((str(line["delete"]["id"]), None)) for one in waiting]'),
    ("a delete is of the first shard", "counting.py", 'waiting[line["delete"].get("shard", 0)]', "waiting[0]"),
    ("a delete does not wait for its commit", "counting.py",
     'waiting[line["delete"].get("shard", 0)].append((str(line["delete"]["id"]), None))',
     'shard = line["delete"].get("shard", 0); (batches[shard] or [waiting[shard]])[-1].append((str(line["delete"]["id"]), None))'),
    ("documents are committed again", "counting.py", "waiting[shard] = []", "pass"),
    ("a group needs all", "worlds/queries.py", "return any(condition(document) for condition in optional)",
     "return all(condition(document) for condition in optional)"),
    ("an optional clause beside required ones", "worlds/queries.py", "if required or not optional:", "if not optional:"),
    ("a group of forbidden clauses finds nothing", "worlds/queries.py", "if required or not optional:", "if required:"),
    ("forbidden clauses are passed over", "worlds/queries.py", "return False", "pass"),
    ("AND reaches one side", "worlds/queries.py", "{before.strip(), behind.strip()}", "{behind.strip()}"),
    ("AND takes a sign away", "worlds/queries.py", "if sign in FORBIDDEN else", 'if sign in FORBIDDEN and not is_required else'),
    ("ends are always held", "worlds/queries.py", '(opens == "[" and low == value)', "low == value"),
    ("ends are never held", "worlds/queries.py", '(closes == "]" and high == value)', "False"),
    ("a star finds all", "worlds/queries.py", "bool(document[field])", "True"),
]
# Of the number of a search, the commits before its phase, those up to its end and what the program chose: the generations that are
# shown and those that are counted.
CHOICES = [
    ("a number one higher than what is counted", lambda number, before, most, chosen: (one_more(chosen), chosen)),
    ("a number one lower than what is counted", lambda number, before, most, chosen: (one_less(chosen), chosen)),
    ("the last commits before the phase are not seen", lambda number, before, most, chosen: (one_less(before),) * 2),
    ("commits behind the phase are seen", lambda number, before, most, chosen: (one_more(most),) * 2),
    ("a session sees less than it saw", lambda number, before, most, chosen: (chosen if number % 2 else before,) * 2),
]


def one_more(numbers):
    return [number + 1 for number in numbers]


def one_less(numbers):
    return [max(number - 1, 0) for number in numbers]


def edited(file, old, new):
    """The module that the edit makes."""
    with open(os.path.join(FOLDER, file), encoding="utf-8") as source:
        text = source.read()
    if text.count(old) != 1:
        raise ValueError(f"{file}: {old!r} stands {text.count(old)} times")
    module = types.ModuleType("edited")
    exec(compile(text.replace(old, new), file, "exec"), module.__dict__)
    return module


def finders(worlds, written, seed, file, old, new):
    """How many of the scripts find the edit, by what the program wrote for each."""
    right, module = judging.counting, edited(file, old, new)
    right_date_texts = right.date_texts
    if file == "counting.py":
        judging.counting = module
    elif file == "date_texts.py":
        right.date_texts = module
    else:
        worlds = (scripts.script_of(seed, number, module.Queries) for number in range(len(worlds)))
    try:
        return sum(judging.difference(world, *answer) is not None for world, answer in zip(worlds, written))
    finally:
        judging.counting, right.date_texts = right, right_date_texts


def chosen_otherwise(world, written, choose):
    """The lines of a program that chooses so."""
    script = judging.counting.Script(world.lines, world.conditions)
    for (number, phase, search), line in zip(judging.counting.searches(world.lines), written):
        chosen = judging.told_numbers(line, script.shards)
        if chosen is None:
            yield line
            continue
        shown, counted = choose(number, ([[0] * script.shards] + script.ends)[phase], script.ends[phase], chosen)
        yield judging.ordered({**json.loads(script.reply(search, counted)), "generations": shown})


def choice_finders(worlds, written, choose):
    """How many of the scripts find a program that chooses so."""
    changed = ((world, status, list(chosen_otherwise(world, lines, choose))) for world, (status, lines) in zip(worlds, written))
    return sum(judging.difference(*one) is not None for one in changed)
