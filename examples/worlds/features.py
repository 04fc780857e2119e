"""What stands in the scripts, and how often it matters: a parameter does in a search whose reply is another one without it."""
import collections

import counting
from worlds.shrinking import without

PARAMETERS = ["limit", "offset", "mincount", "missing", "prefix", "refine", "overrequest", "overrefine", "numBuckets", "sort",
              "hardend", "other", "include"]
STATISTICS = ["sum", "min", "max", "countvals", "missing", "unique"]
CHANGES = ["excludeTags", "blockChildren", "blockParent", "filter"]
INSIDE = "excludeTags in facets inside others"


def changed(facets, depth, change):
    """The facets with `change`, a function of a facet and its depth, made on each."""
    return {name: changed_facet(facet, depth, change) if isinstance(facet, dict) else facet for name, facet in facets.items()}


def changed_facet(facet, depth, change):
    made = change(facet, depth)
    return {**made, "facet": changed(facet["facet"], depth + 1, change)} if "facet" in facet else made


def without_statistic(facets, kind):
    """The facets without the statistics of a kind; what stands in a facet with a sort stays."""
    left = {}
    for name, facet in facets.items():
        text = counting.statistic_text(facet)
        if text is None and "facet" in facet:
            left[name] = facet if "sort" in facet else {**facet, "facet": without_statistic(facet["facet"], kind)}
        elif text is None or text.strip().partition("(")[0].strip() != kind:
            left[name] = facet
    return left


def removals():
    """Each parameter's name and what takes it away from a request."""
    for name in ("query", "filter"):
        yield name, lambda request, name=name: without(request, name)
    for name in PARAMETERS:
        yield name, in_facets(lambda facet, depth, name=name: without(facet, name))
    for kind in STATISTICS:
        yield "statistic: " + kind, lambda request, kind=kind: (
            {**request, "facet": without_statistic(request["facet"], kind)} if "facet" in request else request)
    for name in CHANGES:
        yield "domain: " + name, in_facets(lambda facet, depth, name=name: without_change(facet, name))
    for at in range(1, 8):
        yield f"refine, depth {at}", in_facets(
            lambda facet, depth, at=at: without(facet, "refine") if depth == at else facet)
    for at in range(1, 9):
        yield f"excludeTags, depth {at}", in_facets(
            lambda facet, depth, at=at: without_change(facet, "excludeTags") if depth == at else facet)
    yield "refine: exact in place of true", in_facets(
        lambda facet, depth: {**facet, "refine": True} if facet.get("refine") == "exact" else facet)
    yield INSIDE, in_facets(lambda facet, depth: without_change(facet, "excludeTags") if depth > 1 else facet)


def in_facets(change):
    return lambda request: {**request, "facet": changed(request.get("facet", {}), 1, change)} if "facet" in request else request


def without_change(facet, name):
    return {**facet, "domain": without(facet["domain"], name)} if "domain" in facet else facet


def depth_of(facets):
    return max((1 + depth_of(facet.get("facet", {})) if isinstance(facet, dict) else 1 for facet in facets.values()), default=0)


def holds(facets, test):
    """Whether one of the facets, or of those inside them, meets a test."""
    return any(isinstance(one, dict) and (test(one) or holds(one.get("facet", {}), test)) for one in facets.values())


class Seen:
    """Counts over scripts: how often something stands there, and how often it matters."""

    def __init__(self):
        self.there, self.matters = collections.Counter(), collections.Counter()

    def see(self, world):
        script = counting.Script(world.lines, world.conditions)
        self.there[f"scripts of {script.shards} shards"] += 1
        self.there["scripts that are run several times"] += world.runs > 1
        documents = [line["add"]["doc"] for line in world.lines if "add" in line]
        self.there["documents"] += len(documents) + sum(len(one.get("_childDocuments_") or []) for one in documents)
        for _, phase, search in counting.searches(world.lines):
            request, numbers = search["request"], script.ends[phase]
            self.there["searches"] += 1
            fault = world.faults.get(counting.ordered(request))
            if fault:
                self.there["fault: " + fault["error"]] += 1
                continue
            self.there[f"facets to depth {depth_of(request.get('facet', {}))}"] += 1
            self.there["ranges of dates"] += holds(request.get("facet", {}), lambda facet: isinstance(facet.get("gap"), str))
            self.there["several legal numbers"] += phase > 0 and script.ends[phase - 1] != numbers
            self.see_parameters(script, search, numbers)

    def see_parameters(self, script, search, numbers):
        reply = script.reply(search, numbers)
        for name, change in removals():
            request = change(search["request"])
            if request != search["request"]:
                self.there[name] += 1
                self.matters[name] += script.reply({**search, "request": request}, numbers) != reply

    def table(self):
        for name in sorted(self.there):
            share = f", {100 * self.there[name] / self.there['searches']:.0f} % of the searches" if name == INSIDE else ""
            matters = f", and changes the reply in {self.matters[name]}" if name in self.matters else ""
            yield f"  {name}: {self.there[name]}{share}{matters}"
